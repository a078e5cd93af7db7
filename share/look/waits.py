"""The view `waits`: how long each TID waited for what, in events of the whole machine."""
from tables import table

OWN = {"top": "N"}
HEAD = ["TID", "core", "begun", "executes", "lines", "TID?", "probes", "commit", "took", "last reply", "end"]
LEGEND = ["executes: from its first instruction to its last, or until it asks to go alone; lines: so much of that it waits for lines;",
          "TID?: for its TID; probes: for the directories to serve it; commit: from there to the commit point; took: all together"]


def span(first, last):
    return "" if first is None or last is None else last - first


def row(run, tid, attempt):
    begun, ended = (attempt.first, attempt.ended) if attempt else (None, None)
    taken = tid.taken if not run.settings.bus else None
    last = tid.committed if tid.committed is not None else tid.given_up
    waiting = sum(min(filled, ended) - missed for missed, filled in attempt.waited if missed < ended) if attempt else ""
    end = "commits" if tid.committed is not None else "given up" if tid.given_up is not None else "open"
    if attempt:
        end += (" alone" if attempt.alone is not None else "") + (f", attempt {attempt.earlier + 1}" if attempt.earlier else "")
    ready = tid.ready if run.settings.bus is False else ended
    start = begun if begun is not None else tid.asked
    return [tid.tid, f"c{tid.core}", begun if attempt else "", span(begun, ended), waiting, span(tid.asked, taken),
            span(taken, tid.ready), span(ready, tid.committed), span(start, last), tid.last_reply, end]


def show(run, program, arguments):
    own = {it.commit.tid: it for it in run.commits}
    rows = [row(run, tid, own.get(number)) for number, tid in sorted(run.tids.items())]
    if arguments.has("top"):
        rows = sorted(rows, key=lambda it: -(it[8] or 0))[:arguments.number("top")]
    yield from table(HEAD, rows, ["last reply", "end"])
    yield ""
    yield from LEGEND
