"""The view `perfetto`: the run in the Trace Event Format (JSON), which ui.perfetto.dev and chrome://tracing open.

A microsecond is one event. Each core and each directory has a track, the vendor too: its attempts, with the phases in which it waits to
commit in them, and its events, each one microsecond long. An arrow (a flow) goes from the event that sent a message to the one that took
it.
Counters: messages in flight, and instructions committed and lost.
"""
import json

from facts import Commit, Delivered, Did, Sent, Violated
from tables import line_names, words_of

OWN = {}
PROCESS = 1


def tracks(settings):
    """The number of each node's track; on the bus the cores are all."""
    names = [f"c{it}" for it in range(settings.cores)]
    if not settings.bus:
        names += [*(f"d{it}" for it in range(settings.dirs)), "v"]
    return {name: at + 1 for at, name in enumerate(names)}


def long_name(node):
    return {"c": "core ", "d": "directory ", "v": "vendor"}[node[0]] + node[1:]


def slice_of(track, name, start, duration, **more):
    return {"ph": "X", "pid": PROCESS, "tid": track, "name": name, "ts": start, "dur": duration, **more}


def heads(numbers):
    yield {"ph": "M", "pid": PROCESS, "name": "process_name", "args": {"name": "machine"}}
    for node, track in numbers.items():
        yield {"ph": "M", "pid": PROCESS, "tid": track, "name": "thread_name", "args": {"name": long_name(node)}}
        yield {"ph": "M", "pid": PROCESS, "tid": track, "name": "thread_sort_index", "args": {"sort_index": track}}


def attempts(run, program, numbers):
    for it in run.attempts:
        last = it.last if it.last is not None else run.last - 1
        track, what = numbers[f"c{it.core}"], {"instructions": it.count, "earlier attempts": it.earlier}
        if it.commit:
            name, colour = f"TID {it.commit.tid}", "good"
        elif it.violated:
            by = it.violated
            name, colour = f"violated by core {by.by}", "terrible"
            what |= {"by TID": by.tid, "line": by.line, "words": words_of(by.words), "holds": line_names(run, program, by.line)}
        else:
            name, colour = "not ended", "grey"
        yield slice_of(track, name, it.first, last - it.first + 1, cat="attempt", cname=colour, args=what)
        if it.ended is not None and it.ended < last:
            end = last + 1 if it.alone is None else it.alone
            yield slice_of(track, "waits to commit", it.ended, end - it.ended, cat="phase")


def title(event, program):
    fact = event.facts[0]
    if type(fact) is Did:
        return program.instruction(fact.pc) or fact.what
    if type(fact) is Delivered:
        return f"{fact.how} {fact.message.kind}"
    return type(fact).__name__.lower()


def events(run, program, numbers):
    """Each event, and the ends of the flows at it. A message that an earlier window sent has no flow."""
    sent, flows = {}, 0
    for event in run.events:
        track = numbers[event.node]
        yield slice_of(track, title(event, program), event.number, 1, cat="event", args={"event": event.number, "line": event.text})
        flow = {"pid": PROCESS, "tid": track, "cat": "message", "ts": event.number}
        took = event.facts[0]
        if event.text[0] == "d" and took.how != "asked" and event.text[2:] in sent:
            yield {"ph": "f", "bp": "e", "id": sent.pop(event.text[2:]), "name": took.message.kind, **flow}
        for fact in event.facts:
            if type(fact) is Sent and fact.source:
                flows += 1
                sent[f"{fact.source} {fact.to} {fact.seq}"] = flows
                yield {"ph": "s", "id": flows, "name": fact.message.kind, **flow}


def counters(run):
    flight = committed = lost = 0
    for event in run.events:
        before = flight, committed, lost
        for fact in event.facts:
            kind = type(fact)
            flight += kind is Sent and fact.source != ""
            flight -= kind is Delivered and fact.how != "asked" and event.text[0] == "d"
            committed += fact.count if kind is Commit else 0
            lost += fact.lost if kind is Violated else 0
        if before[0] != flight or event is run.events[0]:
            yield {"ph": "C", "pid": PROCESS, "name": "messages in flight", "ts": event.number, "args": {"messages": max(flight, 0)}}
        if before[1:] != (committed, lost) or event is run.events[0]:
            yield {"ph": "C", "pid": PROCESS, "name": "instructions", "ts": event.number, "args": {"committed": committed, "lost": lost}}


def show(run, program, arguments):
    numbers = tracks(run.settings)
    other = {"unit": "a microsecond is one event", "machine": run.settings.text()}
    yield '{"displayTimeUnit": "ns", "otherData": ' + json.dumps(other) + ","
    yield '"traceEvents": ['
    before = None
    for part in (heads(numbers), attempts(run, program, numbers), events(run, program, numbers), counters(run)):
        for it in part:
            if before is not None:
                yield before + ","
            before = json.dumps(it, separators=(",", ":"))
    yield before
    yield "]}"
