"""The view `lines`: which lines of memory cost most, and what lies in them."""
from collections import Counter, defaultdict

from facts import Delivered, Did, Miss, Violated
from tables import line_names, table

OWN = {"top": "N"}
COLUMNS = ["loads", "stores", "changes", "misses", "invalidations", "violations", "lost"]


def counts(run):
    """What happened with each line, by the names of COLUMNS."""
    lines, packet = defaultdict(Counter), []
    for event in run.events:
        for fact in event.facts:
            kind = type(fact)
            if kind is Did and fact.address is not None:
                lines[run.settings.line_of(fact.address)][fact.what + "s"] += 1
            elif kind is Miss:
                lines[fact.line]["misses"] += 1
            elif kind is Delivered and fact.how == "took" and fact.message.kind in ("Inv", "Packet"):
                for line in packet if fact.message.kind == "Packet" else [fact.message.line]:
                    lines[line]["invalidations"] += 1
            elif kind is Violated:
                lines[fact.line].update(violations=1, lost=fact.lost)
        packet = [it.message.line for it in event.facts if getattr(it, "source", None) == ""] or packet
    return lines


def show(run, program, arguments):
    rows = sorted(counts(run).items(), key=lambda it: (-it[1]["lost"], -it[1]["invalidations"], -it[1]["misses"], it[0]))
    rows = rows[:arguments.number("top", 20)]
    home = [] if run.settings.bus else ["home"]
    yield from table(["line", "address", *home, *COLUMNS, "holds"],
                     [[line, f"{run.settings.address(line):08x}", *(f"d{run.settings.home(line)}" for _ in home),
                       *(row[it] for it in COLUMNS), line_names(run, program, line) if program.symbols else ""] for line, row in rows],
                     ["holds"])
