"""The view `blame`: which load cost how many instructions, by the source line or the instruction that made it.

A violation is due to the first access that marked one of its words read. What was lost is the whole attempt; `behind` is so much of it as
was executed from that access on, while the other's commit could still change what it had read.
"""
from collections import Counter, defaultdict

from run import culprit
from tables import table

OWN = {"top": "N"}


def blamed(run):
    """By pc and address: how often it was due to them, how many instructions were lost, and how many of those from the access on."""
    rows, unknown = defaultdict(Counter), Counter()
    for it in run.attempts:
        if not it.violated:
            continue
        found = culprit(run, it)
        if not found:
            unknown.update(violations=1, lost=it.violated.lost)
            continue
        number, did = found
        behind = sum(number <= at for at, _ in it.did)
        rows[did.pc, did.address].update(violations=1, lost=it.violated.lost, behind=behind)
    return rows, unknown


def show(run, program, arguments):
    rows, unknown = blamed(run)
    program.find_sources(pc for pc, _ in rows)
    order = sorted(rows.items(), key=lambda it: (-it[1]["lost"], it[0]))[:arguments.number("top", 20)]
    cells = [[row["violations"], row["lost"], row["behind"], f"{pc:08x}", program.name(pc) if program.symbols else "",
              program.name(address), program.source(pc), program.source_text(pc) or program.instruction(pc)]
             for (pc, address), row in order]
    if unknown:
        cells.append([unknown["violations"], unknown["lost"], "", "", "", "", "", "(before the trace begins)"])
    words = ["pc", "in", "reads", "source", "text"]
    yield from table(["violations", "lost", "behind", *words], cells, words)
