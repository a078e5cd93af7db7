"""The view `conflicts`: who violated whom, as a table, or as a graph for Graphviz."""
from collections import Counter, defaultdict

from tables import line_names, table

OWN = {"dot": None}


def pairs(run):
    """By committer, victim and line: how many violations, and how many instructions were lost."""
    found = defaultdict(Counter)
    for _, it in run.violations:
        found[it.by, it.core, it.line].update(violations=1, lost=it.lost)
    return dict(sorted(found.items()))


def dot(run, program):
    yield "digraph conflicts {"
    yield '    node [shape=circle]; edge [fontsize=10];'
    for (by, core, line), row in pairs(run).items():
        text = f"{line_names(run, program, line)}\\n{row['violations']} times, {row['lost']} lost"
        yield f'    c{by} -> c{core} [label="{text}", penwidth={1 + min(row["violations"], 9) / 3:.1f}];'
    yield "}"


def show(run, program, arguments):
    if arguments.has("dot"):
        yield from dot(run, program)
        return
    found = pairs(run)
    if not found:
        yield "no attempt was violated"
        return
    cores = sorted({it[0] for it in found} | {it[1] for it in found})
    yield "violations: rows committed, columns were violated"
    matrix = Counter()
    for (by, core, _), row in found.items():
        matrix[by, core] += row["violations"]
    yield from table(["", *(f"c{it}" for it in cores)], [[f"c{by}", *(matrix[by, it] or "." for it in cores)] for by in cores])
    yield ""
    order = sorted(found.items(), key=lambda it: (-it[1]["lost"], it[0]))
    yield from table(["by", "violated", "line", "times", "lost", "holds"],
                     [[f"c{by}", f"c{core}", line, row["violations"], row["lost"], line_names(run, program, line)]
                      for (by, core, line), row in order], ["violated", "holds"])
