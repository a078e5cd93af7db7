#!/usr/bin/env python3
"""The experiments on the machine with one bus, beside those with directories: what is counted of each run, by `count --bus --csv`, and the
same numbers of the sweep over cores with four directories (rows/cores), which `count --csv` counted.

    buses.py rows PROGRAM.elf CORES SEED    runs one on the bus, and prints its row: the program, and the numbers
    buses.py head PROGRAM.elf               the names of these
    buses.py list PROGRAM..                 the words of all runs, a line each
    buses.py draw ROWS Y PICTURE            the curves of both machines, as SVG: Y is a number's name, or one divided by another
    buses.py table ROWS                     commits and what is lost, the mean over the seeds
"""
import csv
import itertools
import os
import pathlib
import subprocess
import sys
from fractions import Fraction

sys.dont_write_bytecode = True
HERE = pathlib.Path(__file__).resolve().parent
sys.path[:0] = [str(HERE.parents[1] / "share" / "sweep")]
from picture import Curves, svg

CORES, SEEDS = (1, 2, 4, 8, 16), (1, 2, 3, 4, 5)
MACHINE = "--ram 131072 --sets 64 --ways 4".split()
DRAWN = ("kmeans-1", "maze", "reserve-1")


def counted(image, cores, seed):
    """The two lines that the program prints of a run on the bus."""
    words = [os.environ["TCC"], "count", "--bus", "--csv", *MACHINE, "--cores", str(cores), "--seed", str(seed), image]
    made = subprocess.run(words, capture_output=True, text=True, check=False)
    if made.returncode not in (0, 1) or made.stderr:
        sys.exit(f"buses.py: {' '.join(words)}: status {made.returncode}; {made.stderr}")
    return made.stdout.splitlines()


def read(name):
    """The rows of a file, by the names of its first line. That may stand anywhere, as sorting puts it."""
    with open(name, encoding="ascii") as file:
        lines = file.read().splitlines()
    head = next(it for it in lines if ",cores," in it)
    return list(csv.DictReader([head, *(it for it in lines if it != head)]))


def runs_of(name):
    """The rows of both machines: of each the program, and the machine's name."""
    on_bus = read(name)
    for row in on_bus:
        yield row["program"], "bus", row
    for program in sorted({it["program"] for it in on_bus}):
        for row in read(pathlib.Path(name).parent / "cores" / f"{program}.csv"):
            yield program, "directories", row


def value(row, measure):
    above, slash, below = measure.partition("/")
    return Fraction(int(row[above]), int(row[below]) if slash else 1)


def points(name, measure, programs):
    """A point for each program, machine and number of cores: the mean over the seeds, the least and the greatest."""
    found = {}
    for program, machine, row in runs_of(name):
        if program in programs:
            found.setdefault(((f"{program}, {machine}",), int(row["cores"])), []).append((value(row, measure), row["end"]))
    for (curve, cores), rows in sorted(found.items()):
        values = [it for it, _ in rows]
        yield curve, cores, sum(values) / len(values), min(values), max(values), len(rows), sum(end == "open" for _, end in rows)


def draw(name, measure, picture):
    text = svg(Curves("cores", measure, ["file"], ["seed"], True, list(points(name, measure, DRAWN))))
    pathlib.Path(picture).write_text(text, encoding="utf-8")


def table(name):
    """Of each program and machine: commits, instructions committed, and lost, by the number of cores."""
    measures = ("attempts_committed", "instructions_committed", "instructions_lost")
    print(f"{'program':10} {'machine':12} {'':10}", *(f"{it:8}" for it in CORES))
    programs = sorted({program for program, _, _ in runs_of(name)})
    for program in programs:
        means = {(it, curve[0], cores): mean for it in measures for curve, cores, mean, *_ in points(name, it, [program])}
        for machine, measure in itertools.product(("directories", "bus"), measures):
            what = measure.replace("attempts_committed", "commits").replace("instructions_", "")
            print(f"{program:10} {machine:12} {what:10}", *(f"{float(means[measure, f'{program}, {machine}', it]):8.0f}" for it in CORES))


def main(what, *words):
    if what == "rows":
        print(f"{pathlib.Path(words[0]).stem},{counted(*words)[1]}")
    elif what == "head":
        print(f"program,{counted(words[0], 1, 1)[0]}")
    elif what == "list":
        for run in itertools.product(words, CORES, SEEDS):
            print(*run)
    elif what == "draw":
        draw(*words)
    else:
        table(*words)


if __name__ == "__main__":
    main(*sys.argv[1:])
