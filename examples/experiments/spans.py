#!/usr/bin/env python3
"""The longest path through runs of the experiments, where a message takes H times as long as an event, and what that says of cores: how
many times as long one core's path is.

    spans.py rows PROGRAM.elf CORES SEED    runs one, and prints its rows: program, cores, seed, hop, span, events
    spans.py list PROGRAM..                 the words of all runs, a line each
    spans.py draw ROWS PICTURE              the curves with a hop of 10, as SVG
    spans.py table ROWS                     all of them as a table
"""
import csv
import itertools
import os
import pathlib
import subprocess
import sys
from fractions import Fraction

sys.dont_write_bytecode = True
HERE = pathlib.Path(__file__).resolve().parent
SHARE = HERE.parents[1] / "share"
sys.path[:0] = [str(SHARE / "sweep"), str(SHARE / "look")]
from picture import Curves, svg
from span import Clock
from trace import Trace

CORES, SEEDS, HOPS, DRAWN = (1, 2, 4, 8, 16), (1, 2, 3), (1, 10, 100), 10
MACHINE = "--ram 131072 --sets 64 --ways 4 --dirs 4".split()


def rows(image, cores, seed):
    """The rows of a run: its trace is read once, with a clock for each hop."""
    words = [os.environ["TCC"], "trace", *MACHINE, "--cores", cores, "--seed", seed, image]
    clocks, events = {hop: Clock(False, hop) for hop in HOPS}, 0
    with subprocess.Popen(words, stdout=subprocess.PIPE, text=True) as run:
        for event in Trace(run.stdout, image):
            events += 1
            for clock in clocks.values():
                clock.take(event)
    return [[pathlib.Path(image).stem, cores, seed, str(hop), str(it.last.ends), str(events)] for hop, it in clocks.items()]


def ratios(name):
    """How many times as long the path of one core is, by program, hop and cores, one for each seed."""
    with open(name, encoding="ascii") as file:
        spans = {tuple(it.values())[:4]: int(it["span"]) for it in csv.DictReader(file)}
    found = {}
    for (program, cores, seed, hop), span in spans.items():
        found.setdefault((program, int(hop), int(cores)), []).append(Fraction(spans[program, "1", seed, hop], span))
    return found


def mean(values):
    return sum(values) / len(values)


def draw(name, picture):
    points = [((program,), cores, mean(it), min(it), max(it), len(it), 0) for (program, hop, cores), it in ratios(name).items() if hop == DRAWN]
    y = f"longest path of one core / of so many, a message at {DRAWN},"
    pathlib.Path(picture).write_text(svg(Curves("cores", y, ["file"], ["seed"], True, points)), encoding="utf-8")


def table(name):
    found = ratios(name)
    print("program".ljust(12), "hop", *(f"{it:6}" for it in CORES))
    for program, hop in dict.fromkeys(it[:2] for it in found):
        print(f"{program:12} {hop:3}", *(f"{float(mean(found[program, hop, it])):6.2f}" for it in CORES))


def main(what, *words):
    if what == "rows":
        for row in rows(*words):
            print(",".join(row))
    elif what == "list":
        for program in words:
            for cores, seed in itertools.product(CORES, SEEDS):
                print(program, cores, seed)
    elif what == "draw":
        draw(*words)
    else:
        table(*words)


if __name__ == "__main__":
    main(*sys.argv[1:])
