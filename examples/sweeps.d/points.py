#!/usr/bin/env python3
"""Looks whether a picture has the points of a table: each mark lies where a straight scale puts its numbers, curve by curve, and where the
picture tells the numbers of a mark they are those of the table. The picture is SVG, of `plot` or of gnuplot.

    points.py PICTURE TABLE [log]
"""
import csv
import math
import re
import sys
import xml.etree.ElementTree

SVG = "{http://www.w3.org/2000/svg}"


def marks(root):
    """The places of all marks, each with its title."""
    for group in root.iter(SVG + "g"):
        for it in group.findall(SVG + "circle"):
            yield float(it.get("cx")), float(it.get("cy")), group.findtext(SVG + "title")
    for it in root.iter(SVG + "use"):
        place = re.match(r"translate\(([0-9.]+),([0-9.]+)\)", it.get("transform", ""))
        if place:
            yield float(place[1]), float(place[2]), None


def straight(pairs):
    """Whether places depend on numbers by one straight scale."""
    (a, at), (b, other) = min(pairs), max(pairs)
    return b > a and abs(other - at) > 100 and all(abs(at + (other - at) * (it - a) / (b - a) - place) < 0.1 for it, place in pairs)


def matches(found, rows, log):
    """Whether the marks, one for each row in this order, are those rows."""
    scale = math.log2 if log else float
    numbers = ["mean", "min", "max", "rows", "open"]
    told = [f"sets {it['sets']}, cores {it['cores']}: {', '.join(f'{name} {it[name]}' for name in numbers)}" for it in rows]
    return (len(found) == len(rows) and all(mark[2] in (None, text) for mark, text in zip(found, told))
            and straight([(scale(float(row["cores"])), mark[0]) for mark, row in zip(found, rows)])
            and straight([(-float(row["mean"]), mark[1]) for mark, row in zip(found, rows)]))


def main(picture, table, *how):
    with open(table, encoding="ascii") as file:
        rows = list(csv.DictReader(file))
    root = xml.etree.ElementTree.parse(picture).getroot()
    found = list(marks(root))
    if found and found[0][2] is None:  # gnuplot's key has a mark of each curve too, right of the last point
        right = sorted(it[0] for it in found)[len(rows):]
        found = [it for it in found if it[0] not in right]
    if not matches(found, rows, bool(how)):
        print(f"{picture}: the marks {found} aren't the points of the table", file=sys.stderr)
        return 1
    return 0


if __name__ == "__main__":
    sys.exit(main(*sys.argv[1:]))
