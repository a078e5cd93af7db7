#!/usr/bin/env python3
"""Looks whether a sweep's options, with their limits and defaults, are those that share/words.txt says of `count`. The address of the first
byte has no largest value there, since that depends on the RAM."""
import pathlib
import re
import sys

share = pathlib.Path(__file__).resolve().parents[2] / "share"
sys.path[:0] = [str(share), str(share / "sweep")]
import points
import words


def said(option):
    """Least and largest value and the default, as far as they are said."""
    limits = re.search("([0-9]+) to ([0-9]+)$", option.limits)
    return tuple(map(int, limits.groups() if limits else ())) + (int(option.default, 0),)


wanted = {it.name: said(it) for it in words.table()[1] if "count" in it.commands and it.value == "N" and it.default}
has = {name: it[-len(wanted.get(name, it)):] for name, it in points.LIMITS.items()}
if has != wanted:
    sys.exit(f"share/sweep/points.py has {has}, and share/words.txt {wanted}")
