#!/usr/bin/env python3
"""Curves from the rows of a sweep: a column against another, a curve for each value of a third. docs/SWEEPS.md has a page on it.

    plot --x COLUMN --y COLUMN [--by COLUMN] [--over COLUMN] ROWS... -o PICTURE
"""
import os
import pathlib
import shutil
import sys
from fractions import Fraction

sys.dont_write_bytecode = True
if sys.version_info < (3, 10):
    print("plot: it needs Python 3.10", file=sys.stderr)
    sys.exit(2)
from picture import Curves, by_gnuplot, svg
from points import Fault
from rows import AT, COLUMNS, KEY, TABLES, read

USAGE = """Usage: {name} plot --x COLUMN --y COLUMN [OPTION]... ROWS...

Draws curves from files of rows, which `{name} sweep` makes; several files are one set of rows.

  --x COLUMN        what goes to the right
  --y COLUMN        what goes up; COLUMN/COLUMN is a ratio, of each row for itself
  --by COLUMN,..    a curve for each value of these
  --over COLUMN,..  each point is the mean of the rows that differ in these, with a bar from the least to the greatest
  --where NAME=VALUE  only rows that have this; more than one for several
  --log             the scale to the right is that of powers of two
  -o FILE           the picture, as SVG; without it standard output
  --svg             the picture is made here, and not by gnuplot where that is installed
  --table           prints the numbers that would be drawn, as a table, and draws nothing

A COLUMN is a name of the rows' first line, or what stands there behind _ where only one ends so: lost is instructions_lost. A table's name
alone is its first column: instructions is instructions_executed, attempts attempts_begun, messages messages_sent. --by file is a curve for
each file of rows, named after it; then the files may be of different images.
"""
VALUED = {"--x", "--y", "--by", "--over", "--where", "-o"}
FLAGS = {"--log", "--svg", "--table"}
FIRST = {table: f"{table}_{names.split()[0]}" for table, names in TABLES.items()}


def column(text):
    """The column that a word names."""
    if text in AT or text == "file":
        return text
    if text in FIRST:
        return FIRST[text]
    found = [it for it in COLUMNS if it.partition("_")[2] == text]
    if len(found) != 1:
        raise Fault(f"there is no column {text}" if not found else f"the column {text} may be {' or '.join(found)}")
    return found[0]


def columns(text):
    return [column(it) for it in text.split(",")] if text else []


def words_of(given):
    """The options with their values, and the files."""
    values, files, rest = {"--where": []}, [], list(given)
    while rest:
        word, equals, value = rest.pop(0).partition("=")
        if word == "--" and not equals:
            return values, files + rest
        if not word.startswith("-"):
            files.append(word + equals + value)
        elif word not in VALUED | FLAGS:
            raise Fault(f"there is no option {word} here")
        elif word in FLAGS and equals or word in VALUED and not equals and not rest:
            raise Fault(f"{word} " + ("takes no value" if word in FLAGS else "needs a value"))
        elif word == "--where":
            values[word].append(value if equals else rest.pop(0))
        elif word in values:
            raise Fault(f"{word} is given twice")
        else:
            values[word] = "" if word in FLAGS else value if equals else rest.pop(0)
    return values, files


def rows_of(files, where, apart):
    """The rows of all files, cut to those that have the wanted values: as one set, or each file as a set of its own."""
    rows, wanted = {}, []
    for it in where:
        name, equals, value = it.partition("=")
        if not equals:
            raise Fault(f"--where is NAME=VALUE, and this is '{it}'")
        wanted.append((column(name), value))
    for name in files:
        for key, row in read(name).items():
            row["path"], row["file"] = name, pathlib.Path(name).stem
            other = rows.setdefault((row["file"] if apart else "", key), row)
            if any(other[it] != row[it] for it in COLUMNS):
                raise Fault(f"{name} line {row['line']}: {other['path']} line {other['line']} has other numbers of the same run")
    return [row for row in rows.values() if all(row[name] == value for name, value in wanted)]


def measure(text):
    """What the value of a row is: a column, or one divided by another."""
    above, slash, below = text.partition("/")
    names = [column(above)] + ([column(below)] if slash else [])
    for it in names:
        if not numeric(it):
            raise Fault(f"the column {it} has no numbers to draw")

    def value(row):
        if slash and row[names[1]] == "0":
            raise Fault(f"{row['path']} line {row['line']}: {names[1]} is 0, and nothing can be divided by it")
        return Fraction(int(row[names[0]]), int(row[names[1]]) if slash else 1)
    return value, "/".join(names)


def numeric(name):
    return name not in ("program", "images", "end", "file")


def order(texts):
    return tuple((0, int(it), "") if it.isdigit() and len(it) < 16 else (1, 0, it) for it in texts)


def grouped(rows, x, by, over, value):
    """The points: by the values of `by` and then of x, the mean, the least and the greatest, how many rows, and how many ended open."""
    for name in KEY:
        if name in (x, *by, *over):
            continue
        own = "file" in by and name == "images"  # of each file it may be another
        if len({(row["file"] if own else "", row[name]) for row in rows}) > (len({row["file"] for row in rows}) if own else 1):
            raise Fault(f"rows differ in {name} too: name it with --by or --over, or choose with --where {name}=..")
    groups = {}
    for row in rows:
        groups.setdefault((tuple(row[it] for it in by), row[x]), []).append(row)
    for (curve, at), group in sorted(groups.items(), key=lambda it: (order(it[0][0]), int(it[0][1]))):
        if len(group) > 1 and not over:
            raise Fault(f"{x} {at} has {len(group)} rows; --over says over which column their mean is")
        found = [value(row) for row in group]
        yield curve, int(at), sum(found) / len(found), min(found), max(found), len(group), sum(row["end"] == "open" for row in group)


def table(curves):
    yield ",".join([*curves.by, curves.x, "mean", "min", "max", "rows", "open"])
    for curve, x, mean, least, most, count, still in curves.points:
        yield ",".join([*curve, str(x), *(f"{float(it):.6f}" for it in (mean, least, most)), str(count), str(still)])


def write(name, text):
    """The file, whole or not at all."""
    if not name:
        sys.stdout.write(text)
        sys.stdout.flush()
        return
    try:
        if os.path.exists(name) and not os.path.isfile(name):
            with open(name, "w", encoding="utf-8") as file:
                file.write(text)
            return
        beside = f"{name}.{os.getpid()}.new"
        try:
            with open(beside, "x", encoding="utf-8") as file:
                file.write(text)
            os.replace(beside, name)
        except BaseException:
            if os.path.exists(beside):
                os.unlink(beside)
            raise
    except OSError as fault:
        raise Fault(f"{name}: {fault.strerror}") from None


def curves_of(words, files):
    if missing := [it for it in ("--x", "--y") if it not in words]:
        raise Fault(f"{missing[0]} is missing")
    if not files:
        raise Fault("there are no files of rows")
    x, by, over = column(words["--x"]), columns(words.get("--by")), columns(words.get("--over"))
    if not numeric(x):
        raise Fault(f"the column {x} has no numbers to draw")
    value, label = measure(words["--y"])
    rows = rows_of(files, words["--where"], "file" in by)
    if not rows:
        raise Fault("there are no such rows")
    curves = Curves(x, label, by, over, "--log" in words, list(grouped(rows, x, by, over, value)))
    if curves.log and curves.points and min(point[1] for point in curves.points) < 1:
        raise Fault(f"--log: {x} has 0")
    return curves


def plot(given, name):
    if not given or "-h" in given or "--help" in given:
        sys.stdout.write(USAGE.format(name=name))
        return 0 if given else 2
    words, files = words_of(given)
    curves = curves_of(words, files)
    if "--table" in words:
        text = "\n".join(table(curves)) + "\n"
    elif "--svg" not in words and (program := shutil.which("gnuplot")):
        text = by_gnuplot(program, curves)
    else:
        text = svg(curves)
    write(words.get("-o"), text)
    return 0


def main(name, given):
    try:
        return plot(given, name)
    except Fault as fault:
        print(f"plot: {fault}", file=sys.stderr)
        return 2
    except OSError as fault:
        os.dup2(os.open(os.devnull, os.O_WRONLY), sys.stdout.fileno())
        if not isinstance(fault, BrokenPipeError):
            print(f"plot: output: {fault.strerror}", file=sys.stderr)
        return 6


if __name__ == "__main__":
    sys.exit(main(os.environ.get("LOOK_NAME", "hoopoelarder"), sys.argv[1:]))
