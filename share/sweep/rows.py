"""Rows: a row of `count --csv` with its key in front, and files of them. A row's key is the program, the images, whether they are raw, and
the options; all else in a row follows from the key, so that two rows of one key are the same text, and files join as sets of lines."""
import fcntl
import os
import re

from points import LIMITS, Fault

OPTIONS = ["cores", "dirs", "sets", "ways", "base", "ram", "seed", "steps"]
TABLES = {
    "attempts": "begun committed violated open row gaveup",
    "instructions": "executed committed lost open",
    "accesses": "loads stores changes misses fills overflows",
    "evictions": "clean dirty modified",
    "phases": "Running AwaitTid DoomedTid Probing Ready Overflowing Solo Halted",
    "messages": "sent took dropped asked flight",
}
COUNT = ["tcc-count", *OPTIONS, "end", "events", *(f"{table}_{it}" for table, names in TABLES.items() for it in names.split())]
FRONT = ["tcc-sweep", "program", "images", "raw"]
COLUMNS = FRONT + COUNT
HEAD = ",".join(COLUMNS)
KEY = ["program", "images", "raw", *OPTIONS]
AT = {name: at for at, name in enumerate(COLUMNS)}
SUM = "[0-9a-f]{16}"
LONGEST = 10000  # characters of a line
SHAPES = {"tcc-sweep": "1", "tcc-count": "1", "program": SUM, "images": rf"{SUM}(\+{SUM}){{0,15}}", "raw": "[01]", "end": "done|open"}
PATTERNS = [re.compile(SHAPES.get(name, "0|[1-9][0-9]*")) for name in COLUMNS]


def key_of(program, images, raw, options):
    """The key of a run, as the texts of its columns."""
    full = [str(options.get(name, LIMITS[name][2])) for name in OPTIONS]
    return (program, "+".join(images), "1" if raw else "0", *full)


def parsed(line):
    """The texts of a row by column; a Fault says what is wrong in it."""
    cells = line.split(",")
    if len(cells) != len(COLUMNS):
        raise Fault(f"a row has {len(COLUMNS)} columns, and this has {len(cells)}")
    for name, cell, pattern in zip(COLUMNS, cells, PATTERNS):
        if not pattern.fullmatch(cell):
            raise Fault(f"the column {name} can't be '{cell}'")
    row = dict(zip(COLUMNS, cells))
    total = lambda table: sum(int(row[f"{table}_{it}"]) for it in TABLES[table].split())
    if total("phases") != int(row["events"]) * int(row["cores"]):
        raise Fault("the phases don't add up to the events of all cores")
    if total("instructions") != 2 * int(row["instructions_executed"]):
        raise Fault("the instructions that were committed, lost and open don't add up to those executed")
    return row


def key(row):
    return tuple(row[name] for name in KEY)


def read(name, missing=False):
    """The rows of a file by key, each with its line. Lines with the names of the columns may stand anywhere, as sorting puts them. A file
    that isn't there has no rows where it may be `missing`."""
    try:
        with open(name, encoding="ascii", errors="replace", newline="\n") as file:
            return gathered(iter(lambda: file.readline(LONGEST), ""), name)
    except FileNotFoundError:
        if missing:
            return {}
        raise Fault(f"{name}: No such file or directory") from None
    except OSError as fault:
        raise Fault(f"{name}: {fault.strerror}") from None


def gathered(lines, name):
    rows, texts = {}, {}
    for at, line in enumerate(lines, 1):
        place = f"{name} line {at}"
        if not line.endswith("\n"):
            raise Fault(f"{place}: the line breaks off; without it, its run is done again")
        line = line[:-1]
        if line == HEAD:
            continue
        try:
            row = parsed(line)
        except Fault as fault:
            raise Fault(f"{place}: {fault}") from None
        first, text = texts.setdefault(key(row), (at, line))
        if text != line:
            raise Fault(f"{place}: line {first} has other numbers of the same run")
        rows[key(row)] = row | {"line": at}
    return rows


class Appended:
    """A file to which whole lines are added; others may add to it at the same time."""

    def __init__(self, name):
        self.name = name
        try:
            self.file = os.open(name, os.O_WRONLY | os.O_APPEND | os.O_CREAT | os.O_CLOEXEC, 0o666)
            self.regular = os.path.isfile(name)
        except OSError as fault:
            raise Fault(f"{name}: {fault.strerror}") from None
        if self.regular and os.fstat(self.file).st_size == 0:
            self.add(HEAD)

    def add(self, line):
        """Adds the line, or nothing and a Fault."""
        data = (line + "\n").encode("ascii")
        fcntl.flock(self.file, fcntl.LOCK_EX) if self.regular else None
        size = os.fstat(self.file).st_size
        try:
            wrote = os.write(self.file, data)
            reason = "there is no room"
        except OSError as fault:
            wrote, reason = 0, fault.strerror
        if wrote != len(data) and self.regular:
            os.ftruncate(self.file, size)
        fcntl.flock(self.file, fcntl.LOCK_UN) if self.regular else None
        if wrote != len(data):
            raise Fault(f"{self.name}: {reason}")
