"""Reads the text of a trace: the settings, and event by event what was done (facts) and what changed (records).

The text is read as it comes and never kept, so a trace may be longer than memory. Each line is looked at whole: a line that isn't of the
grammar (docs/FORMATS.md) is a `Fault` with its number.
"""
import sys
from dataclasses import dataclass

import grammar
from bounds import Bounds
from facts import Event, fact_of


class Fault(Exception):
    """What is wrong, with its place; printed as it is, with status 2."""


@dataclass(slots=True)
class Settings:
    """The machine of a trace. With one bus there are no directories, and `dirs` is 0."""
    cores: int
    dirs: int
    sets: int
    ways: int
    base: int
    ram: int

    @property
    def bus(self):
        return self.dirs == 0

    def home(self, line):
        return line % self.dirs

    def line_of(self, address):
        return (address - self.base) // 32

    def word_of(self, address):
        """Which of its line's eight words the address is in."""
        return (address - self.base) // 4 % 8

    def address(self, line, word=0):
        return self.base + 32 * line + 4 * word

    def text(self):
        dirs = "" if self.bus else f"dirs {self.dirs} "
        return f"cores {self.cores} {dirs}sets {self.sets} ways {self.ways} base {self.base} ram {self.ram}"


class Trace:
    """A trace that is being read. Its settings and the records before its first event (`start`) are there at once; the events come one
    by one, by iteration; then `end` is `done` or `open`, and `total` the number of events that were taken."""

    def __init__(self, stream, name):
        self.name, self.place, self.stream = name, 0, iter(stream)
        self.end, self.total = None, None
        self.settings = self.read_head()
        self.bounds = Bounds(self.settings)
        if self.bounds.wrong:
            raise self.fault(f"no machine has such {self.bounds.wrong}")
        self.at = self.start_at = int(self.wanted(grammar.FROM, "`from` and a number")[1])
        self.start = []
        self.next = self.line()
        while self.next[:1] == " ":
            self.start.append(self.record(self.next[1:]))
            self.next = self.line()

    def fault(self, text):
        return Fault(f"{self.name} line {self.place}: {text}")

    def line(self):
        """The next line, without its line feed."""
        self.place += 1
        try:
            line = next(self.stream, "")
        except UnicodeDecodeError:
            raise self.fault("this is no text") from None
        if not line.endswith("\n"):
            raise self.fault("the text breaks off" if line or self.place > 1 else "there is no text")
        return line[:-1]

    def wanted(self, pattern, what):
        line = self.line()
        found = pattern.fullmatch(line)
        if not found:
            raise self.fault(f"{what} belongs here, and this is `{line[:60]}`")
        return found

    def read_head(self):
        first = self.wanted(grammar.FIRST, "`tcc-trace 1` or `tcc-bus-trace 1`")[0]
        bus = first == "tcc-bus-trace 1"
        shape = grammar.BUS_SETTINGS if bus else grammar.SETTINGS
        numbers = [int(it) for it in self.wanted(shape, "the settings of the machine").groups()]
        if not bus and not numbers[1]:
            raise self.fault("no machine has such dirs")
        return Settings(numbers[0], 0, *numbers[1:]) if bus else Settings(*numbers)

    def good(self, wrong):
        """Nothing, where nothing is wrong."""
        if wrong:
            raise self.fault(wrong)

    def record(self, text):
        shape = grammar.RECORDS.get(text[:text.find(" ")])
        if not shape or not shape.fullmatch(text):
            raise self.fault(f"no fact and no record: `{text[:60]}`")
        self.good(self.bounds.record(text))
        return text

    def indented(self, event, text):
        shape = grammar.FACTS.get(text[:text.find(" ")])
        if shape and shape.fullmatch(text):
            if event.records:
                raise self.fault("a fact comes after a record")
            fact = fact_of(text)
            self.good(self.bounds.fact(fact))
            event.facts.append(fact)
        elif text.startswith("flight "):
            raise self.fault("a message in flight has a record only before the first event")
        else:
            event.records.append(self.record(text))

    def __iter__(self):
        line = self.next
        while line[:4] != "end ":
            if not grammar.EVENT.fullmatch(line):
                raise self.fault(f"no event: `{line[:60]}`")
            self.good(self.bounds.event(line))
            event = Event(self.at, line)
            self.at += 1
            line = self.line()
            while line[:1] == " ":
                self.indented(event, line[1:])
                line = self.line()
            if not event.facts:
                self.place -= 1
                raise self.fault("an event without a fact")
            if wrong := self.bounds.delivery(event):
                raise Fault(f"{self.name} event {event.number} (`{event.text}`): {wrong}")
            yield event
        self.finish(line)

    def finish(self, line):
        if line not in ("end done", "end open"):
            raise self.fault("`end done` or `end open` belongs here")
        self.total = int(self.wanted(grammar.EVENTS, "`events` and a number")[1])
        self.end = line[4:]
        if self.at != max(self.total, self.start_at):
            raise self.fault(f"there are events up to {self.at}, and the last line says {self.total}")
        self.place += 1
        if next(self.stream, "") != "":
            raise self.fault("a line after the last one")


class Kept:
    """The lines of a stream, as they are read; all that were are in `lines`."""

    def __init__(self, stream):
        self.stream, self.lines = iter(stream), []

    def __iter__(self):
        return self

    def __next__(self):
        self.lines.append(next(self.stream))
        return self.lines[-1]


def open_trace(name, keep=False):
    """The trace of a file; of standard input for `-`."""
    try:
        stream = sys.stdin if name == "-" else open(name, encoding="ascii", newline="\n")
    except OSError as fault:
        raise Fault(f"{name}: {fault.strerror}") from None
    return Trace(Kept(stream) if keep else stream, "standard input" if name == "-" else name)
