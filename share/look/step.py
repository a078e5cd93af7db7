#!/usr/bin/env python3
"""Steps through a run in a terminal: shows the state, takes the event that you pick among the useful ones, goes back, writes the schedule.

    step [OPTION]... IMAGE...            from the start, by the seed
    step [OPTION]... SCHEDULE IMAGE...   by the schedule

All that is shown is what the program prints for the events so far: `state`, and of the last event `trace`.
"""
import contextlib
import os
import pathlib
import random
import sys
import tempfile

sys.dont_write_bytecode = True
if sys.version_info < (3, 10):
    print("step: it needs Python 3.10", file=sys.stderr)
    sys.exit(2)
import chart
from arguments import MACHINE, Arguments, Refused, program_words, told
from facts import Commit, Violated
from program import Program
from tables import plural
from trace import Fault, Trace

with contextlib.suppress(ImportError):
    import readline  # lines can be edited then, and come back

HELP = """a number  takes that event           Enter  takes the next event of the schedule, or one by the seed
v         goes to the next violation   c      to the next commit      b, b N  goes back, N events
s         shows all of the state       w NAME writes the schedule     q       ends"""
MOST = 5000  # events that v and c take on their own, one by one, where they leave the schedule


class Stepper:
    """The events so far; `coming` are those that the schedule has behind them."""

    def __init__(self, arguments, folder):
        words, self.images = program_words(arguments)
        self.file = os.path.join(folder, "schedule")
        self.machine = [it for it in words if it[2:].partition("=")[0] in [*MACHINE, "raw"]]
        given = next((it.partition("=")[2] for it in words if it.startswith("--schedule=")), None)
        if given is None:
            given = os.path.join(folder, "record")
            for _ in told("run", *words, f"--record={given}", "--", *self.images):
                pass
        lines = pathlib.Path(given).read_text(encoding="ascii").split("\n")
        self.head, self.coming, self.events = lines[:2], lines[2:-2][::-1], []
        self.random = random.Random(arguments.number("seed", 0))
        self.program = Program(self.images, arguments.has("raw"), int(lines[1].split(" ")[9]))
        self.write(self.file)

    def write(self, name):
        try:
            pathlib.Path(name).write_text("\n".join([*self.head, *self.events, f"end {len(self.events)}", ""]), encoding="ascii")
        except OSError as fault:
            raise Fault(f"{name}: {fault.strerror}") from None

    def told(self, command, *words):
        return told(command, *self.machine, f"--schedule={self.file}", *words, "--", *self.images)

    def look(self):
        """The records, and the useful events."""
        self.write(self.file)
        lines = [it.rstrip("\n") for it in self.told("state")][2:-2]
        return [it for it in lines if not it.startswith("use")], [it[7:] for it in lines if it.startswith("useful ")]

    def take(self, event):
        """Takes an event; the schedule goes on only where it is the next one there."""
        self.events.append(event)
        self.coming = self.coming[:-1] if self.coming and self.coming[-1] == event else []

    def next(self, useful):
        return self.coming[-1] if self.coming else self.random.choice(useful)

    def back(self, count):
        for _ in range(min(count, len(self.events))):
            self.coming.append(self.events.pop())

    def run_to(self, kind):
        """Takes events up to the next with such a fact: along the schedule at once, without one as the seed picks them."""
        start = len(self.events)
        if self.coming:
            self.events += self.coming[::-1]
            self.write(self.file)
            coming = Trace(self.told("trace", f"--from={start}"), "the trace")
            found = next((it.number for it in coming if it.first(kind)), len(self.events) - 1)
            self.coming = self.events[found + 1:][::-1]
            del self.events[found + 1:]
            return
        while len(self.events) < start + MOST:
            _, useful = self.look()
            if not useful:
                return
            self.take(self.random.choice(useful))
            if self.last().first(kind):
                return

    def last(self):
        """The last event, with its facts."""
        self.write(self.file)
        return next(iter(Trace(self.told("trace", f"--from={len(self.events) - 1}"), "the trace")))

    def show(self, records, useful):
        print(f"\n-- after {len(self.events)} events --")
        if self.events:
            event = self.last()
            facts = [it for it in (chart.told(fact, self.program) for fact in event.facts) if it] + list(chart.sends(event))
            print(f"{event.text}: {'; '.join(facts) or 'took ' + event.facts[0].message.kind}")
        for record in records:
            words = record.split(" ")
            if words[0] == "core":
                pc = int(words[5], 16)
                print(f"core {words[1]}: {' '.join(words[7:])}, {plural(int(words[3]), 'instruction')}, at {self.program.name(pc)}",
                      self.program.instruction(pc))
            elif words[0] in ("dir", "awaits", "flight", "vendor"):
                print(record)
        for at, event in enumerate(useful):
            print(f"  {at:2}  {event}{'   (next in the schedule)' if self.coming and self.coming[-1] == event else ''}")
        print("all is done" if not useful else "")


def obey(stepper, words, records, useful):
    """Does what the person said."""
    word = words[0] if words else ""
    if word.isdigit() and int(word) < len(useful):
        stepper.take(useful[int(word)])
    elif word == "":
        if useful:
            stepper.take(stepper.next(useful))
    elif word in ("v", "c"):
        stepper.run_to(Violated if word == "v" else Commit)
    elif word == "b" and (len(words) < 2 or words[1].isdigit()):
        stepper.back(int(words[1]) if words[1:] else 1)
    elif word == "s":
        print("\n".join(records))
    elif word == "w" and len(words) == 2:
        stepper.write(words[1])
        print(f"{words[1]}: {len(stepper.events)} events")
    else:
        print(HELP)


def asked():
    """What the person types; q at the end of the input."""
    try:
        return input("> ")
    except EOFError:
        print()
        return "q"


def step(words, folder):
    if not words or "--help" in words or "-h" in words:
        print(__doc__.strip() + "\n\n" + HELP)
        return 0 if words else 2
    arguments = Arguments(words, {})
    if not arguments.files or arguments.has("bus"):
        raise Fault("IMAGE is missing" if not arguments.files else "the machine with one bus has no schedules")
    stepper = Stepper(arguments, folder)
    while True:
        records, useful = stepper.look()
        stepper.show(records, useful)
        line = asked()
        if line.split()[:1] == ["q"]:
            return 0
        try:
            obey(stepper, line.split(), records, useful)
        except Fault as fault:
            print(f"step: {fault}")


def main(words):
    with tempfile.TemporaryDirectory() as folder:
        try:
            return step(words, folder)
        except Fault as fault:
            print(f"step: {fault}", file=sys.stderr)
            return 2
        except Refused as refused:
            return refused.status
        except KeyboardInterrupt:
            print()
            return 0
        except BrokenPipeError:
            os.dup2(os.open(os.devnull, os.O_WRONLY), sys.stdout.fileno())
            return 6


if __name__ == "__main__":
    sys.exit(main(sys.argv[1:]))
