#!/usr/bin/env python3
"""Sweeps: the runs of all combinations of options, as commands or as rows. docs/SWEEPS.md has a page on them.

    sweep [--run | --row | --plain] [OPTION LIST]... IMAGE...
"""
import os
import shlex
import sys
import time

sys.dont_write_bytecode = True
if sys.version_info < (3, 10):
    print("sweep: it needs Python 3.10", file=sys.stderr)
    sys.exit(2)
from points import LIMITS, Fault, how_many, part, points, values
from rows import HEAD, Appended, read
from runs import Crew, Refused, Sweep

USAGE = """Usage: {name} sweep [--run | --row | --plain] [OPTION LIST]... IMAGE...

Prints a command a line, for each combination of the values; each prints one row. The last option of the words changes first.

  --cores LIST .. --ram LIST   the options of `count`: {options}
                               a LIST is 1,2,4 or 1..100 or both; --seeds is --seed
  --raw                        the images are raw
  --part K/N                   only every N-th of the runs, from the K-th on
  --plain                      prints the commands as `count --csv`, whose rows have no key
  --row                        runs the one run of the words here, and prints its row
  --run                        runs them all here, and prints the rows or adds them to a file
  --head                       prints the names of the columns first, or alone
  -o FILE                      with --run: rows are added to this file, and what has a row in it isn't run again
  -j N                         with --run: so many at a time (1)

The status is 0 where each run has a row, also one that ended `open`; 1 where --run has some without; 2 with a line that says what is wrong.
That of --row is the program's where that refuses the run.
"""
FLAGS = ["raw", "run", "row", "head", "plain"]


class Words:
    """The words: the flags that are given, the lists in their order, images, part, file and number of threads."""

    def __init__(self, words):
        self.flags, self.lists, self.images, self.own = set(), {}, [], {}
        rest = list(words)
        while rest:
            word = rest.pop(0)
            if word == "--":
                self.images += rest
                break
            if not word.startswith("-") or word == "-":
                self.images.append(word)
            elif word[:2] in ("-o", "-j"):
                self.put(word[1], word[2:] or self.value(word, rest))
            else:
                self.long(*word.partition("="), rest)
        self.part = part(self.own.get("part", "1/1"))
        self.check()

    def value(self, word, rest):
        if not rest:
            raise Fault(f"{word} needs a value")
        return rest.pop(0)

    def put(self, name, value):
        if name in self.own:
            raise Fault(f"{'--part' if name == 'part' else '-' + name} is given twice")
        self.own[name] = value

    def long(self, word, equals, value, rest):
        name = "seed" if word == "--seeds" else word[2:]
        if not word.startswith("--") or name not in (*FLAGS, *LIMITS, "part"):
            raise Fault(f"there is no option {word} here")
        if name in FLAGS:
            if equals:
                raise Fault(f"{word} takes no value")
            self.flags.add(name)
            return
        text = value if equals else self.value(word, rest)
        if name == "part":
            self.put(name, text)
        elif name in self.lists:
            raise Fault(f"{word} is given twice")
        else:
            self.lists[name] = values(text, name)

    def check(self):
        if len(self.flags & {"run", "row", "plain"}) > 1:
            raise Fault("one of --run, --row and --plain, not more")
        if self.own.keys() & {"o", "j"} and "run" not in self.flags:
            raise Fault("-o and -j are for --run")
        if not self.own.get("j", "1").isascii() or not self.own.get("j", "1").isdigit() or not 1 <= int(self.own.get("j", "1")) <= 1024:
            raise Fault(f"-j is a number from 1 to 1024, and this is '{self.own['j']}'")
        if not 1 <= len(self.images) <= 16 and self.flags != {"head"}:
            raise Fault("there are 1 to 16 images")


def command(name, words, options, plain=False):
    """A run as a line for a shell."""
    front = ["count", "--csv"] if plain else ["sweep", "--row"]
    own = [*name, *front] if "LOOK_NAME" in os.environ or plain else [*name, "--row"]
    return shlex.join([*own, *(["--raw"] if "raw" in words.flags else []), *(f"--{it}={value}" for it, value in options.items()),
                       *(["--"] if words.images[0].startswith("-") else []), *words.images])


class Bar:
    """How far a sweep is, on a terminal."""

    def __init__(self, total):
        self.total, self.count, self.start, self.drawn = total, 0, time.monotonic(), 0
        self.shown = sys.stderr.isatty()

    def step(self):
        self.count += 1
        now = time.monotonic()
        if self.shown and (now - self.drawn > 0.1 or self.count == self.total):
            self.drawn = now
            left = (now - self.start) / self.count * (self.total - self.count)
            sys.stderr.write(f"\r[{'#' * (30 * self.count // self.total):30}] {self.count} of {self.total}, {left:.0f} s left \033[K")
            sys.stderr.write("\n" if self.count == self.total else "")
            sys.stderr.flush()


def put_line(line):
    sys.stdout.write(line + "\n")
    sys.stdout.flush()


def run_all(words, name):
    """Runs what has no row yet; what was refused is told at the end."""
    file = words.own.get("o")
    there = read(file, missing=True) if file and (os.path.isfile(file) or not os.path.exists(file)) else {}
    sweep, refused = Sweep(words.images, "raw" in words.flags), []
    todo = [it for it in points(words.lists, words.part) if sweep.key(it) not in there]
    add = Appended(file).add if file else put_line
    if "head" in words.flags and not file:
        add(HEAD)
    bar = Bar(len(todo))

    def done(options, ended):
        if isinstance(ended, Refused):
            refused.append(f"{command(name, words, options)}: {ended.said}")
        else:
            add(ended)
        bar.step()

    try:
        Crew(sweep, todo, done).go(int(words.own.get("j", "1")))
    finally:
        for line in refused:
            print(f"sweep: no row: {line}", file=sys.stderr)
    return 1 if refused else 0


def run_one(words):
    if how_many(words.lists, words.part) != 1:
        raise Fault(f"--row is for one run, and these are {how_many(words.lists, words.part)}")
    sweep = Sweep(words.images, "raw" in words.flags)
    try:
        row = sweep.row(next(points(words.lists, words.part)))
    except Refused as refused:
        print(f"sweep: {refused.said}", file=sys.stderr)
        return refused.status if refused.status > 0 else 128 - refused.status
    if "head" in words.flags:
        put_line(HEAD)
    put_line(row)
    return 0


def sweep(given, name):
    if not given or "-h" in given or "--help" in given:
        sys.stdout.write(USAGE.format(name=os.environ.get("LOOK_NAME", "hoopoelarder"), options=", ".join(LIMITS)))
        return 0 if given else 2
    words = Words(given)
    if "run" in words.flags:
        return run_all(words, name)
    if "row" in words.flags:
        return run_one(words)
    if "head" in words.flags:
        put_line(HEAD)
    elif words.images:
        for options in points(words.lists, words.part):
            sys.stdout.write(command(name, words, options, "plain" in words.flags) + "\n")
    sys.stdout.flush()
    return 0


def main(given):
    own = os.environ.get("LOOK_NAME")
    name = [own] if own else [os.environ.get("TCC", "hoopoelarder")] if "--plain" in given else ["python3", os.path.realpath(__file__)]
    try:
        return sweep(given, name)
    except Fault as fault:
        print(f"sweep: {fault}", file=sys.stderr)
        return 2
    except KeyboardInterrupt:
        print("sweep: interrupted; the rows that are written stay", file=sys.stderr)
        return 130
    except OSError as fault:
        os.dup2(os.open(os.devnull, os.O_WRONLY), sys.stdout.fileno())
        if not isinstance(fault, BrokenPipeError):
            print(f"sweep: output: {fault.strerror}", file=sys.stderr)
        return 6


if __name__ == "__main__":
    sys.exit(main(sys.argv[1:]))
