"""The view `consoles`: what the cores print, as text, a block a core; with --mixed line by line, as the transactions commit.

It reads the text of `count --consoles`, of several parts of a run one after another, or runs that, with --resume from a checkpoint. So the run
may be longer than a trace.
"""
import itertools
import re
import sys

from arguments import first_line, program_words, told
from console import shown
from trace import Fault

WORDS = "[CONSOLES... | IMAGE...]"
OWN = {"mixed": None, "resume": "NAME"}
PRINTED = re.compile("printed [1-9][0-9]* ([0-9]|[1-5][0-9]|6[0-3]) ((?:[0-9a-f]{2})+)\n")
# The first line of the counts behind the consoles, and with what the last one begins.
COUNTS = {"tcc-count 1\n": "events ", "tcc-count,": "1,"}


def printed(stream, name):
    """The core and the bytes of each transaction that printed, in a text of consoles; the counts behind them are only looked at for their
    end."""
    ends, place, line = None, 0, ""
    for place, line in enumerate(stream, 1):
        if place == 1:
            if line != "tcc-consoles 1\n":
                raise Fault(f"{name} line 1: `tcc-consoles 1` belongs here, and this is `{line[:60].rstrip()}`")
        elif not ends and (found := PRINTED.fullmatch(line)):
            yield int(found[1]), bytes.fromhex(found[2])
        elif not ends:
            ends = next((last for first, last in COUNTS.items() if line.startswith(first)), None)
            if not ends:
                raise Fault(f"{name} line {place}: no line of a console: `{line[:60].rstrip()}`")
    if not ends or not line.endswith("\n") or not line.startswith(ends):
        raise Fault(f"{name} line {place}: the text breaks off" if place else f"{name}: there is no text")


def opened(name):
    """The lines of a file; of standard input for `-`."""
    try:
        return sys.stdin if name == "-" else open(name, encoding="ascii", errors="replace", newline="\n")
    except OSError as fault:
        raise Fault(f"{name}: {fault.strerror}") from None


def sources(arguments):
    """The texts that the words ask for, each with its name. A text of another kind is refused as one."""
    files = arguments.files or ["-"]
    if files[0] == "-" or first_line(files[0]).startswith(b"tcc-") and not first_line(files[0]).startswith(b"tcc-schedule "):
        return ((opened(it), "standard input" if it == "-" else it) for it in files)
    words, images = program_words(arguments)
    if any(it == "--bus" or it.startswith("--schedule=") for it in words):
        raise Fault("consoles are of a run by a seed; `look console` shows those of a schedule and of a run on the bus")
    resume = [f"--resume={arguments.given['resume']}"] if arguments.has("resume") else []
    return [(told("count", "--consoles", *words, *resume, "--", *images), "the consoles")]


def by_core(transactions):
    consoles = {}
    for core, data in transactions:
        consoles.setdefault(core, bytearray()).extend(data)
    for core, data in sorted(consoles.items()):
        yield f"core {core}:"
        yield from shown(data).rstrip("\n").split("\n")


def mixed(transactions):
    """A line comes when the transaction commits that ends it, and what has no end comes last."""
    begun = {}
    for core, data in transactions:
        line = begun.pop(core, bytearray())
        line += data
        if b"\n" in data:
            *whole, line = line.split(b"\n")
            yield from (f"core {core}: {shown(it)}" for it in whole)
        if line:
            begun[core] = line
    yield from (f"core {core}: {shown(it)}" for core, it in begun.items())


def show_words(arguments):
    transactions = itertools.chain.from_iterable(printed(*it) for it in sources(arguments))
    return mixed(transactions) if arguments.has("mixed") else by_core(transactions)
