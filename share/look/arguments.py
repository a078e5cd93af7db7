"""The words of `look` and `step`, and where a trace comes from: a file, standard input, or a run of the program."""
import os
import pathlib
import re
import signal
import subprocess

from program import Program
from trace import Fault, Kept, Trace, open_trace

TCC = os.environ.get("TCC", str(pathlib.Path(os.path.realpath(__file__)).parents[2] / "tcc"))
# Options that are the program's: with a value, and without.
MACHINE = ["cores", "dirs", "sets", "ways", "base", "ram"]
PROGRAM = [*MACHINE, "steps", "seed", "schedule"]
FLAGS = ["raw", "bus"]
NUMBER = re.compile("[0-9]+|0x[0-9a-fA-F]+")


class Refused(Exception):
    """The program ended with a status that isn't 0 or 1, and has said why."""

    def __init__(self, status):
        super().__init__(status)
        self.status = status


def number(text, name):
    if not NUMBER.fullmatch(text):
        raise Fault(f"--{name} is a number, and this is '{text}'")
    return int(text, 16) if text.startswith("0x") else int(text)


class Arguments:
    """The words after the view: `files`, the options with their values, and `elf`, the files that --elf named. `own` are the options of the
    view, each with what its value is (None for one without)."""

    def __init__(self, words, own):
        self.files, self.given, self.elf, rest = [], {}, [], list(words)
        valued = {*PROGRAM, "elf", *(it for it, value in own.items() if value)}
        flags = {*FLAGS, *(it for it, value in own.items() if not value)}
        while rest:
            word = rest.pop(0)
            if word == "--":
                self.files += rest
                return
            if not word.startswith("-") or word == "-":
                self.files.append(word)
                continue
            name, equals, value = word[2:].partition("=")
            if not word.startswith("--") or name not in valued | flags:
                raise Fault(f"there is no option {word.partition('=')[0]} here")
            if name in flags and equals or name in valued and not equals and not rest:
                raise Fault(f"--{name} " + ("takes no value" if name in flags else "needs a value"))
            self.put(name, "" if name in flags else value if equals else rest.pop(0))

    def put(self, name, value):
        if name == "elf":
            self.elf.append(value)
            return
        if name in self.given:
            raise Fault(f"--{name} is given twice")
        self.given[name] = value

    def has(self, name):
        return name in self.given

    def number(self, name, standard=None):
        return number(self.given[name], name) if name in self.given else standard

    def chosen(self, name, values):
        """The value of an option that is one of these; the first where it isn't given."""
        value = self.given.get(name, values[0])
        if value not in values:
            raise Fault(f"--{name} is {' or '.join(values)}, and this is '{value}'")
        return value


def first_line(name):
    try:
        with open(name, "rb") as file:
            return file.readline(80)
    except OSError as fault:
        raise Fault(f"{name}: {fault.strerror}") from None


def schedule_words(name, given):
    """The options by which the program takes a schedule; those of the machine that are left out are on its second line."""
    try:
        lines = pathlib.Path(name).read_text(encoding="ascii").split("\n")
    except (OSError, UnicodeDecodeError):
        raise Fault(f"{name} can't be read as a schedule") from None
    words = (lines[1:2] or [""])[0].split(" ")
    return [f"--{it}={value}" for it, value in zip(words[::2], words[1::2]) if it in MACHINE and it not in given] + [f"--schedule={name}"]


def program_words(arguments):
    """The options and the images of a run, of files that are no trace: a schedule may come first."""
    words = [f"--{it}" if it in FLAGS else f"--{it}={value}" for it, value in arguments.given.items() if it in PROGRAM + FLAGS]
    images = list(arguments.files)
    if first_line(images[0]).startswith(b"tcc-schedule "):
        words += schedule_words(images.pop(0), arguments.given)
        if not images:
            raise Fault("a schedule needs its images: SCHEDULE IMAGE...")
    return words, images


def told(command, *words):
    """The lines that the program prints, as they come. Where no more of them are wanted, the program is ended, and says nothing of it."""
    with subprocess.Popen([TCC, command, *words], stdout=subprocess.PIPE, encoding="ascii", start_new_session=True) as process:
        try:
            yield from process.stdout
        except BaseException:
            os.killpg(process.pid, signal.SIGKILL)
            raise
    if process.returncode not in (0, 1):
        raise Refused(process.returncode)


def open_source(arguments, states=False, keep=False):
    """The trace that the words ask for, and what is known of its program. `states` asks a run for records too; with `keep` the
    lines that were read are in `trace.stream.lines`."""
    files, raw = arguments.files or ["-"], arguments.has("raw")
    base = arguments.number("base", 0x80000000)
    if files[0] == "-" or first_line(files[0]).startswith((b"tcc-trace", b"tcc-bus-trace")):
        if len(files) > 1:
            raise Fault("with a trace there are no images; --elf FILE gives names")
        trace, images = open_trace(files[0], keep), []
    else:
        words, images = program_words(arguments)
        lines = told("trace", *words, *(["--states"] if states else []), "--", *images)
        trace = Trace(Kept(lines) if keep else lines, "the trace")
        base = trace.settings.base
    return trace, Program(arguments.elf or images, raw, base)
