"""A hint for a refusal: what was probably meant, or what can be done about it. Called by share/launch after a run:

    python3 hints.py PROGRAM STATUS LINE REPORT WORD..

LINE is what the program wrote to standard error, REPORT the name of a file with what it printed ("" where it wasn't kept), and the words are
those of the run, the command first. It prints one line, `hint: ..`, or nothing.
"""
import difflib
import os
import re
import stat
import struct
import subprocess
import sys
import tempfile

sys.dont_write_bytecode = True
from words import table

KINDS = ["counters", "transfers", "stencil", "sharing"]
LONGEST = 268_435_456
MACHINES = {3: "x86", 62: "x86-64", 40: "ARM", 183: "ARM of 64 bits", 8: "MIPS", 20: "PowerPC", 22: "S/390", 243: "RISC-V"}
TRAPS = {
    0: "a jump to an address that isn't a multiple of four",
    1: "a fetch outside the image",
    2: "an illegal instruction",
    3: "EBREAK",
    4: "a load at an address that isn't a multiple of its size",
    5: "a load outside RAM",
    6: "a store at an address that isn't a multiple of its size",
    7: "a store outside RAM",
    11: "an ECALL with an unknown number in x17",
}
# The commands whose first word is a schedule or a list.
WITH_FILE = ("replay", "why", "serial", "follow")
# What doesn't go together with --bus.
OFF_THE_BUS = {"schedule": "no schedules", "dirs": "no directories"}
# What doesn't go together with a checkpoint.
OFF_THE_CHECKPOINT = {"schedule": "a run by a seed", "bus": "the machine with directories"}
# What doesn't go together with --consoles, and where consoles are then.
OFF_THE_CONSOLES = {
    "schedule": "the report of replay has the consoles of a schedule",
    "bus": "the report of bus has the consoles of a run there",
    "every": "ask for the lines of the consoles or for the rows of a table",
}
# The fields that say how far a run is looked at, and how that is done from a checkpoint that stands there.
LOOKED_AT = {"trace": (("steps", "from", "to"), "trace --resume FILE"), "state": (("steps", "events"), "state --resume FILE --events 0")}
COUNTED = 1 << 40
COMPILE_HINT = "compile with -march=rv32ima -mabi=ilp32, or with `tcc cc`"


# The words.

class Words:
    """What the words say, as the program reads them."""

    def __init__(self, words, options):
        self.command, self.given, self.files, self.fault = words[0], {}, [], None
        rest = list(words[1:])
        while rest:
            word = rest.pop(0)
            if word == "--":
                self.files += rest
                return
            if not word.startswith("-") or word == "-":
                self.files.append(word)
                continue
            if not word.startswith("--"):
                near = [f"--{it}" for it in options if it.startswith(word[1]) and self.command in options[it].commands]
                self.say("options begin with two hyphens" + (f": {', '.join(near)}?" if near else f" (see {self.command} --help)"))
                continue
            name, equals, value = word[2:].partition("=")
            self.option(name, value if equals else None, rest, options)

    def say(self, text):
        self.fault = self.fault or text

    def option(self, name, value, rest, options):
        known = options.get(name)
        if known is None:
            near = difflib.get_close_matches(name, [it for it in options if self.command in options[it].commands], 1)
            self.say(f"there is no option --{name}" + (f"; --{near[0]}?" if near else f" (see {self.command} --help)"))
            return
        if self.command not in known.commands:
            self.say(f"{self.command} has no option --{name}" + reason(self.command, name))
        if name in self.given:
            self.say(f"--{name} is given twice")
        if not known.value:
            if value is not None:
                self.say(f"--{name} takes no value")
            self.given[name] = ""
        elif value is not None:
            self.given[name] = value
        elif not rest or (rest[0].startswith("-") and rest[0] != "-"):
            limits = f": {known.limits}" if known.limits else ""
            self.say(f"--{name} needs a value{limits}" + (f" (one that begins with a hyphen as --{name}={rest[0]})" if rest else ""))
            self.given[name] = ""
        else:
            self.given[name] = rest.pop(0)


def reason(command, name):
    if command == "bus" and name == "dirs":
        return ": the machine with one bus has no directories"
    if command == "bus" and name == "record":
        return ": there are no messages, so no schedule"
    if command in ("replay", "why") and name in ("seed", "steps"):
        return ": a schedule says which events there are"
    if command == "follow" and name in ("seed", "steps"):
        return ": the list says which transactions there are"
    if command in ("trace", "count", "state") and name == "record":
        return ": run writes a record"
    if name == "checkpoint":
        return ": count writes a checkpoint"
    if name == "resume":
        return ": trace, count and state go on from a checkpoint"
    if name == "consoles":
        return ": count prints consoles as they come"
    if command == "outcomes" and name in ("dirs", "sets", "ways", "seed", "steps", "schedule", "bus"):
        return ": it lists the results of all runs, on any machine"
    if command == "trial" and name in ("raw", "ram", "base"):
        return ": it makes its own image"
    return ""


def stands_apart(said):
    """What doesn't stand with --resume, --checkpoint or --consoles."""
    if "resume" in said.given and "seed" in said.given:
        return "a checkpoint says which seed the run has: --resume stands without --seed"
    for name in ("resume", "checkpoint"):
        for other, why in OFF_THE_CHECKPOINT.items():
            if name in said.given and other in said.given:
                return f"--{name} stands without --{other}: a checkpoint is of {why}"
    for other, why in OFF_THE_CONSOLES.items():
        if "consoles" in said.given and other in said.given:
            return f"--consoles stands without --{other}: {why}"
    return None


def words_hint(words, commands, options):
    for word in words:
        try:
            word.encode("utf-8")
        except UnicodeEncodeError:
            return "a word isn't text (UTF-8)"
    if words[0].startswith("-"):
        return f"the command comes first: one of {', '.join(commands)}"
    if words[0] not in commands:
        near = difflib.get_close_matches(words[0], commands, 1)
        return f"there is no command {words[0]}" + (f"; {near[0]}?" if near else f"; there are {', '.join(commands)}")
    said = Words(words, options)
    if said.fault:
        return said.fault
    if "schedule" in said.given and ("steps" in said.given or "seed" in said.given):
        return "a schedule says which events there are: it stands with neither --steps nor --seed"
    if apart := stands_apart(said):
        return apart
    if "bus" in said.given:
        for name, why in OFF_THE_BUS.items():
            if name in said.given:
                return f"--bus stands without --{name}: the machine with one bus has {why}"
    if words[0] == "trial":
        return "trial takes two words, KIND and NUMBER, as in trial counters 50"
    missing = commands[words[0]].words.replace("[OPTION]... ", "").replace("...", "").split()[len(said.files):]
    if missing:
        return f"{' and '.join(missing)} {'is' if len(missing) == 1 else 'are'} missing: {words[0]} {commands[words[0]].words}"
    return None


def number(text):
    """The number that a word says, as the program reads it; None where it is none."""
    if re.fullmatch(r"[0-9]+", text):
        return int(text)
    return int(text, 16) if re.fullmatch(r"0x[0-9a-fA-F]+", text) else None


def way_behind(field, events, said):
    """How a look comes behind more events than it takes: a count leaves a checkpoint there. Of a schedule and of the bus there is none."""
    fields, look = LOOKED_AT.get(said.command, ((), ""))
    if field not in fields or events > COUNTED or "schedule" in said.given or "bus" in said.given:
        return ""
    begin = f" --resume {said.given['resume']}" if "resume" in said.given else ""
    return f"; behind N events: `count{begin} --steps N --checkpoint FILE`, then `{look}`"


def value_hint(field, words, options):
    said = Words(words, options)
    if field == "images":
        return f"there are at most 16 images, and these are {len(said.files) - (words[0] in WITH_FILE)}"
    if field == "kind":
        near = difflib.get_close_matches(said.files[0], KINDS, 1)
        return f"there is no workload {said.files[0]}" + (f"; {near[0]}?" if near else f"; there are {', '.join(KINDS)}")
    if field == "number":
        return f"NUMBER is 1 to 2047, and this is {said.files[1]}"
    if field == "threads" and "record" not in said.given:
        return "--threads needs --record NAME: which events come first may differ each time, and the record says which it was"
    if field == "batch" and "threads" not in said.given:
        return "--batch needs --threads N: it says how many events of a node a thread takes at most in one turn"
    if field == "every" and "bus" in said.given:
        return "--every stands without --bus: of the machine with one bus totals are printed only at the end"
    given = said.given.get(field, "")
    if field == "tell":
        return f"--tell is {options[field].limits}, and this is {given}"
    ram, base = (number(said.given.get(it, standard)) for it, standard in (("ram", "65536"), ("base", "0x80000000")))
    if number(given) is None:
        if re.fullmatch(r"[0-9]+[kKmMgG](i?B)?", given):
            size = int(re.match(r"[0-9]+", given)[0]) << {"k": 10, "m": 20, "g": 30}[re.search(r"[a-zA-Z]", given)[0].lower()]
            return f"numbers are written out: --{field} {size}"
        return f"--{field} is a number ({options[field].limits}), in decimal or in hexadecimal after 0x; this is {given!r}"
    if field == "base" and number(given) % 32 == 0 and ram:
        return f"RAM of {ram} bytes from {number(given):x} would end after 2^32: the base is at most {(1 << 32) - ram:#x}"
    return f"--{field} is {options[field].limits}, and this is {given}" + way_behind(field, number(given), said)


# The images.

def elf_machine(data):
    little = "<" if data[5:6] != b"\2" else ">"
    code = struct.unpack(little + "H", data[18:20])[0] if len(data) >= 20 else 0
    return MACHINES.get(code, f"machine {code}")


def elf_hint(fault, place, data):
    magic = data.startswith(b"\x7fELF")
    if fault == 1 and not magic:
        return "it is no ELF file; if it is a raw image: --raw"
    if fault == 1:
        return f"the ELF file is cut short: it has {len(data)} bytes, and must have {place}"
    if fault == 2:
        kind = "a text" if data[:256].isascii() and b"\0" not in data[:256] else "no ELF file"
        return f"it is {kind}; if it is a raw image: --raw"
    if fault == 3 and place == 4:
        return f"it is an ELF file of 64 bits, for {elf_machine(data)}; this machine has 32: {COMPILE_HINT}"
    if fault == 3 and place == 5:
        return "it is big-endian; this machine is little-endian"
    if fault == 3 and place == 18:
        return f"it is for {elf_machine(data)}, and not for RISC-V: {COMPILE_HINT}"
    if fault == 4:
        kind = struct.unpack("<H", data[16:18])[0]
        return {1: "it is an object file: link it, as by `tcc cc -o x.elf x.o`",
                3: "it is a shared object or a position-independent program: link with -static -no-pie",
                4: "it is a core dump"}.get(kind, "it isn't an executable file")
    if fault == 5:
        return "it has compressed code: compile with -march=rv32ima, without c, or with `tcc cc`"
    if fault == 6:
        return "it is to be linked at run time: link with -static"
    if fault == 7:
        return f"its program header {place} ends beyond 2^32, or is smaller than its part of the file"
    return None


def segments(data):
    """The segments of an ELF file that are loaded: index, address, size and flags."""
    if len(data) < 52 or not data.startswith(b"\x7fELF"):
        return
    start, size, count = struct.unpack("<I", data[28:32])[0], *struct.unpack("<HH", data[42:46])
    for index in range(count):
        header = data[start + size * index:start + size * index + 32]
        if len(header) == 32:
            kind, _, address, _, _, length, flags, _ = struct.unpack("<8I", header)
            if kind == 1 and length:
                yield index, address, length, flags


def load_hint(fault, place, data, said, raw):
    ram, base = (number(said.given.get(it, standard)) for it, standard in (("ram", "65536"), ("base", "0x80000000")))
    where = f"RAM is {base:08x} to {base + ram - 1:08x}"
    if raw:
        if fault == 1:
            need = -(-len(data) // 32) * 32
            return f"the file has {len(data)} bytes, and {where}" + (
                f": --ram {need} would hold it" if ram < need <= 1 << 24 else "; images lie one after another")
        return "the file has fewer than four bytes" if fault == 3 else None
    parts = {index: (address, length) for index, address, length, _ in segments(data)}
    if fault in (1, 2) and place in parts:
        address, length = parts[place]
        here = f"segment {place} is {address:08x} to {address + length - 1:08x}"
        if fault == 2:
            return f"{here}, and shares a byte with an earlier segment"
        lowest = min(it for it, _ in parts.values()) & ~31
        need = -(-(max(sum(it) for it in parts.values()) - min(lowest, base)) // 32) * 32
        if lowest < base:
            return f"{here}, and {where}: it is linked for another base, maybe --base {lowest:#x}"
        return f"{here}, and {where}" + (f": --ram {need} would hold it" if need <= 1 << 24 else "")
    if fault == 3:
        entry = struct.unpack("<I", data[24:28])[0]
        return f"the entry is {entry:08x}, which isn't code there"
    return None


def read(name):
    with open(name, "rb") as file:
        return file.read(LONGEST)


def image_hint(line, said):
    index, kind, fault, place = re.fullmatch(r"tcc: image (\d+) (elf|load) (\d+) (\d+)", line).groups()
    images = said.files[1:] if said.command in WITH_FILE else said.files
    name = images[int(index)]
    data = read(name)
    hint = elf_hint(int(fault), int(place), data) if kind == "elf" else load_hint(int(fault), int(place), data, said, "raw" in said.given)
    return f"{name}: {hint}" if hint else None


# Files, schedules and lists.

def store_hint(line, said):
    name = line[len("tcc: store "):]
    if name in (said.given.get("record"), said.given.get("checkpoint")) and name != said.given.get("resume"):
        folder = os.path.dirname(name) or "."
        if os.path.isdir(name):
            return f"{name} is a folder"
        if not os.path.isdir(folder):
            return f"there is no folder {folder}"
        if os.path.exists(name) and not os.access(name, os.W_OK):
            return f"{name} may not be written by you"
        if not os.access(folder, os.W_OK):
            return f"the folder {folder} may not be written by you"
        return f"{name} couldn't be written whole; what it held before stays where it is a file"
    if not os.path.lexists(name):
        near = difflib.get_close_matches(os.path.basename(name), os.listdir(os.path.dirname(name) or ".")
                                         if os.path.isdir(os.path.dirname(name) or ".") else [], 1)
        return f"there is no file {name}" + (f"; {os.path.join(os.path.dirname(name), near[0])}?" if near else "")
    if not os.path.exists(name):
        return f"{name} is a link to a file that isn't there"
    mode = os.stat(name)
    if stat.S_ISDIR(mode.st_mode):
        return f"{name} is a folder"
    if not os.access(name, os.R_OK):
        return f"{name} may not be read by you"
    if mode.st_size > LONGEST:
        return f"{name} has {mode.st_size} bytes; the most that is read is {LONGEST}"
    return None


def settings_of(said):
    names = [("cores", "1"), ("dirs", "1"), ("sets", "16"), ("ways", "2"), ("base", "0x80000000"), ("ram", "65536")]
    return " ".join(f"{name} {number(said.given.get(name, standard))}" for name, standard in names)


def settings_in(row):
    """The settings that a checkpoint's row tells, in the words of `settings_of`; None of another row."""
    found = re.fullmatch(r"settings (\d+) (\d+) (\d+) (\d+) (\d+) (\d+)", row)
    return found and "cores {} dirs {} sets {} ways {} base {} ram {}".format(*(found[at] for at in (1, 2, 3, 4, 6, 5)))


def checkpoint_hint(at, said):
    name = said.given["resume"]
    lines = read(name).decode("utf-8", "replace").split("\n")
    here = lines[at - 1] if at <= len(lines) else ""
    others = "or the images aren't those that it was made with"
    if at == 1 and (kind := re.match(r"tcc-(\w+)", here)) and kind[1] != "run":
        return f"{name} is a text of the kind tcc-{kind[1]}, and no checkpoint, as --checkpoint writes it"
    if at == 1:
        return f"{name} is no checkpoint: its first line is to be tcc-run 1"
    settings = next(filter(None, map(settings_in, lines)), None)
    if settings and settings != settings_of(said):
        return f"the checkpoint is of `{settings}`, and the options say `{settings_of(said)}`"
    if at > len(lines) or (at == len(lines) and not here):
        return f"{name} ends before line {at}: it was cut short, {others}"
    if here.startswith("tcc-checkpoint "):
        return "no run of these images comes to such a machine: they aren't those that it was made with, or the file was changed"
    return f"line {at} is `{here[:60]}`, which isn't what stands there: the file was changed, {others}"


def schedule_hint(line, said, program, words):
    at = int(line.rsplit(" ", 1)[1])
    if "resume" in said.given:
        return checkpoint_hint(at, said)
    name = said.given.get("schedule") or said.files[0]
    lines = read(name).decode("utf-8", "replace").split("\n")
    here = lines[at - 1] if at <= len(lines) else ""
    if said.command in ("serial", "follow"):
        if not any(it.startswith("commit ") for it in lines):
            return f"{name} has no commit lines"
        return f"line {at} is `{here}`: its TID doesn't rise, its core isn't there, or its transaction hasn't so many instructions"
    if at == 1:
        other = re.match(r"tcc-(\w+)", here)
        if other and other[1] != "schedule":
            return f"{name} is a text of the kind tcc-{other[1]}, and no schedule, as --record writes it"
        if here.startswith("\x7fELF") or "\0" in here or "\ufffd" in here:
            return f"{name} is no text; the schedule comes first, and then the images"
        return f"{name} is no schedule: its first line is to be tcc-schedule 1 or tcc-schedule 2"
    if at == 2 and re.fullmatch(r"cores \d+ dirs \d+ sets \d+ ways \d+ base \d+ ram \d+", here) and here != settings_of(said):
        return f"the schedule is of `{here}`, and the options say `{settings_of(said)}`"
    if at > len(lines) or (at == len(lines) and not here):
        return f"{name} ends before line {at}; the last line of a schedule is `end` with the number of events"
    if not re.fullmatch(r"e \d+|x \d+ \d+ \d+|d [cd]\d+ [cd]\d+ \d+|d c\d+ v \d+|d v c\d+ \d+", here):
        return f"line {at} is `{here[:60]}`, which is no event and not the right end"
    following = next_event(program, words, name, lines, at) if said.command in ("replay", "why") else None
    return f"event {at - 3}, `{here}`, isn't enabled there" + (f"; `{following}` would be" if following else "")


def next_event(program, words, name, lines, at):
    """An event that is enabled before the one on that line, as `why` says it."""
    with tempfile.NamedTemporaryFile("w", suffix=".schedule") as begun:
        begun.write("\n".join(lines[:at - 1]) + f"\nend {at - 3}\n")
        begun.flush()
        asked = ["why", *(begun.name if it == name else it for it in words[1:])]
        said = subprocess.run([program, *asked], capture_output=True, text=True, check=False).stdout
    found = re.search(r"^next (.*)$", said, re.M)
    return found[1] if found and found[1] != "none" else None


# A run that ended well.

def report_hint(report, said):
    core = None
    if report:
        with open(report, encoding="ascii", errors="replace") as file:
            for text in file:
                if trapped := re.match(r"core (\d+) trap (\d+)", text):
                    core = trapped.groups()
                elif core and text.startswith("pc "):
                    address = text.split()[1]
                    magic = " (the image is an ELF file: leave out --raw)" if "raw" in said.given and is_elf(said) else ""
                    return f"core {core[0]} trapped at {address}: {TRAPS.get(int(core[1]), 'cause ' + core[1])}{magic}"
    if "raw" in said.given and is_elf(said):
        return "an image is an ELF file, and --raw takes its bytes as they are: leave out --raw"
    return None


def is_elf(said):
    for name in said.files:
        try:
            with open(name, "rb") as file:
                if file.read(4) == b"\x7fELF":
                    return True
        except OSError:
            pass
    return False


def hint(program, status, line, report, words):
    commands, options = table()
    commands = {it.name: it for it in commands}
    # of two options with one name it is that of the command
    options = {it.name: it for it in sorted(options, key=lambda it: words[0] in it.commands)}
    if line == "tcc: words":
        return words_hint(words, commands, options)
    if line.startswith("tcc: value "):
        return value_hint(line.split()[2], words, options)
    said = Words(words, options)
    if line.startswith("tcc: image "):
        return image_hint(line, said)
    if line.startswith("tcc: store "):
        return store_hint(line, said)
    if line.startswith("tcc: schedule line "):
        return schedule_hint(line, said, program, words)
    if line == "tcc: output":
        return "standard output was closed or full before the whole text was written, as a pipe to `head` is"
    if line == "tcc: memory":
        return "there isn't enough memory (a limit, as of `ulimit -v`?) for this machine and so many events"
    return report_hint(report, said) if status in ("0", "1") else None


def main():
    program, status, line, report, *words = sys.argv[1:]
    try:
        found = hint(program, status, line.removesuffix("\n"), report, words)
    except (OSError, ValueError, AttributeError, IndexError, KeyError, struct.error):
        found = None  # the refusal itself was told
    if found:
        print("hint: " + found.replace("\n", "?"))


main()
