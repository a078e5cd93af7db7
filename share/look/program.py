"""What is known of a program by its images: names of functions and data, source lines, and instructions as text.

Names come from the symbol table of an ELF file, which is read here. Source lines come from addr2line and instructions from objdump, where
there are such programs that know RISC-V; without them there are no source lines, and instructions are told by disassemble.py.
"""
import bisect
import functools
import os
import pathlib
import re
import shutil
import struct
import subprocess
from dataclasses import dataclass

from disassemble import disassembled
from trace import Fault

PREFIXES = ["riscv64-unknown-elf-", "riscv32-unknown-elf-", "riscv64-linux-gnu-", "llvm-"]


@dataclass(slots=True, order=True)
class Symbol:
    address: int
    size: int
    name: str
    code: bool = False


def symbols(data, name):
    """The functions and the data of an ELF file of 32 bits, by rising address; the size of one without is up to the next."""
    if data[:6] != b"\x7fELF\x01\x01":
        raise Fault(f"{name} is no ELF file of 32 bits")
    try:
        start, size, count = struct.unpack_from("<I", data, 32)[0], *struct.unpack_from("<HH", data, 46)
        sections = [struct.unpack_from("<10I", data, start + size * at) for at in range(count)]
        return sized(found(data, sections))
    except (struct.error, IndexError):
        raise Fault(f"{name} is cut short") from None


def segments(data):
    """The parts of an ELF file that are loaded: addresses and bytes."""
    start, size, count = struct.unpack_from("<I", data, 28)[0], *struct.unpack_from("<HH", data, 42)
    for at in range(count):
        kind, offset, address, _, length = struct.unpack_from("<5I", data, start + size * at)
        if kind == 1:
            yield address, data[offset:offset + length]


def found(data, sections):
    for section in sections:
        if section[1] != 2:  # SHT_SYMTAB
            continue
        names = sections[section[6]][4]
        for at in range(section[4], section[4] + section[5], 16):
            name, address, size, info, _, index = struct.unpack_from("<IIIBBH", data, at)
            text = data[names + name:data.index(b"\0", names + name)].decode("ascii", "replace")
            loaded = 0 < index < len(sections) and sections[index][2] & 2
            if loaded and text and not text.startswith(("$", ".L")) and info & 15 in (0, 1, 2):
                yield Symbol(address, size, text, bool(sections[index][2] & 4))


def sized(found):
    """One symbol for each address, one with a size where there is one."""
    best = {}
    for it in sorted(found, key=lambda it: (it.size > 0, it.name)):
        best[it.address] = it
    inner = sorted(best.values())
    for it, after in zip(inner, inner[1:]):
        it.size = it.size or after.address - it.address
    return inner


def tool(name):
    """The path of a program of this name that knows RISC-V, or None; none is asked where LOOK_TOOLS is 0."""
    if os.environ.get("LOOK_TOOLS") == "0":
        return None
    return next((path for prefix in PREFIXES if (path := shutil.which(prefix + name))), None)


def output(words):
    ended = subprocess.run(words, capture_output=True, text=True, errors="replace", check=False)
    return ended.stdout if ended.returncode == 0 else ""


@functools.cache
def lines_of(name):
    """The lines of a source file, none where it can't be read."""
    try:
        return pathlib.Path(name).read_text(encoding="utf-8").split("\n")
    except (OSError, UnicodeDecodeError):
        return []


class Program:
    """The images of a run. `raw` images have no names; they lie one after another from the base on, each at a multiple of 32."""

    def __init__(self, names, raw=False, base=0x80000000):
        self.files, self.parts, self.symbols, self.raw = [], [], [], raw
        for name in names:
            try:
                data = pathlib.Path(name).read_bytes()
            except OSError as fault:
                raise Fault(f"{name}: {fault.strerror}") from None
            self.files.append((name, base))
            if raw:
                self.parts.append((base, data))
                base = base + len(data) + 31 & ~31
            else:
                self.symbols += symbols(data, name)
                self.parts += segments(data)
        self.symbols.sort()
        self.addresses = [it.address for it in self.symbols]
        self.sources, self.listing = {}, None

    def symbol(self, address):
        at = bisect.bisect_right(self.addresses, address) - 1
        return self.symbols[at] if at >= 0 and address < self.addresses[at] + max(self.symbols[at].size, 1) else None

    def name(self, address):
        """The function or datum at an address, with the distance from its start; the address where there is none."""
        it = self.symbol(address)
        return f"{address:08x}" if it is None else it.name + (f"+{address - it.address}" if address > it.address else "")

    def names_in(self, address):
        """The names of what lies in the 32 bytes from an address on."""
        return [it.name for it in self.symbols if it.address < address + 32 and it.address + max(it.size, 1) > address]

    def find_sources(self, pcs):
        """Asks once for the source lines of all these instructions."""
        pcs, program = sorted(set(pcs) - set(self.sources)), tool("addr2line")
        self.sources.update(dict.fromkeys(pcs, ""))
        if self.raw or not program or not pcs:
            return
        for name, _ in self.files:
            lines = output([program, "-e", name, *(f"{it:x}" for it in pcs)]).split("\n")
            for pc, line in zip(pcs, lines):
                place = re.sub(r" \(discriminator \d+\)$", "", line)
                if "?" not in place and place:
                    self.sources[pc] = place

    def source(self, pc):
        """FILE:LINE without the folder, or an empty text."""
        self.find_sources([pc])
        return self.sources[pc].rpartition("/")[2]

    def source_text(self, pc):
        """The text of that source line, where the file is there."""
        self.find_sources([pc])
        name, _, line = self.sources[pc].rpartition(":")
        lines = lines_of(name)
        return lines[int(line) - 1].strip() if line.isdigit() and 0 < int(line) <= len(lines) else ""

    def instruction(self, pc):
        """The instruction as text, or an empty text."""
        if self.listing is None:
            self.listing = {}
            for name, base in self.files:
                self.listing.update(listed(name, base if self.raw else None))
        if pc not in self.listing:
            word = self.word(pc)
            self.listing[pc] = "" if word is None else disassembled(word, pc, self.name)
        return self.listing[pc]

    def word(self, address):
        """The word of an image at an address, or None."""
        for base, data in self.parts:
            if base <= address and address + 4 <= base + len(data):
                return struct.unpack_from("<I", data, address - base)[0]
        return None


def listed(name, base):
    """The instructions of an image as objdump has them: of a raw one, that lies at `base`, all its words."""
    program = tool("objdump")
    if not program or base is not None and "llvm" in program:
        return
    how = ["-d"] if base is None else ["-D", "-b", "binary", "-m", "riscv:rv32", f"--adjust-vma={base:#x}"]
    for line in output([program, *how, name]).split("\n"):
        if it := re.match(r" *([0-9a-f]+):\t[0-9a-f ]+\t(.*)", line):
            yield int(it[1], 16), re.sub(r"\s+", " ", it[2].partition("#")[0]).strip()
