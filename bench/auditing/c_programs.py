"""Random programs in C over examples/machine.h, and the ELF files that GCC makes of these and of the examples."""

import os
import subprocess

EXAMPLES = os.path.join(os.path.dirname(os.path.abspath(__file__)), "..", "..", "examples")
GCC = "riscv64-unknown-elf-gcc"
OPTIONS = (
    "-march=rv32ima -mabi=ilp32 -mno-relax -ffixed-s11 -w -ffreestanding -fno-builtin -fno-tree-loop-distribute-patterns -nostdlib"
    " -static -s -Wl,--build-id=none -Wl,-z,max-page-size=32 -Wl,--no-warn-rwx-segments -T machine.ld"
).split()

HEAD = """#include "machine.h"

static unsigned words[16];
static unsigned char bytes[32];
static short halves[16];

static inline void phase(unsigned number)
{
    asm volatile("mv s11, %0" : : "r"(number));
}
"""
ARRAYS = ["words[{} & 15]", "words[{} & 15]", "words[{} & 7]", "bytes[{} & 31]", "halves[{} & 15]"]
BINARY = ["{} + {}", "{} - {}", "{} * {}", "{} / ({} | 1)", "{} % ({} | 3)", "{} ^ {}", "{} & {}", "{} | {}", "{} < {}", "{} == {}"]
UNARY = ["~{}", "-{}", "!{}", "{} << 3", "{} >> 5", "(unsigned)((int){} >> 2)", "(unsigned char){}", "(unsigned)(short){}"]
ATOMIC = ["__atomic_fetch_add(&{}, {}, 5)", "__atomic_exchange_n(&{}, {}, 5)", "__atomic_fetch_or(&{}, {}, 5)"]


class Writer:
    """Writes a random function body: `names` are the variables that it may use."""

    def __init__(self, draw, names, functions):
        self.draw, self.names, self.functions = draw, names, functions

    def value(self, depth=2):
        kind = self.draw.random()
        if depth == 0 or kind < 0.35:
            return self.draw.choice(self.names + [str(self.draw.choice([0, 1, 2, 7, 31, 255, 65536]))])
        if kind < 0.55:
            return self.draw.choice(ARRAYS).format(f"({self.value(depth - 1)})")
        if kind < 0.62 and self.functions:
            return f"{self.draw.choice(self.functions)}({self.value(depth - 1)}, {self.value(depth - 1)})"
        if kind < 0.67:
            return self.draw.choice(ATOMIC).format(f"words[{self.draw.randrange(16)}]", self.value(depth - 1))
        if kind < 0.8:
            return f"({self.draw.choice(UNARY).format(f'({self.value(depth - 1)})')})"
        return f"({self.draw.choice(BINARY).format(self.value(depth - 1), self.value(depth - 1))})"

    def statement(self, depth):
        kind = self.draw.random()
        if kind < 0.3 or depth == 0 and kind > 0.75:
            return [f"{self.draw.choice(self.names)} = {self.value()};"]
        if kind < 0.6:
            return [f"{self.draw.choice(ARRAYS).format(f'({self.value(1)})')} {self.draw.choice(['=', '=', '+=', '^='])} {self.value()};"]
        if kind < 0.66:
            return [f"print_plain({self.value(1)} & 0xfff);"]
        if kind < 0.7:
            return [f"print_char({self.value(1)});"]
        if kind < 0.75:
            return [self.draw.choice(["commit();", "commit();", "commit();", f"phase({self.value(1)} & 7);"])]
        if kind < 0.9:
            return [f"if ({self.value()}) {{", *self.block(depth - 1), "}"]
        counter = f"i{depth}"
        return [f"for (unsigned {counter} = 0; {counter} < {self.draw.randint(1, 6)}; {counter}++) {{", *self.block(depth - 1), "}"]

    def block(self, depth):
        lines = []
        for _ in range(self.draw.randint(1, 4)):
            lines += self.statement(depth)
        return ["    " + line for line in lines]


def c_program(draw):
    """The text of a program: some functions, and a main with a transaction or more each time round."""
    lines, functions = [HEAD], []
    for number in range(draw.randint(0, 3)):
        writer = Writer(draw, ["a", "b", "c"], list(functions))
        attribute = draw.choice(["", "", "__attribute__((noinline)) "])
        lines += [f"static {attribute}unsigned f{number}(unsigned a, unsigned b)", "{", "    unsigned c = 0;", *writer.block(2)]
        lines += [f"    return {writer.value()};", "}", ""]
        functions.append(f"f{number}")
    writer = Writer(draw, ["core", "cores", "a", "b"], functions)
    lines += ["int main(unsigned core, unsigned cores)", "{", "    unsigned a = core, b = 1;", ""]
    lines += [f"    for (unsigned turn = 0; turn < {draw.randint(1, 8)}; turn++) {{"]
    if draw.random() < 0.4:
        lines += [f"        phase({draw.choice(['turn', 'core', 'turn + core', 'turn / 2 + (core & 1)', 'core ^ turn'])});"]
    lines += ["    " + line for line in writer.block(3)]
    lines += ["        commit();", "    }", f"    return {writer.value()};", "}", ""]
    return "\n".join(lines)


def levels(draw):
    """Three optimisation levels."""
    return [draw.choice(["-O0", "-O1"]), "-O2", "-Os"]


def compiled(room, text, level):
    """The ELF file that GCC makes of a program's text, with a file of the folder `room`."""
    source, image = os.path.join(room, "program.c"), os.path.join(room, "program.elf")
    with open(source, "w", encoding="ascii") as file:
        file.write(text)
    subprocess.run([GCC, level, *OPTIONS, "-I", ".", "-o", image, "start.s", source], cwd=EXAMPLES, check=True)
    with open(image, "rb") as file:
        return file.read()


def example_texts():
    """The C programs among the examples that need no C library, by name."""
    names = sorted(name for name in os.listdir(EXAMPLES) if name.endswith(".c"))
    texts = {name: open(os.path.join(EXAMPLES, name), encoding="ascii").read() for name in names}
    return {name: text for name, text in texts.items() if "#include <" not in text}


def example_images():
    """The examples as they are kept: name and bytes of each ELF file and raw image."""
    names = sorted(name for name in os.listdir(EXAMPLES) if name.endswith((".elf", ".bin")))
    return {name: open(os.path.join(EXAMPLES, name), "rb").read() for name in names}
