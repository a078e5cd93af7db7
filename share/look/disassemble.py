"""Instructions of RV32IMA as text, where no objdump is there to say it: the names of the manual, without its short forms."""

REGISTERS = "zero ra sp gp tp t0 t1 t2 s0 s1 a0 a1 a2 a3 a4 a5 a6 a7 s2 s3 s4 s5 s6 s7 s8 s9 s10 s11 t3 t4 t5 t6".split()
LOADS = {0: "lb", 1: "lh", 2: "lw", 4: "lbu", 5: "lhu"}
STORES = {0: "sb", 1: "sh", 2: "sw"}
BRANCHES = {0: "beq", 1: "bne", 4: "blt", 5: "bge", 6: "bltu", 7: "bgeu"}
IMMEDIATE = {0: "addi", 2: "slti", 3: "sltiu", 4: "xori", 6: "ori", 7: "andi"}
SHIFTS = {(1, 0): "slli", (5, 0): "srli", (5, 32): "srai"}
REGISTER = {(0, 0): "add", (0, 32): "sub", (1, 0): "sll", (2, 0): "slt", (3, 0): "sltu", (4, 0): "xor", (5, 0): "srl", (5, 32): "sra",
            (6, 0): "or", (7, 0): "and", (0, 1): "mul", (1, 1): "mulh", (2, 1): "mulhsu", (3, 1): "mulhu", (4, 1): "div", (5, 1): "divu",
            (6, 1): "rem", (7, 1): "remu"}
ATOMIC = {0: "amoadd.w", 1: "amoswap.w", 2: "lr.w", 3: "sc.w", 4: "amoxor.w", 8: "amoor.w", 12: "amoand.w", 16: "amomin.w", 20: "amomax.w",
          24: "amominu.w", 28: "amomaxu.w"}


def signed(value, bits):
    return value - (1 << bits) if value >> bits - 1 & 1 else value


class Fields:
    """The parts of an instruction word, by the formats of the manual."""

    def __init__(self, word):
        self.opcode, self.three, self.seven = word & 127, word >> 12 & 7, word >> 25
        self.rd, self.rs1, self.rs2 = (REGISTERS[word >> at & 31] for at in (7, 15, 20))
        self.shift, self.five = word >> 20 & 31, word >> 27
        self.i = signed(word >> 20, 12)
        self.s = signed(word >> 25 << 5 | word >> 7 & 31, 12)
        self.b = signed((word >> 31) << 12 | (word >> 7 & 1) << 11 | (word >> 25 & 63) << 5 | (word >> 8 & 15) << 1, 13)
        self.u = word >> 12
        self.j = signed((word >> 31) << 20 | (word >> 12 & 255) << 12 | (word >> 20 & 1) << 11 | (word >> 21 & 1023) << 1, 21)


def place(address, name):
    """An address, and its name where it has one."""
    text = f"{address & 0xffffffff:08x}"
    return text if name(address) == text else f"{text} <{name(address)}>"


def atomic(it):
    name = ATOMIC.get(it.five) if it.three == 2 else None
    if name == "lr.w":
        return f"lr.w {it.rd},({it.rs1})"
    return f"{name} {it.rd},{it.rs2},({it.rs1})" if name else None


def immediate(it):
    if it.three in IMMEDIATE:
        return f"{IMMEDIATE[it.three]} {it.rd},{it.rs1},{it.i}"
    name = SHIFTS.get((it.three, it.seven))
    return f"{name} {it.rd},{it.rs1},{it.shift}" if name else None


def system(word):
    return {0x73: "ecall", 0x100073: "ebreak"}.get(word)


def found(table, key, rest):
    return f"{table[key]} {rest}" if key in table else None


def disassembled(word, pc, name):
    """The instruction at `pc` as text; `name` gives an address its name. A word that is none is shown as such."""
    it = Fields(word)
    texts = {
        0x03: lambda: found(LOADS, it.three, f"{it.rd},{it.i}({it.rs1})"),
        0x0f: lambda: "fence" if it.three == 0 else None,
        0x13: lambda: immediate(it),
        0x17: lambda: f"auipc {it.rd},{it.u:#x}",
        0x23: lambda: found(STORES, it.three, f"{it.rs2},{it.s}({it.rs1})"),
        0x2f: lambda: atomic(it),
        0x33: lambda: found(REGISTER, (it.three, it.seven), f"{it.rd},{it.rs1},{it.rs2}"),
        0x37: lambda: f"lui {it.rd},{it.u:#x}",
        0x63: lambda: found(BRANCHES, it.three, f"{it.rs1},{it.rs2},{place(pc + it.b, name)}"),
        0x67: lambda: f"jalr {it.rd},{it.i}({it.rs1})" if it.three == 0 else None,
        0x6f: lambda: f"jal {it.rd},{place(pc + it.j, name)}",
        0x73: lambda: system(word),
    }
    return texts.get(it.opcode, lambda: None)() or f".word {word:08x}"
