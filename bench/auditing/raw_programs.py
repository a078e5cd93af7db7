"""Random programs as raw images: loads, stores and atomics of lines that all of them share, with ends of transactions between."""

import struct

REGISTERS = [5, 7, 9, 12, 13, 14]
LINES = [0x400, 0x420, 0x440, 0x460, 0x480, 0x4A0, 0x600, 0x620, 0x7E0]


def load(width, to, base, offset):
    return (offset & 0xFFF) << 20 | base << 15 | width << 12 | to << 7 | 0x03


def store(width, base, value, offset):
    return (offset >> 5 & 0x7F) << 25 | value << 20 | base << 15 | width << 12 | (offset & 31) << 7 | 0x23


def addi(to, value, immediate):
    return (immediate & 0xFFF) << 20 | value << 15 | to << 7 | 0x13


def low_bit(to, value):
    return 1 << 20 | value << 15 | 7 << 12 | to << 7 | 0x13


def arithmetic(kind, to, left, right):
    return kind << 25 | right << 20 | left << 15 | to << 7 | 0x33


def atomic(draw):
    kind = draw.choice([0, 1, 2, 3, 4, 8, 12, 16, 20, 24, 28])
    value, address, to = draw.choice(REGISTERS), draw.choice([6, 16]), draw.choice(REGISTERS)
    return kind << 27 | value << 20 | address << 15 | 2 << 12 | to << 7 | 0x2F


def branch_on(draw, register):
    return register << 20 | draw.choice(REGISTERS) << 15 | draw.choice([0, 1]) << 12 | 8 << 7 | 0x63


def offset(draw, lines, multiple):
    return (draw.choice(lines) + draw.randrange(32)) // multiple * multiple


def instructions(draw, lines):
    """One instruction, or what belongs together."""
    kind = draw.random()
    if kind < 0.25:
        width, multiple = draw.choice([(2, 4), (2, 4), (2, 4), (0, 1), (1, 2), (4, 1), (5, 2)])
        return [load(width, draw.choice(REGISTERS), 6, offset(draw, lines, multiple if draw.random() < 0.98 else 1))]
    if kind < 0.5:
        width, multiple = draw.choice([(2, 4), (2, 4), (2, 4), (0, 1), (1, 2)])
        return [store(width, 6, draw.choice(REGISTERS + [10, 11]), offset(draw, lines, multiple))]
    if kind < 0.6:
        return [addi(draw.choice(REGISTERS), draw.choice(REGISTERS + [10, 11]), draw.randint(-2048, 2047))]
    if kind < 0.68:
        return [arithmetic(draw.choice([0, 0x20, 1]), *(draw.choice(REGISTERS) for _ in range(3)))]
    if kind < 0.72:
        return [atomic(draw)]
    if kind < 0.76:
        return [addi(16, 6, offset(draw, lines, 4))]
    if kind < 0.78:
        return [addi(27, draw.choice([0, 10, 27]), draw.choice([0, 1, 1, 2, -1]))]  # the phase of what comes next
    if kind < 0.9:
        return [addi(17, 0, draw.choice([0, 0, 0, 1])), 0x73]
    if kind < 0.94:
        return [branch_on(draw, draw.choice(REGISTERS))]
    return [draw.getrandbits(32) if draw.random() < 0.2 else 0x13]


def words_of_lines(draw, lines):
    """Loads and stores of words, branches on what was loaded, and now and then the end of the transaction."""
    kind, to, from_ = draw.random(), draw.choice(REGISTERS), draw.choice(REGISTERS + [10, 11])
    word = offset(draw, lines, 4)
    if kind < 0.2:
        return [load(2, to, 6, word)]
    if kind < 0.35:
        return [load(2, to, 6, word), branch_on(draw, to)]
    if kind < 0.65:
        return [store(2, 6, from_, word)]
    if kind < 0.75:  # a word that was stored is loaded, and then another of its line
        return [store(2, 6, from_, word), load(2, to, 6, word), load(2, to, 6, word ^ draw.choice([4, 8, 12])), branch_on(draw, to)]
    if kind < 0.85:
        return [addi(to, to, draw.randint(1, 9))]
    if kind < 0.95:  # a word says whether the transaction ends or a byte is printed
        return [load(2, 17, 6, word), low_bit(17, 17), 0x73]
    return [addi(17, 0, 0), 0x73]


def jump_back(words):
    """From behind `words` words to the second one."""
    distance = -4 * (words - 1)
    return (distance >> 20 & 1) << 31 | (distance >> 1 & 0x3FF) << 21 | (distance >> 11 & 1) << 20 | (distance >> 12 & 0xFF) << 12 | 0x6F


def raw_program(draw, one, lines, shortest, goes_round):
    """A program of instructions that `one` gives; it halts, mostly, or goes round and round."""
    words = [0x80000337]  # lui x6, 0x80000
    for _ in range(draw.randint(shortest, 40)):
        words += one(draw, lines)
    if draw.random() < goes_round:
        words += [addi(17, 0, 0), 0x73]
        words += [jump_back(len(words))]
    elif draw.random() < 0.9:
        words += [addi(17, 0, 93), 0x73]
    return b"".join(struct.pack("<I", word) for word in words)


def printing_image(draw):
    """A program that goes round and prints some bytes in each transaction: of a word that all cores change, of one in a line of the core's
    own, or of none, so that transactions commit in another order than that of their TIDs."""
    base, word = draw.choice([6, 16, None]), draw.choice(LINES)
    words = [addi(12, 10, 0), 0x80000337]  # x12: the core's number
    if base == 16:
        words += [5 << 20 | 12 << 15 | 1 << 12 | 7 << 7 | 0x13, arithmetic(0, 16, 6, 7)]  # x16 = x6 + 32 * x12
    words += [addi(5, 5, 1)] if base is None else [load(2, 5, base, word), addi(5, 5, 1), store(2, base, 5, word)]
    words.append(addi(17, 0, 1))
    for _ in range(draw.randint(1, 6)):
        words += [addi(10, 5, draw.randint(0, 255)), 0x73]
    words += [addi(17, 0, 0), 0x73]
    words.append(jump_back(len(words)))
    return b"".join(struct.pack("<I", word) for word in words)


def raw_images(draw):
    """One to three programs, by file name: over all lines with instructions of each kind, or with the words of one to three lines alone."""
    if draw.random() < 0.6:
        kind = (instructions, LINES, 3, 0.2)
    else:
        kind = (words_of_lines, draw.sample(LINES[:6], draw.randint(1, 3)), 15, 0.7)
    return {f"{at}.bin": raw_program(draw, *kind) for at in range(draw.randint(1, 3))}
