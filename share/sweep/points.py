"""The runs of a sweep: lists of values, their product in the order of the words, and every N-th of it."""
import itertools
import re

# Of each option of `count` that a run by seed has: least and largest value, and what it is where it is left out.
LIMITS = {
    "cores": (1, 64, 1),
    "dirs": (1, 64, 1),
    "sets": (1, 1024, 16),
    "ways": (1, 16, 2),
    "base": (0, (1 << 32) - 32, 0x80000000),
    "ram": (32, 16777216, 65536),
    "seed": (0, (1 << 64) - 1, 0),
    "steps": (0, 1 << 40, 1000000),
}
MOST = 1000000  # values in a list
NUMBER = re.compile("[0-9]+|0x[0-9a-fA-F]+")


class Fault(Exception):
    """What is wrong in the words or in a file, with its place."""


def number(text, name):
    """The number that a text is, within the limits of its option."""
    if not NUMBER.fullmatch(text):
        raise Fault(f"--{name} is a list of numbers such as 1,2,4 or 1..100, and this is '{text}'")
    value = int(text, 16) if text.startswith("0x") else int(text)
    least, largest, _ = LIMITS[name]
    if not least <= value <= largest or name == "sets" and value & value - 1 or name in ("base", "ram") and value % 32:
        kind = {"sets": "a power of two ", "base": "a multiple of 32 ", "ram": "a multiple of 32 "}.get(name, "")
        raise Fault(f"--{name} is {kind}from {least} to {largest}, and this is '{text}'")
    return value


def values(text, name):
    """The numbers of a list: 1,2,4 or 1..100 or both, none twice, in the order as they are typed."""
    found = {}
    for part in text.split(","):
        first, dots, last = part.partition("..")
        low = number(first, name)
        high = number(last, name) if dots else low
        if high < low:
            raise Fault(f"--{name}: {part} has no values")
        if len(found) + high - low >= MOST:
            raise Fault(f"--{name} has more than {MOST} values")
        for value in range(low, high + 1):
            if dots:
                number(str(value), name)
            if value in found:
                raise Fault(f"--{name} has {value} twice")
            found[value] = None
    return list(found)


def part(text):
    """K and N of K/N."""
    it = re.fullmatch("([0-9]{1,9})/([0-9]{1,9})", text)
    if not it or not 1 <= int(it[1]) <= int(it[2]):
        raise Fault(f"--part is K/N with K from 1 to N, and this is '{text}'")
    return int(it[1]), int(it[2])


def points(lists, which=(1, 1)):
    """Each run as its options with their values: the last option of the words changes first. `which` is K and N of the part."""
    runs = itertools.product(*lists.values())
    for run in itertools.islice(runs, which[0] - 1, None, which[1]):
        yield dict(zip(lists, run))


def how_many(lists, which=(1, 1)):
    """The number of those runs."""
    total = 1
    for it in lists.values():
        total *= len(it)
    return len(range(which[0] - 1, total, which[1]))
