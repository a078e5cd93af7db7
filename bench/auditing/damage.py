"""Damages what was good: bytes, lines of a text, and the words of a command."""

import re

NUMBERS = [0, 1, 2, 3, 7, 8, 15, 16, 17, 31, 32, 33, 63, 64, 65, 255, 256, 1024, 1025, 2047, 2048, 65536, 4194304, 4194305]
LARGE = [2**31, 2**32 - 1, 2**32, 2**62 - 1, 2**62, 2**63, 2**64 - 1, 2**64, 10**30]
BYTES = [0, 1, 0x0A, 0x0D, 0x20, 0x2D, 0x30, 0x7F, 0x80, 0xC3, 0xFF]
WORDS = ["-", "--", "--raw", "--raw=", "--raw=1", "--cores", "--cores=2", "--dirs=2", "--steps=9", "--record=r", "--threads=1", "-h"]
WORDS += ["--help", "run", "replay", "why", "serial", "trial", "phases", "bus", "", " ", "counters", "x.bin", "é", "--seed=0x10", "0X10"]
# none that isn't UTF-8: this program refuses it (`examples/statuses`), which others needn't


def number(draw, near):
    """A number in place of another, mostly near it or at a limit."""
    kind = draw.random()
    if kind < 0.4:
        return str(max(0, near + draw.choice([-2, -1, 1, 2])))
    if kind < 0.75:
        return str(draw.choice(NUMBERS))
    if kind < 0.85:
        return str(draw.choice(LARGE))
    return draw.choice(["0{}", "-{}", "+{}", "0x{:x}", "0X{:x}", "{} ", "{}.0", "{}_", "{:08x}"]).format(near)


def with_number_changed(draw, text):
    """One of the decimal numbers of the text is another one."""
    found = list(re.finditer(r"\d+", text))
    if not found:
        return text
    at = draw.choice(found)
    return text[:at.start()] + number(draw, int(at.group())) + text[at.end():]


def damaged_bytes(draw, data):
    """Bits, bytes, fields, runs or the length of the data are changed."""
    data = bytearray(data)
    at = draw.randrange(len(data) + 1) if draw.random() < 0.5 else draw.randrange(min(len(data), 128) + 1)
    length = draw.choice([1, 1, 2, 4, 8, 32, 100])
    kind = draw.randrange(9)
    if kind == 0 and at < len(data):
        data[at] ^= 1 << draw.randrange(8)
    elif kind == 1 and at < len(data):
        data[at] = draw.choice(BYTES)
    elif kind == 2:
        data[at:at] = bytes(draw.choice(BYTES) for _ in range(length))
    elif kind == 3:
        del data[at:at + length]
    elif kind == 4:
        del data[at:]
    elif kind == 5:
        data[at:at + length] = bytes(length)
    elif kind == 6:
        at -= at % 4  # a field of four bytes
        data[at:at + 4] = (draw.choice(NUMBERS + LARGE[:2] + [0x80000000, 0x8000FFE0, 0x80010000]) % 2**32).to_bytes(4, "little")
    elif kind == 7:
        at -= at % 2
        data[at:at + 2] = (draw.choice(NUMBERS) % 2**16).to_bytes(2, "little")
    else:
        data += data[at:at + length]
    return bytes(data)


def damaged_text(draw, data):
    """A line of the text, or one of its numbers or words, is changed; or its bytes are."""
    if draw.random() < 0.25:
        return damaged_bytes(draw, data)
    lines = data.decode("latin-1").split("\n")
    at = draw.randrange(min(len(lines), 4)) if draw.random() < 0.3 else draw.randrange(len(lines))
    other = draw.randrange(len(lines))
    kind = draw.randrange(10)
    if kind <= 3:
        lines[at] = with_number_changed(draw, lines[at])
    elif kind == 4:
        lines[at] = draw.choice(["{} ", " {}", "{}\r", "{}\t", "", "#{}", "{} 0"]).format(lines[at])
    elif kind == 5:
        del lines[at]
    elif kind == 6:
        lines.insert(at, lines[other])
    elif kind == 7:
        lines[at], lines[other] = lines[other], lines[at]
    elif kind == 8:
        words = lines[at].split(" ")
        draw.shuffle(words)
        lines[at] = " ".join(words)
    else:
        lines = lines[:at]
    return "\n".join(lines).encode("latin-1")


def damaged_rows(draw, data):
    """A byte is another one, a row is missing, there twice or in another's place, the text is cut short, a number is another one; or it is
    damaged as any text."""
    rows = data.splitlines(keepends=True) or [b""]
    at, place, kind = draw.randrange(len(rows)), draw.randrange(max(1, len(data))), draw.randrange(8)
    if kind == 0:
        return data[:place] + bytes([(data[place] if data else 0) + draw.randint(1, 255) & 255]) + data[place + 1:]
    if kind == 1:
        return data[:place]
    if kind == 2:
        del rows[at]
    elif kind == 3:
        rows.insert(at, rows[at])
    elif kind == 4:
        other = draw.choice([at - 1, draw.randrange(len(rows))])
        rows[at], rows[other] = rows[other], rows[at]
    elif kind <= 6:
        rows[at] = with_number_changed(draw, rows[at].decode("latin-1")).encode("latin-1")
    else:
        return damaged_text(draw, data)
    return b"".join(rows)


def damaged_words(draw, words):
    """A word is changed, dropped, doubled or moved, or a further one stands among them."""
    words = list(words)
    at, other = draw.randrange(len(words)), draw.randrange(len(words))
    kind = draw.randrange(9)
    if kind <= 2:
        words[at] = with_number_changed(draw, words[at])
    elif kind == 3 and len(words) > 1:
        del words[at]
    elif kind == 4:
        words.insert(at, words[other])
    elif kind == 5:
        words[at], words[other] = words[other], words[at]
    elif kind == 6:
        words.insert(at, draw.choice(WORDS))
    elif kind == 7 and words[at].startswith("--") and at + 1 < len(words):
        words[at:at + 2] = [words[at] + "=" + words[at + 1]]
    else:
        words[at] = draw.choice([words[at].upper(), words[at][:-1], words[at] + "s", draw.choice(WORDS)])
    return words
