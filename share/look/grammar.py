"""The lines of `trace` and `state` as patterns. A shape is written as docs/FORMATS.md writes it, with words in capitals for what they stand
for there; what follows a line's first word decides nothing but whether the line is whole.
"""
import re

NUM = "(?:0|[1-9][0-9]*)"
HEX = "[0-9a-f]{8}"
MASK = "(?:0|[1-9][0-9]?|1[0-9][0-9]|2[0-4][0-9]|25[0-5])"
PHASE = f"(?:Running|AwaitTid|DoomedTid|Halted|Overflowing|(?:Probing|Ready|Overflowing|Solo) {NUM})"
WORDS = f"words(?: (?:{HEX}|-)){{8}}"
NODE = f"(?:[cd]{NUM}|v)"

# What a message says after its kind, in the order of the kinds in docs/PROTOCOL.md.
MESSAGES = {
    "TidReq": "", "TidGrant": " tid NUM", "LoadReq": " line NUM after NUM", "Fill": " line NUM WORDS", "Skip": " tid NUM",
    "Probe": " tid NUM", "ProbeReply": " tid NUM serving NUM", "Mark": " line NUM mask MASK tid NUM", "Commit": " tid NUM count NUM",
    "Abort": " tid NUM", "WriteBack": " line NUM mask MASK WORDS tag NUM", "Flush": " line NUM mask MASK WORDS tag NUM",
    "DataReq": " line NUM", "Inv": " line NUM mask MASK tid NUM", "InvAck": " line NUM keeps FLAG",
}
KINDS = list(MESSAGES)
PHASES = ["Running", "AwaitTid", "DoomedTid", "Probing", "Ready", "Overflowing", "Solo", "Halted"]


def filled(shape):
    """The pattern's text for a shape."""
    names = {"NUM": NUM, "HEX": HEX, "MASK": MASK, "PHASE": PHASE, "WORDS": WORDS, "NODE": NODE, "SIZE": "[124]", "BYTE": "[0-9a-f]{2}",
             "FLAG": "[01]"}
    return re.sub("[A-Z]{3,}", lambda it: names.get(it[0], it[0]), shape)


MESSAGE = "(?:" + "|".join(kind + filled(rest) for kind, rest in MESSAGES.items()) + ")"


def shapes(table):
    """The patterns of a table of shapes, by the first word of each."""
    return {it.split(" ")[0]: re.compile(filled(it).replace("MESSAGE", MESSAGE)) for it in table}


MESSAGE_OR_PACKET = f"(?:{MESSAGE}|{filled('Packet tid NUM')})"

# The facts in the order in which they stand; the first seven kinds exclude one another (but for a miss before its did on the bus).
FACT_SHAPES = [
    "did NUM HEX (?:local|end|load HEX SIZE HEX|store HEX SIZE HEX|change HEX SIZE HEX HEX|console BYTE|(?:halt|trap) NUM)",
    "miss NUM HEX HEX line NUM",
    "overflow NUM HEX HEX line NUM",
    "emptied NUM line NUM dirty MASK modified MASK",
    "violated NUM by NUM tid NUM line NUM words MASK lost NUM in PHASE",
    "gaveup NUM NUM",
    "commit NUM NUM NUM",
    "phase NUM PHASE",
    "serves NUM NUM",
    "bus (?:free|alone NUM|packet NUM)",
]
FACTS = shapes(FACT_SHAPES)
for how in ("took", "dropped", "asked"):
    FACTS[how] = re.compile(f"{how} {MESSAGE_OR_PACKET}")
FACTS["sent"] = re.compile(f"sent (?:{filled('NODE NODE NUM ')}{MESSAGE}|{filled('Packet line NUM mask MASK WORDS')})")

# A record, and how many of its first words are its key.
RECORD_SHAPES = {
    "core NUM n NUM pc HEX phase PHASE": 2,
    "reserved NUM HEX": 2,
    "ended NUM (?:end|(?:halt|trap) NUM)": 2,
    "awaits NUM line NUM stale FLAG": 2,
    "owing NUM(?: NUM)+": 2,
    "last NUM NUM NUM": 3,
    "reg NUM NUM HEX": 3,
    "saved NUM (?:pc|NUM) HEX": 3,
    "frame NUM NUM NUM line NUM valid MASK read MASK modified MASK dirty MASK tag NUM WORDS": 4,
    "spilled NUM HEX HEX": 3,
    "dir NUM serves NUM owed NUM": 2,
    "skips NUM NUM": 3,
    "line NUM home NUM owner (?:NUM|none) tag NUM asked FLAG mark MASK sharers (?:none|NUM(?: NUM)*)": 2,
    "home HEX HEX": 2,
    "vendor next NUM": 1,
    "arbiter next NUM (?:free|alone NUM|left(?: NUM)+)": 1,
    "packet NUM mask MASK WORDS": 2,
    "mem HEX HEX": 2,
}
KEYS = {it.split(" ")[0]: count for it, count in RECORD_SHAPES.items()} | {"flight": 4}
RECORDS = shapes(RECORD_SHAPES)
RECORDS["flight"] = re.compile(filled("flight NODE NODE NUM ") + MESSAGE)  # only before the first event
RECORDS["gone"] = re.compile(filled(r"gone (?:(?:core|reserved|ended|awaits|owing|dir|line|packet) NUM|(?:last|reg|skips) NUM NUM|"
                                    r"saved NUM (?:pc|NUM)|frame NUM NUM NUM|spilled NUM HEX|(?:home|mem) HEX|vendor|arbiter)"))

FIRST = re.compile("tcc-(?:bus-)?trace 1")
SETTINGS = re.compile("cores {0} dirs {0} sets {0} ways {0} base {0} ram {0}".format(f"({NUM})"))
BUS_SETTINGS = re.compile("cores {0} sets {0} ways {0} base {0} ram {0}".format(f"({NUM})"))
FROM = re.compile(f"from ({NUM})")
EVENTS = re.compile(f"events ({NUM})")
EVENT = re.compile(filled("e NUM|x NUM NUM NUM|t NUM|d NODE NODE NUM"))


def key_of(record):
    """A record's key: its first words."""
    return " ".join(record.split(" ", KEYS[record[:record.find(" ")]])[:KEYS[record[:record.find(" ")]]])
