"""What a trace says of an event: its facts, each of a class of its own, and how each is made of its line. The lines are whole already when
they come here (grammar.py).
"""
from dataclasses import dataclass, field


@dataclass(slots=True)
class Message:
    kind: str
    text: str
    line: int | None = None
    mask: int | None = None
    tid: int | None = None


@dataclass(slots=True)
class Did:
    """An instruction was finished. `what` is local, load, store, change, console, end, halt or trap."""
    core: int
    pc: int
    what: str
    address: int | None = None
    size: int | None = None
    value: int | None = None
    old: int | None = None


@dataclass(slots=True)
class Miss:
    core: int
    pc: int
    address: int
    line: int


@dataclass(slots=True)
class Overflow:
    core: int
    pc: int
    address: int
    line: int


@dataclass(slots=True)
class Emptied:
    core: int
    line: int
    dirty: int
    modified: int


@dataclass(slots=True)
class Delivered:
    """What became of the message of this event: `how` is took, dropped or asked."""
    how: str
    message: Message


@dataclass(slots=True)
class Violated:
    core: int
    by: int
    tid: int
    line: int
    words: int
    lost: int
    phase: str


@dataclass(slots=True)
class GaveUp:
    tid: int
    core: int


@dataclass(slots=True)
class Commit:
    tid: int
    core: int
    count: int


@dataclass(slots=True)
class Phase:
    core: int
    phase: str


@dataclass(slots=True)
class Serves:
    dir: int
    tid: int


@dataclass(slots=True)
class Bus:
    """What holds the bus now: free, alone CORE or packet TID."""
    state: str


@dataclass(slots=True)
class Sent:
    """A message was sent; a line of a packet has no nodes and no number."""
    source: str
    to: str
    seq: int
    message: Message


@dataclass(slots=True)
class Event:
    number: int
    text: str
    facts: list = field(default_factory=list)
    records: list = field(default_factory=list)

    @property
    def node(self):
        """The node that acts, as a schedule writes it: c0, d1, v."""
        words = self.text.split()
        return words[2] if words[0] == "d" else "c" + words[1]

    def first(self, kind):
        """Its fact of this class, or None."""
        return next((it for it in self.facts if type(it) is kind), None)


def message_of(text):
    kind, _, rest = text.partition(" ")
    message = Message(kind, text)
    words = rest.split(" ")
    for at, word in enumerate(words[:-1]):
        if word == "line":
            message.line = int(words[at + 1])
        elif word == "mask":
            message.mask = int(words[at + 1])
        elif word == "tid":
            message.tid = int(words[at + 1])
        elif word == "words":
            break
    return message


def did_of(words):
    core, pc, what = int(words[1]), int(words[2], 16), words[3]
    if what in ("load", "store", "change"):
        values = [int(it, 16) for it in words[6:]]
        return Did(core, pc, what, int(words[4], 16), int(words[5]), values[-1], values[0] if what == "change" else None)
    if what == "console":
        return Did(core, pc, what, value=int(words[4], 16))
    return Did(core, pc, what, value=int(words[4])) if what in ("halt", "trap") else Did(core, pc, what)


def sent_of(text):
    words = text.split(" ", 4)
    if words[1] == "Packet":
        return Sent("", "", 0, message_of(text[5:]))
    return Sent(words[1], words[2], int(words[3]), message_of(words[4]))


def violated_of(w):
    return Violated(int(w[1]), int(w[3]), int(w[5]), int(w[7]), int(w[9]), int(w[11]), " ".join(w[13:]))


# How each kind of fact is made of its line, by the line's words; those of messages by the text.
MAKERS = {
    "did": did_of,
    "miss": lambda w: Miss(int(w[1]), int(w[2], 16), int(w[3], 16), int(w[5])),
    "overflow": lambda w: Overflow(int(w[1]), int(w[2], 16), int(w[3], 16), int(w[5])),
    "emptied": lambda w: Emptied(int(w[1]), int(w[3]), int(w[5]), int(w[7])),
    "violated": violated_of,
    "gaveup": lambda w: GaveUp(int(w[1]), int(w[2])),
    "commit": lambda w: Commit(int(w[1]), int(w[2]), int(w[3])),
    "phase": lambda w: Phase(int(w[1]), " ".join(w[2:])),
    "serves": lambda w: Serves(int(w[1]), int(w[2])),
    "bus": lambda w: Bus(" ".join(w[1:])),
}


def fact_of(text):
    """The fact that a line says, without the line's space."""
    kind = text[:text.find(" ")]
    if kind == "sent":
        return sent_of(text)
    if kind in ("took", "dropped", "asked"):
        return Delivered(kind, message_of(text[len(kind) + 1:]))
    return MAKERS[kind](text.split(" "))
