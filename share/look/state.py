"""The state of a machine as its records say it, and how a trace with --states changes it event by event."""
import grammar
from facts import Delivered, Sent
from trace import Fault

NODES = "cdv"
CORE_RECORDS = ["core", "reserved", "ended", "awaits", "owing", "last", "reg", "saved", "frame", "spilled"]
DIR_RECORDS = ["dir", "skips", "line", "home"]
BUS_RECORDS = ["arbiter", "packet", "mem"]


def node_order(name):
    """Cores by number first, then directories, then the vendor."""
    return NODES.index(name[0]), int(name[1:] or 0)


def number(word):
    return -1 if word == "pc" else int(word, 16) if len(word) == 8 else int(word)


class State:
    """Records by their key."""

    def __init__(self, settings):
        self.settings, self.at = settings, {}

    def put(self, record):
        """A record of a trace: what is so now, or (`gone`) no more."""
        if record.startswith("gone "):
            if self.at.pop(record[5:], None) is None:
                raise Fault(f"`{record}`, and there was none")
            return
        key = grammar.key_of(record)
        if self.at.get(key) == record:
            raise Fault(f"`{record}` is told, and it was so before")
        self.at[key] = record

    def take(self, event):
        """What an event changes: messages come and go by its facts, all else by its records."""
        name = "flight " + event.text[2:]
        for fact in event.facts:
            if type(fact) is Delivered and event.text[0] == "d":
                if self.at.get(name) != f"{name} {fact.message.text}":
                    raise Fault(f"`{fact.how} {fact.message.text}`, and that isn't in flight")
                if fact.how != "asked":
                    del self.at[name]
            elif type(fact) is Sent and fact.source:
                self.put(f"flight {fact.source} {fact.to} {fact.seq} {fact.message.text}")
        for record in event.records:
            self.put(record)

    def order(self, record):
        """Where a record stands among those of a state."""
        words = record.split(" ")
        kind = words[0]
        if kind == "flight":
            return 4, node_order(words[1]), node_order(words[2]), int(words[3])
        if kind in CORE_RECORDS:
            return 0, int(words[1]), CORE_RECORDS.index(kind), [number(it) for it in words[1:grammar.KEYS[kind]]]
        if kind in BUS_RECORDS:
            return 2, 0, BUS_RECORDS.index(kind), [number(it) for it in words[1:grammar.KEYS[kind]]]
        if kind == "vendor":
            return 3, 0, 0, []
        home = self.settings.home
        at = {"home": lambda: home(self.settings.line_of(number(words[1]))), "line": lambda: home(int(words[1]))}
        return 1, at.get(kind, lambda: int(words[1]))(), DIR_RECORDS.index(kind), [number(it) for it in words[1:grammar.KEYS[kind]]]

    def lines(self):
        """The records as `state` prints them."""
        return sorted(self.at.values(), key=self.order)
