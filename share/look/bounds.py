"""Whether what a line of a trace names is there: cores, directories, sets and ways of the machine, and what only one of the two machines
has."""

SETTINGS = [("cores", 1, 64), ("dirs", 0, 64), ("sets", 1, 1024), ("ways", 1, 16), ("base", 0, 1 << 32), ("ram", 32, 1 << 24)]
OF_CORE = {"core", "reserved", "ended", "awaits", "owing", "last", "reg", "saved", "frame", "spilled"}
OF_BUS = {"arbiter", "packet", "mem"}


class Bounds:
    """The machine of these settings. Each call gives what is wrong, or None."""

    def __init__(self, settings):
        self.settings, self.bus = settings, settings.bus
        self.cores = {f"c{it}" for it in range(settings.cores)}
        self.dirs = {f"d{it}" for it in range(settings.dirs)} | (set() if self.bus else {"v"})
        self.nodes = self.cores | self.dirs
        self.wrong = next((name for name, least, most in SETTINGS if not least <= getattr(settings, name) <= most), None)

    def core(self, number):
        return None if f"c{number}" in self.cores else f"there is no core {number}"

    def dir(self, number):
        return None if f"d{number}" in self.dirs else f"there is no directory {number}"

    def link(self, source, to):
        """A message goes from a core to another node, or the other way."""
        if self.bus:
            return "there are no messages on the bus"
        if source not in self.nodes or to not in self.nodes or (source in self.cores) == (to in self.cores):
            return f"there is no link from {source} to {to}"
        return None

    def event(self, text):
        words = text.split(" ")
        if words[0] == "d":
            return self.link(words[1], words[2])
        if (words[0] == "t") > self.bus:
            return "only on the bus packets are taken"
        if words[0] == "x" and not (int(words[2]) < self.settings.sets and int(words[3]) < self.settings.ways):
            return "there is no such way"
        return self.core(words[1])

    def delivery(self, event):
        """An event that delivers a message, or takes a packet, begins with what became of it, and no other does."""
        how = getattr(event.facts[0], "how", None)
        if (how is not None) != (event.text[0] in "dt"):
            return "the first fact isn't of such an event"
        if how and (event.facts[0].message.kind == "Packet") != (event.text[0] == "t"):
            return "the first fact is of another message"
        return None

    def fact(self, fact):
        if hasattr(fact, "source"):
            return self.link(fact.source, fact.to) if fact.source else None if self.bus else "packets are only on the bus"
        if hasattr(fact, "dir"):
            return self.dir(fact.dir)
        if hasattr(fact, "core"):
            return self.core(fact.core) or (self.core(fact.by) if hasattr(fact, "by") else None)
        return None

    def record(self, text):
        words = text.removeprefix("gone ").split(" ")
        if words[0] in OF_CORE:
            return self.core(words[1])
        if words[0] == "flight":
            return self.link(words[1], words[2])
        if (words[0] in OF_BUS) != self.bus:
            return "a record of the other machine"
        if words[0] in ("dir", "skips"):
            return self.dir(words[1])
        return None
