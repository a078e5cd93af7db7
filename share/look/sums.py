"""The text of `count`, summed over the events of a whole trace."""
from collections import Counter, defaultdict

import grammar

TABLES = {
    "attempts": ["begun", "committed", "violated", "open", "row", "gaveup"],
    "instructions": ["executed", "committed", "lost", "open"],
    "accesses": ["loads", "stores", "changes", "misses", "fills", "overflows"],
    "evictions": ["clean", "dirty", "modified"],
    "phases": grammar.PHASES,
}


class Sums:
    """Takes the events one after another; `finish` once behind the last."""

    def __init__(self, settings):
        self.settings, self.events = settings, 0
        every = range(settings.cores)
        self.cores = [Counter() for _ in every]
        self.n, self.row = [0 for _ in every], [0 for _ in every]
        self.phase, self.since = ["Running" for _ in every], [0 for _ in every]
        self.messages, self.lines = defaultdict(Counter), defaultdict(Counter)
        self.conflicts, self.packet, self.packets = defaultdict(Counter), [], Counter()

    def take(self, event):
        for fact in event.facts:
            maker = getattr(self, "on_" + type(fact).__name__.lower(), None)
            if maker:
                maker(fact, event)
        self.events += 1

    def on_did(self, fact, event):
        table = self.cores[fact.core]
        table["attempts", "begun"] += self.n[fact.core] == 0
        table["instructions", "executed"] += 1
        self.n[fact.core] += 1
        if fact.what in ("load", "store", "change"):
            table["accesses", fact.what + "s"] += 1

    def on_miss(self, fact, event):
        self.cores[fact.core]["accesses", "misses"] += 1
        self.lines[fact.line]["misses"] += 1

    def on_overflow(self, fact, event):
        self.cores[fact.core]["accesses", "overflows"] += 1

    def on_emptied(self, fact, event):
        table = self.cores[fact.core]
        table["evictions", "clean"] += not fact.dirty and not fact.modified
        table["evictions", "dirty"] += fact.dirty != 0
        table["evictions", "modified"] += fact.modified != 0

    def on_delivered(self, fact, event):
        message = fact.message
        if message.kind == "Packet":
            self.packets["took"] += 1
            for line in self.packet:
                self.lines[line]["invalidations"] += 1
            return
        self.messages[message.kind][fact.how] += 1
        if fact.how == "took" and message.kind == "Fill":
            self.cores[int(event.node[1:])]["accesses", "fills"] += 1
        if fact.how == "took" and message.kind == "Inv":
            self.lines[message.line]["invalidations"] += 1

    def on_sent(self, fact, event):
        if fact.message.kind == "Packet":
            self.packet.append(fact.message.line)
        else:
            self.messages[fact.message.kind]["sent"] += 1

    def on_bus(self, fact, event):
        if fact.state.startswith("packet"):
            self.packets["sent"] += 1
            self.packet = []

    def on_violated(self, fact, event):
        core, table = fact.core, self.cores[fact.core]
        self.n[core], self.row[core] = 0, self.row[core] + 1
        table["attempts", "violated"] += 1
        table["attempts", "row"] = max(table["attempts", "row"], self.row[core])
        table["instructions", "lost"] += fact.lost
        self.lines[fact.line].update(violations=1, lost=fact.lost)
        self.conflicts[fact.by, core, fact.line].update(violations=1, lost=fact.lost)

    def on_gaveup(self, fact, event):
        self.cores[fact.core]["attempts", "gaveup"] += 1

    def on_commit(self, fact, event):
        self.n[fact.core] = self.row[fact.core] = 0
        self.cores[fact.core]["attempts", "committed"] += 1
        self.cores[fact.core]["instructions", "committed"] += fact.count

    def on_phase(self, fact, event):
        core = fact.core
        self.cores[core]["phases", self.phase[core].split()[0]] += self.events + 1 - self.since[core]
        self.phase[core], self.since[core] = fact.phase, self.events + 1

    def finish(self):
        for core, table in enumerate(self.cores):
            table["phases", self.phase[core].split()[0]] += self.events - self.since[core]
            table["attempts", "open"] = int(self.n[core] > 0)
            table["instructions", "open"] = self.n[core]

    def total(self, table, name):
        values = [it[table, name] for it in self.cores]
        return max(values) if name == "row" else sum(values)

    def table_lines(self):
        for table, names in TABLES.items():
            for core, row in enumerate(self.cores):
                yield f"{table} {core} " + " ".join(f"{name} {row[table, name]}" for name in names)
            yield f"{table} all " + " ".join(f"{name} {self.total(table, name)}" for name in names)

    def message_lines(self):
        if self.settings.bus:
            sent, took = self.packets["sent"], self.packets["took"]
            yield f"packets all sent {sent} took {took} left {sent * (self.settings.cores - 1) - took}"
            return
        total = Counter()
        for kind in grammar.KINDS:
            total.update(self.messages[kind])
            yield message_line(kind, self.messages[kind])
        yield message_line("all", total)

    def body(self):
        """The lines of `count` between the settings and `end`."""
        lines = [*self.table_lines(), *self.message_lines()]
        for line, row in sorted(self.lines.items()):
            lines.append(f"line {line} " + " ".join(f"{it} {row[it]}" for it in ("misses", "invalidations", "violations", "lost")))
        for (by, core, line), row in sorted(self.conflicts.items()):
            lines.append(f"conflict {by} {core} {line} {row['violations']} {row['lost']}")
        return lines

    def csv(self, seed, steps, end):
        """The two rows of `count --csv`, of a run by this seed."""
        names = self.settings.text().split(" ")
        row = [("tcc-bus-count" if self.settings.bus else "tcc-count", "1"), *zip(names[::2], names[1::2])]
        row += [("seed", seed), ("steps", steps), ("end", end), ("events", str(self.events))]
        for line in self.body():
            words = line.split(" ")
            if words[1] == "all":
                row += [(f"{words[0]}_{name}", value) for name, value in zip(words[2::2], words[3::2])]
        return [",".join(it[0] for it in row), ",".join(it[1] for it in row)]


def message_line(kind, row):
    flight = row["sent"] - row["took"] - row["dropped"]
    return f"messages {kind} sent {row['sent']} took {row['took']} dropped {row['dropped']} asked {row['asked']} flight {flight}"
