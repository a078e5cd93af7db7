"""What holds within one whole trace, whatever the program: the order of facts, the numbers of messages, TIDs and attempts that add up. No
rule of the protocol is known here, so a trace of wrong rules can add up too; one whose lines don't fit together can't.
"""
from collections import Counter

import grammar
from facts import Bus, Commit, Delivered, Did, Emptied, GaveUp, Miss, Overflow, Phase, Sent, Serves, Violated
from state import State, node_order
from sums import Sums
from trace import Fault

RANK = {it: 0 for it in (Did, Miss, Overflow, Emptied, Delivered)}
RANK |= {it: at for at, it in enumerate((Violated, GaveUp, Commit, Phase, Serves, Bus, Sent), 1)}
OF_CORE = (Did, Miss, Overflow, Emptied, Violated, GaveUp, Commit, Phase)


class Laws:
    """Looks at the events one after another; `finish` behind the last. `sums` are those of the trace."""

    def __init__(self, settings, start, states):
        self.settings, self.sums, self.states = settings, Sums(settings), states
        self.state = State(settings)
        for record in start:
            self.state.put(record)
        self.sent, self.flight = Counter(), {}
        self.granted, self.committed, self.gone, self.serves = {}, {}, set(), {}

    def need(self, ok, event, text):
        if not ok:
            raise Fault(f"event {event.number} (`{event.text}`): {text}")

    def take(self, event):
        self.order(event)
        for fact in event.facts:
            if type(fact) in OF_CORE:
                self.need(event.node == f"c{fact.core}", event, f"a fact of core {fact.core}")
            law = getattr(self, "on_" + type(fact).__name__.lower(), None)
            if law:
                law(fact, event)
        if self.states:
            self.records(event)
        self.sums.take(event)
        if self.states:
            self.agrees(event)

    def order(self, event):
        """Each kind of fact once, in its place; the messages by their destination."""
        kinds = [type(it) for it in event.facts]
        if self.settings.bus and kinds[:2] == [Miss, Did]:
            kinds = kinds[1:]
        ranks = [RANK[it] for it in kinds]
        self.need(ranks == sorted(ranks) and ranks.count(0) <= 1, event, "the facts stand in another order")
        self.need(all(kinds.count(it) == 1 for it in kinds if it is not Sent), event, "a fact is there twice")
        self.need(ranks[0] == 0 or kinds[0] is Commit, event, "it begins with a fact that follows from another")
        self.need((kinds[0] is Delivered) == (event.text[0] in "dt"), event, "its first fact isn't of such an event")
        to = [(node_order(it.to), it.seq) if it.source else (it.message.line,) for it in event.facts if type(it) is Sent]
        self.need(to == sorted(set(to)), event, "the messages stand in another order")
        if kinds[0] is Delivered and event.facts[0].how == "dropped":
            self.need(len(kinds) == 1 and not event.records, event, "dropped, and it had an effect")

    def on_sent(self, fact, event):
        if not fact.source:
            return
        link = fact.source, fact.to
        self.need(fact.source == event.node, event, f"{fact.source} sends")
        self.need(fact.seq == self.sent[link], event, f"message {fact.seq} of its link; {self.sent[link]} is next")
        self.sent[link] += 1
        self.flight[f"{fact.source} {fact.to} {fact.seq}"] = fact.message.text
        if fact.message.kind == "TidGrant":
            tid, next_tid = fact.message.tid, len(self.granted) + 1
            self.need(tid == next_tid, event, f"TID {tid} is granted; {next_tid} is next")
            self.granted[tid] = int(fact.to[1:])

    def on_delivered(self, fact, event):
        if fact.message.kind == "Packet":
            self.need(self.committed and fact.message.tid == max(self.committed), event, "not the packet that is out")
            return
        self.need(self.flight.get(event.text[2:]) == fact.message.text, event, "no such message is in flight")
        if fact.how != "asked":
            del self.flight[event.text[2:]]

    def on_violated(self, fact, event):
        core = fact.core
        self.need(fact.lost == self.sums.n[core] > 0, event, f"lost {fact.lost}; the attempt has {self.sums.n[core]} instructions")
        self.need(self.committed.get(fact.tid) == fact.by != core, event, f"TID {fact.tid} isn't a commit of core {fact.by}")
        self.need(fact.phase == self.sums.phase[core], event, f"in {fact.phase}; the core is in {self.sums.phase[core]}")
        self.need(fact.words > 0, event, "no word of it was read")
        message = event.facts[0].message
        if message.kind == "Inv":
            same = fact.line == message.line and fact.tid == message.tid and fact.words & ~message.mask == 0
            self.need(same, event, "the violation isn't by this message")
        if self.states:
            self.marked(fact, event)

    def marked(self, fact, event):
        """The words of a violation are those of the message that the frame's record has as read."""
        frames = [it.split() for key, it in self.state.at.items() if key.startswith(f"frame {fact.core} ")]
        read = [int(it[9]) for it in frames if int(it[5]) == fact.line]
        message = event.facts[0].message
        packet = self.state.at.get(f"packet {fact.line}", "packet 0 mask 0").split()
        mask = message.mask if message.kind == "Inv" else int(packet[3])
        self.need(len(read) == 1 and read[0] & mask == fact.words, event, "the words aren't those that were marked read")

    def on_gaveup(self, fact, event):
        self.need(self.granted.get(fact.tid) == fact.core, event, f"TID {fact.tid} isn't of core {fact.core}")
        self.need(fact.tid not in self.gone and fact.tid not in self.committed, event, f"TID {fact.tid} is gone already")
        self.gone.add(fact.tid)

    def on_commit(self, fact, event):
        n = self.sums.n[fact.core] + sum(type(it) is Did for it in event.facts)
        own = fact.tid == len(self.committed) + 1 if self.settings.bus else self.granted.get(fact.tid) == fact.core
        self.need(fact.count == n > 0, event, f"commits {fact.count} instructions; the attempt has {n}")
        self.need(own and fact.tid not in self.gone and fact.tid not in self.committed, event, f"TID {fact.tid} isn't the core's")
        self.committed[fact.tid] = fact.core

    def on_phase(self, fact, event):
        self.need(fact.phase != self.sums.phase[fact.core], event, "no new phase")

    def on_serves(self, fact, event):
        self.need(event.node == f"d{fact.dir}", event, f"a fact of directory {fact.dir}")
        self.need(fact.tid > self.serves.get(fact.dir, 1), event, f"it serves {fact.tid} after {self.serves.get(fact.dir, 1)}")
        self.serves[fact.dir] = fact.tid

    def records(self, event):
        """The records change the state, each of them once and in their order, and are of the node that acts."""
        for fact in event.facts:
            if type(fact) in (Did, Miss, Overflow):
                self.need(self.core_record(fact.core)[5] == f"{fact.pc:08x}", event, "its pc isn't that of the core's record")
            elif type(fact) is Emptied:
                frame = self.state.at.get("frame " + event.text[2:], "frame 0 0 0 line none").split()
                told = [str(fact.line), str(fact.modified), str(fact.dirty)]
                self.need([frame[5], *frame[11:14:2]] == told, event, "the frame's record is another")
        try:
            self.state.take(event)
        except Fault as fault:
            self.need(False, event, str(fault))
        told = [it.removeprefix("gone ") for it in event.records]
        places = [self.state.order(it) for it in told]
        self.need(places == sorted(places) and len(set(map(str, places))) == len(places), event, "the records stand in another order")
        for (kind, number, *_), record in zip(places, told):
            own = "cdbv"[kind] + (str(number) if kind < 2 else "")
            self.need(own in ("b", event.node), event, f"`{record}` isn't of the node that acts")

    def core_record(self, core):
        return self.state.at.get(f"core {core}", "core 0 n 0 pc none phase none").split(" ", 7)

    def agrees(self, event):
        """What the records say after an event is what its facts say."""
        node, number = event.node[0], event.node[1:]
        if node == "c":
            record = self.core_record(number)
            core = int(number)
            want = [str(self.sums.n[core]), self.sums.phase[core]]
            self.need([record[3], record[7]] == want, event, "the core's record doesn't go with the facts")
        elif node == "d":
            record = self.state.at.get(f"dir {number}", "dir 0 serves none").split()
            self.need(record[3] == str(self.serves.get(int(number), 1)), event, "the directory's record doesn't go with the facts")

    def finish(self):
        """What holds at the end."""
        sums = self.sums
        sums.finish()
        for core, row in enumerate(sums.cores):
            get = lambda table, *names: sum(row[table, it] for it in names)
            if get("attempts", "begun") != get("attempts", "committed", "violated", "open"):
                raise Fault(f"core {core}: the attempts that were begun aren't those committed, violated and open")
            if get("instructions", "executed") != get("instructions", "committed", "lost", "open"):
                raise Fault(f"core {core}: the instructions that were executed aren't those committed, lost and open")
            if get("phases", *grammar.PHASES) != sums.events:
                raise Fault(f"core {core}: its phases aren't {sums.events} events long")
        self.finish_tids()
        self.finish_sums()

    def finish_tids(self):
        grants = self.sums.messages["TidGrant"]
        held = sum(" " in it for it in self.sums.phase) + grants["sent"] - grants["took"] - grants["dropped"]
        granted, committed, gone = len(self.granted), len(self.committed), len(self.gone)
        if not self.settings.bus and granted != committed + gone + held:
            raise Fault(f"{granted} TIDs were granted, {committed} committed, {gone} given up, {held} are held")

    def finish_sums(self):
        """The lines of `conflict` and of `line` have the sums of violations and of lost instructions that the cores have."""
        sums = self.sums
        whole = [sums.total("attempts", "violated"), sums.total("instructions", "lost")]
        for rows in (sums.lines, sums.conflicts):
            if [sum(it[name] for it in rows.values()) for name in ("violations", "lost")] != whole:
                raise Fault("the sums of violations by line or by conflict aren't those of the cores")
        for row in sums.messages.values():
            if row["sent"] < row["took"] + row["dropped"]:
                raise Fault("more messages were taken than sent")
        if self.settings.bus and sums.packets["took"] > sums.packets["sent"] * (self.settings.cores - 1):
            raise Fault("more packets were taken than sent")


def adds_up(trace, states=False):
    """The laws of a whole trace, looked at to its end. `states` tells that it has records."""
    if trace.start_at:
        raise Fault(f"{trace.name} begins with event {trace.start_at}; only a whole trace adds up")
    laws = Laws(trace.settings, trace.start, states)
    for event in trace:
        laws.take(event)
    laws.finish()
    return laws
