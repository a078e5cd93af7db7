"""A whole run, folded from its trace: the attempts of each core, how each of them ended, and how long each TID waited for what."""
from dataclasses import dataclass, field

from facts import Commit, Delivered, Did, GaveUp, Miss, Phase, Sent, Violated


@dataclass(slots=True)
class Attempt:
    """From its first instruction to its commit, its violation, or the end of the trace. Places are numbers of events. `did` has the
    instructions, each with its event; `waited` the times from a miss to the Fill. `ended` is the event in which its last instruction was
    finished, or in which it asked to go alone; from `alone` on it is alone and goes on. So it waits to commit from `ended` to `alone`, or
    else to `last`."""
    core: int
    first: int
    did: list = field(default_factory=list)
    waited: list = field(default_factory=list)
    ended: int | None = None
    alone: int | None = None
    last: int | None = None
    commit: Commit | None = None
    violated: Violated | None = None
    earlier: int = 0

    @property
    def count(self):
        return self.commit.count if self.commit else self.violated.lost if self.violated else len(self.did)


@dataclass(slots=True)
class Tid:
    """The way of one TID: the events in which it was asked for, granted and taken by the core, in which the last directory replied (which,
    and when), and in which it committed or was given up. An event is None where it isn't in the trace."""
    tid: int
    core: int
    asked: int | None = None
    granted: int | None = None
    taken: int | None = None
    probed: int = 0
    ready: int | None = None
    last_reply: str = ""
    committed: int | None = None
    given_up: int | None = None


class Run:
    """Events, attempts in the order of their ends, violations as pairs of an event and a fact, TIDs, and the phases of each core."""

    def __init__(self, trace):
        self.settings, self.first, self.start = trace.settings, trace.start_at, trace.start
        cores = range(self.settings.cores)
        self.attempts, self.tids, self.asked = [], {}, {}
        self.open = [None for _ in cores]
        self.earlier = [0 for _ in cores]
        self.missed = [None for _ in cores]
        self.phases = [[(trace.start_at, "Running")] for _ in cores]
        for record in trace.start:
            if record.startswith("core "):
                words = record.split(" ", 7)
                self.phases[int(words[1])] = [(trace.start_at, words[7])]
        self.events = []
        for event in trace:
            self.events.append(event)
            self.take(event)
        self.end, self.total = trace.end, trace.total
        self.attempts += [it for it in self.open if it]
        self.violations = [(it.last, it.violated) for it in self.attempts if it.violated]
        self.commits = sorted((it for it in self.attempts if it.commit), key=lambda it: it.commit.tid)

    @property
    def last(self):
        """The number of the event that would come next."""
        return self.first + len(self.events)

    def event(self, number):
        return self.events[number - self.first]

    def attempt(self, core, number):
        """The core's open attempt; a new one where there is none, which a window of a trace may begin in the middle of."""
        if self.open[core] is None:
            self.open[core] = Attempt(core, number, earlier=self.earlier[core])
        return self.open[core]

    def take(self, event):
        for fact in event.facts:
            kind = type(fact)
            if kind is Did:
                self.attempt(fact.core, event.number).did.append((event.number, fact))
            elif kind is Miss and not self.settings.bus:
                self.missed[fact.core] = event.number
            elif kind is Delivered:
                self.delivered(event, fact)
            elif kind is Sent:
                self.sent(event, fact)
            elif kind is Violated:
                self.close(fact.core, event.number).violated = fact
                self.earlier[fact.core] += 1
            elif kind is Commit:
                self.close(fact.core, event.number).commit = fact
                self.earlier[fact.core] = 0
                self.tid(fact.tid, fact.core).committed = event.number
            elif kind is GaveUp:
                self.tid(fact.tid, fact.core).given_up = event.number
            elif kind is Phase:
                self.phase(event, fact)

    def close(self, core, number):
        attempt = self.attempt(core, number)
        attempt.last = number
        attempt.ended = number if attempt.ended is None else attempt.ended
        self.attempts.append(attempt)
        self.open[core] = None
        return attempt

    def delivered(self, event, fact):
        if fact.how == "asked" or event.node[0] != "c":
            return
        core, kind = int(event.node[1:]), fact.message.kind
        if kind == "Fill" and self.missed[core] is not None:
            if self.open[core]:
                self.open[core].waited.append((self.missed[core], event.number))
            self.missed[core] = None
        elif kind == "TidGrant":
            self.tid(fact.message.tid, core).taken = event.number
        elif kind == "ProbeReply" and fact.how == "took" and fact.message.tid in self.tids:
            self.tids[fact.message.tid].last_reply = event.text.split(" ")[1]

    def sent(self, event, fact):
        if fact.message.kind == "TidGrant":
            tid = self.tid(fact.message.tid, int(fact.to[1:]))
            tid.granted = event.number
            tid.asked = self.asked.pop(tid.core, None)
        elif fact.message.kind == "TidReq":
            self.asked[int(fact.source[1:])] = event.number
        elif fact.message.kind == "Probe":
            self.tid(fact.message.tid, int(fact.source[1:])).probed += 1

    def tid(self, number, core):
        return self.tids.setdefault(number, Tid(number, core))

    def phase(self, event, fact):
        self.phases[fact.core].append((event.number, fact.phase))
        words = fact.phase.split(" ")
        if words[0] in ("AwaitTid", "Overflowing") and self.open[fact.core] and self.open[fact.core].ended is None:
            self.open[fact.core].ended = event.number
        if words[0] in ("Ready", "Solo"):
            self.tid(int(words[1]), fact.core).ready = event.number
        if words[0] == "Solo":
            attempt = self.attempt(fact.core, event.number)
            attempt.alone = event.number
            attempt.ended = event.number if attempt.ended is None else attempt.ended


def culprit(run, attempt):
    """The access that an attempt's violation is due to: the first that marked one of the violation's words read, as an event and its
    instruction. That is a load, a change, or a store of a part of a word. None where the trace begins too late to have it."""
    violated, settings = attempt.violated, run.settings
    for number, did in attempt.did:
        reads = did.what in ("load", "change") or did.what == "store" and did.size < 4
        if reads and settings.line_of(did.address) == violated.line and violated.words >> settings.word_of(did.address) & 1:
            return number, did
    return None
