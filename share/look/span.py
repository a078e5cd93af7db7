"""The view `span`: the longest path through a run, as a model of time of its own. Reports and traces know no time.

The model: an event takes 1. A node does its events one after another, in the order of the trace. A message is taken H or more after the
event that sent it. With one bus a packet is a message, and a commit, or a core that goes alone, waits until all have taken the packet
before. So the span is what the run would have taken, had each node begun each of its events as soon as it could, in the same order.
"""
from dataclasses import dataclass

from facts import Bus, Commit, Sent
from tables import plural

OWN = {"hop": "H", "path": None}


@dataclass(slots=True)
class Step:
    """When an event ends, and which earlier step it waited for (None where it waited for none), by a message or not."""
    number: int
    ends: int
    before: "Step" = None
    hop: bool = False


class Clock:
    """The ends of events, by the model."""

    def __init__(self, bus, hop):
        self.bus, self.hop, self.nodes, self.sent = bus, hop, {}, {}
        self.packet, self.freed, self.last = None, None, Step(-1, 0)

    def waits_for(self, event):
        """What the event waits for: steps, each with whether a message comes between."""
        yield self.nodes.get(event.node), False
        if event.text[0] == "d":
            yield self.sent.get(event.text[2:]), True
        elif self.bus and event.text[0] == "t":
            yield self.packet, True
        elif self.bus and (event.first(Commit) or event.first(Bus)):
            yield self.freed, False

    def take(self, event):
        step = Step(event.number, 1)
        for before, hop in self.waits_for(event):
            ends = before.ends + 1 + (self.hop if hop else 0) if before else 1
            if before and ends > step.ends:
                step.ends, step.before, step.hop = ends, before, hop
        self.nodes[event.node] = step
        for fact in event.facts:
            if type(fact) is Sent and fact.source:
                self.sent[f"{fact.source} {fact.to} {fact.seq}"] = step
        self.bus_after(event, step)
        if step.ends > self.last.ends:
            self.last = step

    def bus_after(self, event, step):
        state = event.first(Bus)
        if state and state.state.startswith("packet"):
            self.packet = step
        if state or event.text[0] == "t" or event.first(Commit):
            self.freed = step if self.freed is None or step.ends > self.freed.ends else self.freed


def show(run, program, arguments):
    hop = arguments.number("hop", 1)
    clock = Clock(run.settings.bus, hop)
    for event in run.events:
        clock.take(event)
    path, step = [], clock.last if run.events else None
    while step:
        path.append(step)
        step = step.before
    hops = sum(it.hop for it in path)
    ends = clock.last.ends
    yield f"span {ends}: {plural(len(path), 'event')} at 1 and {plural(hops, 'message')} at {hop}"
    if ends:
        yield f"all {plural(len(run.events), 'event')} at 1: {len(run.events) / ends:.2f} at a time"
    if arguments.has("path"):
        yield ""
        for it in reversed(path):
            yield f"{it.ends:8} {'after a message' if it.hop else '':16}event {it.number}: {run.event(it.number).text}"
