"""The view `chart`: the events of a window one under another, a column a node, messages as arrows, and beside each what it caused."""
from facts import Bus, Commit, Delivered, Did, Emptied, GaveUp, Miss, Overflow, Phase, Sent, Serves, Violated
from tables import plural, window, words_of

OWN = {"from": "K", "to": "K"}
LONGEST = 60  # events, where the words don't say how many
COLUMN = 18


def told(fact, program):
    """A fact in words, or an empty text."""
    kind = type(fact)
    if kind is Did:
        values = {"load": "{it.value:08x}", "store": "{it.value:08x}", "change": "{it.old:08x} to {it.value:08x}"}
        text = program.instruction(fact.pc)
        if fact.what in values:
            return f"{text or fact.what} ({program.name(fact.address)} {values[fact.what].format(it=fact)})"
        byte = f" ({chr(fact.value)!r})" if fact.what == "console" else f" ({fact.value})" if fact.value is not None else ""
        return (text or fact.what) + (byte if text or fact.what != "local" else "")
    texts = {
        Miss: lambda: f"misses line {fact.line}",
        Overflow: lambda: f"no room for line {fact.line}: asks to go alone",
        Emptied: lambda: f"evicts line {fact.line}",
        Violated: lambda: f"VIOLATED by c{fact.by}'s TID {fact.tid}: {words_of(fact.words)}, {plural(fact.lost, 'instruction')} lost",
        GaveUp: lambda: f"gives up TID {fact.tid}",
        Commit: lambda: f"COMMITS as TID {fact.tid}, {plural(fact.count, 'instruction')}",
        Phase: lambda: f"is {fact.phase}",
        Serves: lambda: f"serves {fact.tid}",
        Bus: lambda: f"the bus: {fact.state}",
        Delivered: lambda: {"took": "", "dropped": "dropped", "asked": "asks the owner, and the message stays"}[fact.how],
    }
    return texts[kind]() if kind in texts else ""


def sends(event):
    """What is sent, with those that get the same kind together."""
    groups = {}
    for it in event.facts:
        if type(it) is Sent:
            groups.setdefault(it.message.kind if it.source else "", []).append(it)
    for kind, group in groups.items():
        to = " ".join(dict.fromkeys(it.to for it in group))
        yield f"sends {kind} to {to}" if kind else f"packet of {plural(len(group), 'line')}"


def nodes_of(run, events):
    """The nodes that act in these events or send what is taken in them, in the order of the machine."""
    if run.settings.bus:
        return [f"c{it}" for it in range(run.settings.cores)]
    acting = {node for event in events for node in ([event.node] if event.text[0] != "d" else event.text.split(" ")[1:3])}
    return sorted(acting, key=lambda it: ("cdv".index(it[0]), int(it[1:] or 0)))


def label(message):
    text = message.kind
    if message.line is not None:
        text += f" {message.line}"
    return text + (f" t{message.tid}" if message.tid is not None else "")


def arrow(row, start, end, text):
    """Draws an arrow from one column to another, with a text on it where there is room."""
    low, high = sorted((start, end))
    row[low + 1:high] = "-" * (high - low - 1)
    row[end - 1 if end > start else end + 1] = ">" if end > start else "<"
    room = high - low - 4
    text = text if len(text) <= room else text.split(" ")[0]
    row[low + 2:low + 2 + len(text)] = text


def drawn(event, columns):
    row = list(" " * (COLUMN * len(columns)))
    for at in columns.values():
        row[at] = "|"
    row[columns[event.node]] = "*"
    if event.text[0] == "d":
        arrow(row, columns[event.text.split(" ")[1]], columns[event.node], label(event.facts[0].message))
    return "".join(row)


def show(run, program, arguments):
    first, last = window(run, arguments)
    last = last if arguments.has("to") else min(last, first + LONGEST)
    events = run.events[first - run.first:last - run.first]
    columns = {it: COLUMN * at for at, it in enumerate(nodes_of(run, events))}
    yield "event  " + "".join(it.ljust(COLUMN) for it in columns).rstrip()
    for event in events:
        notes = [it for it in (told(fact, program) for fact in event.facts) if it]
        notes += sends(event)
        yield f"{event.number:5}  {drawn(event, columns)}{'; '.join(notes)}".rstrip()
