"""Runs in parts: a run that is cut and goes on from its checkpoint comes to what it comes to in one piece, and a checkpoint that was
changed is refused, or is that of another run."""

import re
from typing import NamedTuple

from auditing.cases import images, machine
from auditing.c_programs import example_images
from auditing.damage import damaged_rows
from auditing.raw_programs import printing_image
from auditing.running import Answer, answer, difference

CUTS = 50
DAMAGED = 50
MOST = 4194304  # the steps of a state or a trace


class Run:
    """A program on a machine, with its seed and steps, and what it comes to in one piece."""

    def __init__(self, case):
        draw = case.draw
        self.case, self.draw = case, draw
        self.files, self.names, self.raw = images(draw)
        if draw.random() < 0.4:
            self.files, self.names, self.raw = {"0.bin": printing_image(draw)}, ["0.bin"], ["--raw"]
        sizes = [*(word for part in machine(draw) for word in part), "--ram", str(draw.choice([65536, 65536, 131072, 1 << 20]))]
        self.sizes = dict(zip(sizes[::2], sizes[1::2]))
        self.seed = ["--seed", str(draw.choice([0, draw.getrandbits(8), draw.getrandbits(64)]))]
        self.steps = draw.choice([50, 500, 3000, 20000])
        self.every = max(1, self.steps // draw.choice([3, 10, 50, 300]))

    def words(self, verb, *more, sizes=None):
        machine_words = [word for option in (sizes or self.sizes).items() for word in option]
        return [verb, *self.raw, *machine_words, *map(str, more), *self.names]

    def ask(self, words, **checkpoints):
        """The program's answer, where these files are there too."""
        return answer(self.case.program, words, {**self.files, **checkpoints})

    def gives(self, what, words, wanted, written=None, **checkpoints):
        """The answer must be the wanted one: status and output, and no other file than those that were there and what is written."""
        files = {**self.files, **checkpoints, **(written or {})}
        wanted = Answer(wanted.status, wanted.output, b"", {name.encode(): text for name, text in files.items()})
        self.case.note(what, words, difference(self.ask(words, **checkpoints), wanted))

    def begun(self, events, name="f"):
        """The first part of the run, of so many events; it must print what one prints that leaves no checkpoint."""
        words = [*self.seed, "--steps", events]
        plain = self.ask(self.words("count", *words))
        begun = self.ask(self.words("count", *words, "--checkpoint", name))
        checkpoint = begun.files.pop(name.encode(), b"")
        found = difference(begun, plain) if checkpoint else f"no checkpoint: {begun.error}"
        self.case.note("cuts/begun", self.words("count", *words, "--checkpoint", name), found)
        return Part(words, {}, plain, checkpoint, events)


class Part(NamedTuple):
    """A part of a run."""

    words: list
    before: dict  # the checkpoint from which it goes on, by its name
    count: Answer  # what `count` answers to these words
    left: bytes  # the checkpoint at its end
    steps: int  # those of the run up to its end


class Whole(NamedTuple):
    """What a run comes to in one piece."""

    count: Answer
    csv: Answer
    state: Answer
    table: Answer
    consoles: Answer
    ended: bytes  # its checkpoint


# what is cut


def in_one_piece(run):
    words = [*run.seed, "--steps", run.steps]
    views = ["count"], ["count", "--csv"], ["state"], ["count", "--every", run.every], ["count", "--consoles"]
    return Whole(*(run.ask(run.words(*view, *words)) for view in views), run.begun(run.steps).left)


def rows_of(output):
    """The names of a table, its rows, and the steps that stand in them."""
    names, *rows = output.splitlines() or [b""]
    cells = [it.split(b",") for it in rows]
    return names, [it[:8] + it[9:] for it in cells], {it[8] for it in cells if len(it) > 8}


def lines_of(output):
    """The first line of consoles, those of what was printed, and the text behind them."""
    first, *rest = output.splitlines(keepends=True) or [b""]
    count = next((at for at, line in enumerate(rest) if not line.startswith(b"printed ")), len(rest))
    return first, rest[:count], b"".join(rest[count:])


def reported(run, whole):
    """The lines of the consoles, put together by core, are the consoles of the run's report."""
    words = run.words("run", *run.seed, "--steps", run.steps)
    wanted, core, consoles = {}, None, {}
    for line in run.ask(words).output.splitlines():
        if line.startswith(b"core "):
            core = line.split()[1]
        elif line.startswith(b"console "):
            wanted[core] = line.split()[1]
    for line in lines_of(whole.consoles.output)[1]:
        _, _, core, printed = line.split()
        consoles[core] = consoles.get(core, b"") + printed
    differ = [it.decode() for it in sorted({*wanted, *consoles}) if wanted.get(it) != consoles.get(it)]
    run.case.note("cuts/report", words, f"other consoles of cores {', '.join(differ)} than in the report" if differ else None)


def told(run, part, *view):
    """What a view of `count` tells of a part, and what is wrong with its end and its checkpoint."""
    asked = run.ask(run.words("count", *view, *part.words, "--checkpoint", "w"), **part.before)
    if (asked.status, asked.error) != (part.count.status, b""):
        return asked.output, f"status {asked.status}, {asked.error!r}"
    return asked.output, None if asked.files.get(b"w") == part.left else "another checkpoint"


def joined(run, whole, parts):
    """The rows and the lines of the parts, one after another, are those of the whole run: but the last row of each part but the last, and
    the number of steps, which is that of the run up to the part's end."""
    names, wanted, _ = rows_of(whole.table.output)
    rows, wrong = [], None
    for part in parts:
        output, found = told(run, part, "--every", run.every)
        first, own, steps = rows_of(output)
        same = first == names and steps == {b"%d" % part.steps}
        wrong = wrong or found or (None if same else f"names {first!r}, steps {steps}")
        rows[-1:] = own
    wrong = wrong or (None if rows == wanted else f"{len(rows)} rows, and {len(wanted)} others are wanted")
    run.case.note("cuts/rows", run.words("count", "--every", run.every), wrong and f"{wrong}, in parts up to {[it.steps for it in parts]}")
    _, wanted, _ = lines_of(whole.consoles.output)
    lines, wrong = [], None
    for part in parts:
        output, found = told(run, part, "--consoles")
        first, own, behind = lines_of(output)
        same = first == b"tcc-consoles 1\n" and behind == part.count.output
        wrong = wrong or found or (None if same else f"the first line is {first!r}, or another count stands behind the lines")
        lines += own
    wrong = wrong or (None if lines == wanted else f"{len(lines)} lines, and {len(wanted)} others are wanted")
    run.case.note("cuts/consoles", run.words("count", "--consoles"), wrong and f"{wrong}, in parts up to {[it.steps for it in parts]}")


def window(draw, before, left):
    """From which event to which one a trace goes, counted from a checkpoint of so many events with so many more to come; None for what is
    left out. Mostly these are a few events, and sometimes all, none, or others than there are."""
    begin = draw.choice([None, 0, left, left + 1, MOST - before, *[draw.randint(0, left)] * 9])
    end = (begin or 0) + draw.choice([0, 1, *[draw.randint(0, 40)] * 8])
    return begin, draw.choice([None, 0, MOST - before, *[min(end, MOST - before)] * 17])


def bounds(begin, end):
    """The words for these."""
    return [*(["--from", begin] if begin is not None else []), *(["--to", end] if end is not None else [])]


def traced(run, f, before, events):
    """A trace that goes on after so many events is the whole run's, from there on."""
    begin, end = window(run.draw, before, events - before)
    view = ["trace", *run.draw.choice([[], ["--states"]])]
    there = bounds(before + (begin or 0), end if end is None else before + end)
    whole = run.ask(run.words(*view, *run.seed, "--steps", run.steps, *there))
    run.gives("cuts/trace", run.words(*view, "--resume", "f", "--steps", run.steps - before, *bounds(begin, end)), whole, f=f)


def second_part(run, first, events):
    """The part of so many events behind the first."""
    middle = run.draw.choice(["f", "g"])  # over the first, or beside it
    words = ["--resume", "f", "--steps", events]
    piece = run.ask(run.words("count", *words, "--checkpoint", middle), f=first.left)
    left = piece.files.get(middle.encode(), b"")
    same = left == run.begun(first.steps + events).left
    run.case.note("cuts/second", run.words("count"), None if same else f"another checkpoint after {first.steps} and {events} events")
    return Part(words, {"f": first.left}, piece, left, first.steps + events)


def cut(run, whole, events):
    """A run that is cut once or twice, at any of its events, and sometimes where a row stands."""
    draw = run.draw
    row = run.every * draw.randint(0, events // run.every)
    parts = [run.begun(draw.choice([0, events, row, row, *[draw.randint(0, events)] * 16]))]
    if draw.random() < 0.3:
        parts.append(second_part(run, parts[-1], draw.randint(0, events - parts[-1].steps)))
    f, last = parts[-1].left, run.steps - parts[-1].steps
    resume = ["--resume", "f", "--steps", last]
    run.gives("cuts/count", run.words("count", *resume, "--checkpoint", "w"), whole.count, {"w": whole.ended}, f=f)
    run.gives("cuts/csv", run.words("count", "--csv", *resume), whole.csv, f=f)
    short = draw.choice([resume, ["--resume", "f", "--events", last], ["--resume", "f", "--steps", MOST, "--events", last]])
    run.gives("cuts/state", run.words("state", *short), whole.state, f=f)
    traced(run, f, run.steps - last, events)
    joined(run, whole, [*parts, Part(resume, {"f": f}, whole.count, whole.ended, run.steps)])


# what is refused


def fault(asked, text):
    """What is wrong with an answer to a checkpoint of this text that is to be written again as `g`; None where it is as it must be."""
    written = asked.files.get(b"g")
    if asked.status in (0, 1):
        return None if written == text else "it is taken, and another one is written"
    line = re.fullmatch(rb"tcc: schedule line ([1-9]\d*)", asked.error)
    if asked.status != 4 or not line:
        return f"status {asked.status}, {asked.error!r}"
    if int(line[1]) > len(text.split(b"\n")) + 1 - text.endswith(b"\n"):
        return f"{asked.error!r}, where there aren't so many lines"
    return "refused, with an output or a file" if asked.output or written is not None else None


def again(run, sizes=None):
    """The words that write a checkpoint `f` again at once."""
    return run.words("count", "--resume", "f", "--steps", 0, "--checkpoint", "g", sizes=sizes)


def damaged(run, text):
    """A checkpoint that was changed. One that is taken goes on, and `state`, `trace`, rows and consoles refuse what `count` does."""
    for _ in range(run.draw.choice([1, 1, 1, 2, 3])):
        text = damaged_rows(run.draw, text) or b"\n"
    asked = run.ask(again(run), f=text)
    found = fault(asked, text)
    run.case.note("cuts/damaged", again(run), found and f"{found}; the checkpoint is {text!r}")
    taken = asked.status in (0, 1)
    what = "cuts/damaged, taken" if taken else "cuts/damaged, refused"
    written = run.draw.choice([["--every", run.every], ["--consoles"]])
    for view in (["count"] if taken else ["state"], ["trace"], ["count", *written]):
        words = run.words(*view, "--resume", "f", "--steps", 1000)
        more = run.ask(words, f=text)
        same = more.status in (0, 1) if taken else (more.status, more.error, more.output) == (asked.status, asked.error, b"")
        run.case.note(what, words, None if same else f"status {more.status}, {more.error!r}; the checkpoint is {text!r}")


def other_settings(run, text):
    """One option of the machine is another: it is refused by the row of the settings, or, of the cores, by one of the counts before it."""
    name, value = run.draw.choice(sorted(run.sizes.items()))
    value = int(value)
    other = {"--sets": value // 2 or 2, "--ways": value % 16 + 1, "--ram": value + 32}.get(name, value % 64 + 1)
    words = again(run, {**run.sizes, name: str(other)})
    asked = run.ask(words, f=text)
    row = next((at for at, line in enumerate(text.split(b"\n"), 1) if line.startswith(b"settings ")), 0)
    found = fault(asked, text)
    if asked.status != 4 or name != "--cores" and asked.error != b"tcc: schedule line %d" % row:
        found = f"status {asked.status}, {asked.error!r}, and row {row} is wanted"
    run.case.note("cuts/settings", words, found)


def other_images(run, text):
    """The images are others, of other size."""
    files = dict(run.files)
    name = run.draw.choice(run.names)
    if run.raw:
        files[name] = run.draw.choice([files[name][:-4], files[name] + b"\x13\0\0\0", files[name] + bytes(32)])
    else:
        kept = sorted(example_images().items())
        files[name] = run.draw.choice([data for other, data in kept if other.endswith(".elf") and other != name])
    asked = answer(run.case.program, again(run), {**files, "f": text})
    run.case.note("cuts/images", again(run), fault(asked, text))


def in_parts(case):
    """A run that is cut at many places, and its checkpoints, changed or with other words."""
    run = Run(case)
    case.compared["programs"] += 1
    whole = in_one_piece(run)
    if not whole.ended:
        return
    events = int(whole.count.output.split()[-1])
    reported(run, whole)
    case.compared["cuts/rows of whole runs"] += len(rows_of(whole.table.output)[1])
    case.compared["cuts/lines of their consoles"] += len(lines_of(whole.consoles.output)[1])
    for _ in range(CUTS):
        cut(run, whole, events)
    for _ in range(DAMAGED // 5):
        text = run.begun(run.draw.randint(0, events)).left
        for _ in range(5):
            damaged(run, text)
        other_settings(run, text)
        other_images(run, text)
