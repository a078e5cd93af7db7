"""The cases: what is made, run and compared in each. A case is determined by the seed, its kind and its number."""

import os
import shutil
from collections import Counter

from auditing.c_programs import c_program, compiled, example_images, example_texts, levels
from auditing.damage import damaged_bytes, damaged_text, damaged_words
from auditing.raw_programs import raw_images
from auditing.running import Answer, answer, difference, room


class Case:
    """Counts what was compared, and keeps what differed: a line for each, with the words."""

    def __init__(self, draw, program, peer):
        self.draw, self.program, self.peer = draw, program, peer
        self.compared, self.differed, self.lines = Counter(), Counter(), []

    def note(self, what, words, found):
        self.compared[what] += 1
        if found:
            self.differed[what] += 1
            self.lines.append(f"{what}: {' '.join(words)}\n    {found}")

    def both(self, what, words, files, by_host=False):
        """Our answer; the other simulator must give the same. A run whose order is up to the host may end in either way."""
        ours, other = answer(self.program, words, files), answer(self.peer, words, files)
        either = by_host and {ours.status, other.status} <= {0, 1}
        self.note(what, words, None if either else difference(ours, other))
        return ours

    def gives(self, what, words, files, status, output):
        """Our answer must be this text, with this status, and all files as they were."""
        wanted = Answer(status, output, b"", {os.fsencode(name): text for name, text in files.items()})
        self.note(what, words, difference(answer(self.program, words, files), wanted))


# the machine and the program


def machine(draw):
    """The sizes of a machine and its caches, as options."""
    large = draw.random() < 0.15
    cores = draw.choice([1, 8, 16, 64] if large else [1, 2, 2, 3, 4])
    dirs = draw.choice([1, 4, 8, 64] if large else [1, 2, 3])
    frames = ["--sets", str(draw.choice([1, 1, 2, 4, 16, 64])), "--ways", str(draw.choice([1, 1, 2, 3, 4, 16]))]
    return ["--cores", str(cores)], ["--dirs", str(dirs)], frames


def choice(draw, steps):
    return ["--steps", str(draw.choice(steps)), "--seed", str(draw.choice([0, draw.getrandbits(8), draw.getrandbits(64)]))]


def images(draw):
    """Files of a program, and the words that name them: ELF examples, or raw images, of examples or random."""
    if draw.random() < 0.5:
        kept = {name: data for name, data in example_images().items() if name.endswith(".elf")}
        name = draw.choice(sorted(kept))
        return {name: kept[name]}, [name], []
    if draw.random() < 0.3:
        kept = {name: data for name, data in example_images().items() if name.endswith(".bin")}
        name = draw.choice(sorted(kept))
        return {name: kept[name]}, [name], ["--raw"]
    files = raw_images(draw)
    return files, sorted(files), ["--raw"]


# what is damaged, and what is compared of it


def with_one_damaged(draw, files, names, by):
    """One of the files is damaged, once or a few times."""
    name = draw.choice(names)
    for _ in range(draw.choice([1, 1, 1, 2, 3])):
        files = {**files, name: by(draw, files[name])}
    return files


def transactions(report):
    """The lines of a report that say which transactions committed: all that `serial` looks at."""
    return b"".join(line for line in report.splitlines(keepends=True) if line.startswith(b"commit ")) or report


def damaged(case):
    """An image, a schedule, a list or the words of a command are damaged."""
    draw = case.draw
    files, names, raw = images(draw)
    cores, dirs, frames = machine(draw)
    sizes, ours = cores + dirs + frames, choice(draw, [50, 500, 3000])
    kind = draw.choice(["images", "schedules", "lists", "words"])
    if kind == "images":
        verb, more = draw.choice([("run", dirs + ["--record", "r"]), ("phases", dirs), ("bus", [])])
        words = [verb, *raw, *cores, *frames, *more, *ours, *names]
        case.both("damaged images", words, with_one_damaged(draw, files, names, damaged_bytes))
        return
    ran = answer(case.program, ["run", *raw, *sizes, *ours, "--record", "s", *names], files)
    files = {**files, "s": ran.files.get(b"s", b""), "l": ran.output if draw.random() < 0.3 else transactions(ran.output)}
    if kind == "schedules":
        words = [draw.choice(["replay", "why"]), *raw, *sizes, "s", *names]
        case.both("damaged schedules", words, with_one_damaged(draw, files, ["s"], damaged_text))
    elif kind == "lists":
        case.both("damaged lists", ["serial", *raw, *sizes, "l", *names], with_one_damaged(draw, files, ["l"], damaged_text))
    else:
        words = draw.choice([
            ["run", *raw, *sizes, *ours, "--record", "r", *names],
            ["phases", *raw, *sizes, *ours, *names],
            ["bus", *raw, *cores, *frames, *ours, *names],
            ["replay", *raw, *sizes, "s", *names],
            ["why", *raw, *sizes, "s", *names],
            ["serial", *raw, *sizes, "l", *names],
            ["trial", *sizes, *ours, draw.choice(["counters", "transfers", "stencil", "sharing"]), str(draw.randint(1, 5))],
        ])
        for _ in range(draw.choice([1, 1, 2, 3])):
            words = damaged_words(draw, words) or ["run"]
        case.both("damaged words", words, files, by_host=any("--threads" in word for word in words))


# what is run, and what is compared of the run


def serial_of(report):
    """The serial report that a report asks for."""
    return b"tcc-serial 1\n" + b"".join(line + b"\n" for line in report.split(b"\n")[3:-1])


def pairs(case, files, names, raw, steps, on_bus=1):
    """One program on one machine: by a seed, by phases, on one bus by some seeds, and on threads, with what must follow from each."""
    draw = case.draw
    cores, dirs, frames = machine(draw)
    sizes, ours = cores + dirs + frames, choice(draw, steps)
    base = [*raw, *sizes]

    def run_again(text, what):
        case.gives(f"{what}/serial", ["serial", *base, "l", *names], {**files, "l": text}, 0, serial_of(text))

    run = case.both("run", ["run", *base, *ours, "--record", "s", *names], files)
    record = run.files.get(b"s", b"")
    case.compared["events"] += max(0, record.count(b"\n") - 3)
    case.gives("run/replay", ["replay", *base, "s", *names], {**files, "s": record}, run.status, run.output)
    run_again(run.output, "run")
    cuts(case, base, files, names, record)

    phases = case.both("phases", ["phases", *base, *ours, "--record", "s", *names], files)
    report = phases.output[phases.output.find(b"tcc-report 1\n"):]
    again = {**files, "s": phases.files.get(b"s", b"")}
    case.gives("phases/replay", ["replay", *base, "s", *names], again, phases.status, report)
    run_again(report, "phases")

    for _ in range(on_bus):
        bus = case.both("bus", ["bus", *raw, *cores, *frames, *choice(draw, steps), *names], files)
        run_again(bus.output, "bus")

    if draw.random() < 0.2:
        words = ["run", *base, *ours, "--threads", str(draw.randint(1, 4)), "--record", "s", *names]
        threads = answer(case.program, words, files)
        again = {**files, "s": threads.files.get(b"s", b"")}
        case.gives("threads/replay", ["replay", *base, "s", *names], again, threads.status, threads.output)
        run_again(threads.output, "threads")


def schedule(lines, *more):
    """A schedule of these lines of a record, its first two among them, and more events."""
    events = [*lines, *more]
    return b"\n".join(events) + b"\nend %d\n" % (len(events) - 2)


def cuts(case, base, files, names, record):
    """What waits where a record is cut: what is named as the next event can come, and a message that waits can't be delivered."""
    lines = record.split(b"\n")[:-2]
    for _ in range(3):
        begun = lines[:case.draw.randint(2, max(2, len(lines)))]

        def replayed(*more):
            return answer(case.program, ["replay", *base, "s", *names], {**files, "s": schedule(begun, *more)})

        words = ["why", *base, "s", *names]
        why = case.both("why", words, {**files, "s": schedule(begun)})
        *waits, event = why.output.splitlines()[3:] or [b""]
        ended = replayed()
        same = (why.status, why.output.splitlines()[1:3]) == (ended.status, ended.output.splitlines()[1:3])
        case.note("why/replay", words, None if same else f"replay ends with {ended.status}, or otherwise")
        if event != b"next none":
            came = replayed(event.removeprefix(b"next "))
            case.note("why/next", words, None if came.status in (0, 1) else f"{event} can't come: {came.error}")
        if waits:
            message = b" ".join(case.draw.choice(waits).split()[1:4])
            refused, line = replayed(b"d " + message), b"tcc: schedule line %d" % (len(begun) + 1)
            case.note("why/waits", words, None if refused.error == line else f"{message} doesn't wait: {refused.error}")


def raw(case):
    """A random program of one to three raw images."""
    files = raw_images(case.draw)
    case.compared["programs"] += 1
    pairs(case, files, sorted(files), ["--raw"], [50, 1000, 20000], on_bus=4)


def kept(case):
    """An example as it is kept."""
    stored = example_images()
    name = case.draw.choice(sorted(stored))
    pairs(case, {name: stored[name]}, [name], ["--raw"] if name.endswith(".bin") else [], [300, 3000, 30000])


def written_in_c(case):
    """A program in C, random or an example's, as GCC compiles it at three levels; each on two machines."""
    texts = example_texts()
    text = texts[case.draw.choice(sorted(texts))] if case.draw.random() < 0.1 else c_program(case.draw)
    folder = room()
    try:
        for level in levels(case.draw):
            image = compiled(folder, text, level)
            case.compared["programs"] += 1
            for _ in range(2):
                pairs(case, {"program.elf": image}, ["program.elf"], [], [300, 3000, 30000])
    finally:
        shutil.rmtree(folder)
