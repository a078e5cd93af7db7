"""The view `timeline`: a row a core, its attempts in a terminal's width."""
import shutil

from tables import coloured, has_colours, plural, window

OWN = {"width": "N", "from": "K", "to": "K", "colour": "auto|always|never"}
# What a cell shows, where several things happened in its events: the one that comes last here.
ORDER = " .-=~|x"
COLOUR = {"=": "green", "|": "green", "~": "red", "x": "red", "-": "dim", ".": "dim"}
LEGEND = "= executes, - waits to commit, . waits for a line, | commits; ~ executes in vain, x is violated"


class Rows:
    """A row of cells a core, for the events from `first` to before `last`."""

    def __init__(self, cores, first, last, width):
        self.first, self.last, self.width = first, last, min(width, max(last - first, 1))
        self.cells = [[" "] * self.width for _ in range(cores)]

    def column(self, event):
        return (event - self.first) * self.width // max(self.last - self.first, 1)

    def fill(self, core, first, last, mark):
        """Marks the cells of the events from `first` to before `last`."""
        if last <= self.first or first >= self.last or last <= first:
            return
        for at in range(self.column(max(first, self.first)), self.column(min(last, self.last) - 1) + 1):
            if ORDER.index(mark) > ORDER.index(self.cells[core][at]):
                self.cells[core][at] = mark

    def works(self, it, first, last):
        """The cells of the events in which an attempt executes or waits for a line."""
        mark = "~" if it.violated else "="
        for missed, filled in it.waited:
            if missed >= last or filled <= first:
                continue
            self.fill(it.core, first, missed, mark)
            self.fill(it.core, missed, min(filled, last), ".")
            first = filled
        self.fill(it.core, first, last, mark)

    def attempt(self, it, end):
        """An attempt's cells; `end` is where an open one ends."""
        last = end if it.last is None else it.last
        ended = last if it.ended is None else it.ended
        alone = last if it.alone is None else it.alone
        self.works(it, it.first, ended)
        self.fill(it.core, ended, alone, "-")
        self.works(it, alone, last)
        if it.last is not None:
            self.fill(it.core, last, last + 1, "x" if it.violated else "|")


def scale(rows):
    """A line with numbers of events below the cells, every twenty cells."""
    line = ""
    for at in range(0, rows.width, 20):
        number = str(rows.first + at * (rows.last - rows.first) // rows.width)
        line = line.ljust(at) + "^" + number
    return line


def summary(run, core):
    own = [it for it in run.attempts if it.core == core]
    done = [it for it in own if it.commit]
    lost = [it for it in own if it.violated]
    text = f"{plural(len(done), 'commit')} of {plural(sum(it.count for it in done), 'instruction')}"
    return text + (f", {len(lost)} violated, {sum(it.count for it in lost)} lost" if lost else "")


def show(run, program, arguments):
    first, last = window(run, arguments)
    label = len(f"core {run.settings.cores - 1}") + 2
    width = arguments.number("width", shutil.get_terminal_size((100, 24)).columns)
    rows = Rows(run.settings.cores, first, last, max(width - label, 10))
    colours = has_colours(arguments.chosen("colour", ["auto", "always", "never"]))
    for it in run.attempts:
        rows.attempt(it, run.last)
    for core, cells in enumerate(rows.cells):
        text = "".join(coloured(it, COLOUR.get(it), colours) for it in cells)
        yield f"core {core}".ljust(label) + (text if colours else text.rstrip())
    yield "event".ljust(label) + scale(rows)
    yield ""
    yield LEGEND
    for core in range(run.settings.cores):
        yield f"core {core}".ljust(label) + summary(run, core)
