"""The view `svg`: the timeline as a picture, with TIDs, an arrow from who committed to who was violated, and titles on hover. It has no
script, reads in both colour schemes, and prints."""
from html import escape

from run import culprit
from tables import line_names, plural, window, words_of

OWN = {"width": "N", "from": "K", "to": "K"}
ROW, BAR, LEFT, TOP = 40, 22, 64, 42
STEPS = [first * 10 ** zeros for zeros in range(8) for first in (1, 2, 5)]
STYLE = """
.page { fill: #fff } text { font: 12px system-ui, sans-serif; fill: #222 } .small { font-size: 11px; fill: #555 }
.grid { stroke: #ddd } .done { fill: #8fd19e; stroke: #2d7a41 } .lost { fill: #f3a6a0; stroke: #a3261b }
.open { fill: #d5d9de; stroke: #68707a } .wait { fill: #000; fill-opacity: .16 }
.tid { font-size: 11px; text-anchor: middle; fill: #10331a } .arrow { stroke: #a3261b; fill: none }
.head { fill: #a3261b }
@media (prefers-color-scheme: dark) {
.page { fill: #16191d } text { fill: #e6e6e6 } .small { fill: #aab } .grid { stroke: #333a42 } .done { fill: #2f7d46; stroke: #7fd493 }
.lost { fill: #93342b; stroke: #f3a6a0 } .open { fill: #444b54; stroke: #99a } .tid { fill: #eaffef }
.arrow { stroke: #ff8f85 } .head { fill: #ff8f85 } .wait { fill: #000; fill-opacity: .35 } }
"""


class Picture:
    def __init__(self, run, program, first, last, width):
        self.run, self.program, self.first, self.last, self.width = run, program, first, last, width
        self.height = TOP + ROW * run.settings.cores + 34

    def x(self, event):
        room = self.width - LEFT - 16
        at = min(max(event, self.first), self.last)
        return LEFT + room * (at - self.first) / max(self.last - self.first, 1)

    def y(self, core):
        return TOP + ROW * core

    def grid(self):
        step = next(it for it in STEPS if (self.last - self.first) / it <= 14)
        for at in range(-(-self.first // step) * step, self.last + 1, step):
            x = self.x(at)
            yield f'<line class="grid" x1="{x:.1f}" x2="{x:.1f}" y1="{TOP - 8}" y2="{self.y(self.run.settings.cores)}"/>'
            yield f'<text class="small" x="{x:.1f}" y="{TOP - 14}" text-anchor="middle">{at}</text>'

    def title(self, it):
        place = f"core {it.core}, events {it.first} to {it.last if it.last is not None else 'the end'}"
        if it.commit:
            earlier = f", after {plural(it.earlier, 'violation')}" if it.earlier else ""
            return f"TID {it.commit.tid}: {place}, {plural(it.count, 'instruction')}{earlier}"
        if not it.violated:
            return f"not ended: {place}, {plural(it.count, 'instruction')}"
        by = it.violated
        text = (f"violated by core {by.by} (TID {by.tid}): {place}, {plural(by.lost, 'instruction')} lost; "
                f"{words_of(by.words)} of line {by.line} ({line_names(self.run, self.program, by.line)})")
        found = culprit(self.run, it)
        return text + (f", read at {self.program.name(found[1].pc)} {self.program.source(found[1].pc)}".rstrip() if found else "")

    def attempt(self, it):
        last = it.last + 1 if it.last is not None else self.last
        if last <= self.first or it.first >= self.last:
            return
        x, y = self.x(it.first), self.y(it.core)
        width = max(self.x(last) - x, 1.5)
        kind = "done" if it.commit else "lost" if it.violated else "open"
        yield f"<g><title>{escape(self.title(it))}</title>"
        yield f'<rect class="{kind}" x="{x:.1f}" y="{y}" width="{width:.1f}" height="{BAR}" rx="2"/>'
        if it.ended is not None and it.ended != it.last:
            start, end = self.x(it.ended), self.x(last if it.alone is None else it.alone)
            yield f'<rect class="wait" x="{start:.1f}" y="{y}" width="{max(end - start, 0):.1f}" height="{BAR}"/>'
        if it.commit and width > 7 * len(str(it.commit.tid)) + 4:
            yield f'<text class="tid" x="{x + width / 2:.1f}" y="{y + 15}">{it.commit.tid}</text>'
        yield "</g>"

    def arrow(self, it, commits):
        """From the commit to the violation, into the victim's row from the side of the committer."""
        by = it.violated
        start = commits.get(by.tid)
        if start is None or not self.first <= it.last < self.last:
            return
        down = by.by < it.core
        y = self.y(by.by) + (BAR if down else 0)
        end = self.y(it.core) + (-3 if down else BAR + 3)
        text = f"core {by.by} committed TID {by.tid}, and core {it.core} was violated: {plural(by.lost, 'instruction')} lost"
        yield (f'<path class="arrow" marker-end="url(#head)" d="M{self.x(start):.1f} {y} C{self.x(start):.1f} {(y + end) / 2:.1f} '
               f'{self.x(it.last):.1f} {(y + end) / 2:.1f} {self.x(it.last):.1f} {end}"><title>{escape(text)}</title></path>')

    def lines(self):
        yield (f'<svg xmlns="http://www.w3.org/2000/svg" width="{self.width}" height="{self.height}" '
               f'viewBox="0 0 {self.width} {self.height}" role="img" aria-labelledby="what">')
        inside = lambda event: event is not None and self.first <= event < self.last
        done = sum(inside(it.last) for it in self.run.commits)
        lost = sum(inside(event) for event, _ in self.run.violations)
        yield (f'<title id="what">{plural(done, "commit")} and {plural(lost, "violation")} of {plural(self.run.settings.cores, "core")}, '
               f"events {self.first} to {self.last}</title>")
        yield f"<style>{STYLE}</style>"
        yield ('<defs><marker id="head" markerWidth="8" markerHeight="8" refX="6" refY="3" orient="auto">'
               '<path class="head" d="M0 0L6 3L0 6z"/></marker></defs><rect class="page" width="100%" height="100%"/>')
        yield from self.grid()
        for core in range(self.run.settings.cores):
            yield f'<text x="8" y="{self.y(core) + 15}">core {core}</text>'
        for it in self.run.attempts:
            yield from self.attempt(it)
        commits = {it.commit.tid: it.last for it in self.run.commits}
        for it in self.run.attempts:
            if it.violated:
                yield from self.arrow(it, commits)
        yield from self.legend()
        yield "</svg>"

    def legend(self):
        y, x = self.height - 16, LEFT
        for kind, text in (("done", "committed (its TID)"), ("lost", "violated"), ("open", "not ended"), ("wait", "waits to commit")):
            yield f'<rect class="{kind}" x="{x}" y="{y - 10}" width="14" height="12"/>'
            yield f'<text class="small" x="{x + 20}" y="{y}">{text}</text>'
            x += 34 + 7 * len(text)
        yield f'<path class="arrow" marker-end="url(#head)" d="M{x} {y - 4}h22"/>'
        yield f'<text class="small" x="{x + 30}" y="{y}">committer to victim</text>'


def show(run, program, arguments):
    first, last = window(run, arguments)
    return Picture(run, program, first, last, arguments.number("width", 1200)).lines()
