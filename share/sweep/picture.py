"""Curves as a picture: by gnuplot, or as SVG that is written here. Both draw the same numbers."""
import math
import subprocess
from dataclasses import dataclass
from html import escape

from points import Fault

WIDTH, HEIGHT, LEFT, TOP, RIGHT, BOTTOM = 800, 480, 84, 44, 190, 58
COLOURS = ["#1b6ca8", "#c0392b", "#2d7a41", "#8e5bb5", "#b7791f", "#16808a", "#a33b7c", "#555555"]
STYLE = ".page { fill: #fff } text { font: 13px system-ui, sans-serif; fill: #222 } .grid { stroke: #ddd }"


@dataclass(slots=True)
class Curves:
    """What is drawn: the names of the columns, and points as plot.py makes them: (values of by, x, mean, least, greatest, rows, open)."""
    x: str
    y: str
    by: list
    over: list
    log: bool
    points: list

    def names(self):
        """The curves, each with its points."""
        found = {}
        for it in self.points:
            found.setdefault(it[0], []).append(it)
        label = lambda curve: " ".join(value if name == "file" else f"{name} {value}" for name, value in zip(self.by, curve))
        return {label(curve): points for curve, points in found.items()}

    def title(self):
        still = sum(it[6] for it in self.points)
        mean = f", mean over {', '.join(self.over)}, least to greatest" if self.over else ""
        return f"{self.y} by {self.x}{mean}" + (f"; {still} of {sum(it[5] for it in self.points)} runs ended open" if still else "")


def ticks(largest):
    """Round numbers from 0 to at least the largest, about six of them."""
    step = 10.0 ** math.floor(math.log10(max(largest, 1e-9) / 5))
    step = next(step * it for it in (1, 2, 5, 10) if largest / (step * it) <= 6)
    return [step * it for it in range(math.ceil(largest / step) + 1 if largest else 2)]


class Frame:
    """Where values lie in the picture."""

    def __init__(self, curves):
        self.curves, self.levels = curves, ticks(float(max(it[4] for it in curves.points)))
        self.places = sorted({it[1] for it in curves.points})
        self.low, self.high = self.scaled(self.places[0]), self.scaled(self.places[-1])

    def scaled(self, x):
        return math.log2(x) if self.curves.log else x

    def x(self, x):
        room = WIDTH - LEFT - RIGHT
        return LEFT + (room * (self.scaled(x) - self.low) / (self.high - self.low) if self.high > self.low else room / 2)

    def y(self, y):
        return HEIGHT - BOTTOM - (HEIGHT - TOP - BOTTOM) * float(y) / self.levels[-1]

    def grid(self):
        right, bottom = WIDTH - RIGHT, HEIGHT - BOTTOM
        for at in self.levels:
            yield f'<line class="grid" x1="{LEFT}" x2="{right}" y1="{self.y(at):.2f}" y2="{self.y(at):.2f}"/>'
            yield f'<text x="{LEFT - 8}" y="{self.y(at) + 4:.2f}" text-anchor="end">{at:.6g}</text>'
        shown = self.places if len(self.places) <= 12 else self.places[::-(-len(self.places) // 12)]
        for at in shown:
            yield f'<text x="{self.x(at):.2f}" y="{bottom + 20}" text-anchor="middle">{at}</text>'
        yield f'<text x="{(LEFT + right) / 2}" y="{HEIGHT - 14}" text-anchor="middle">{escape(self.curves.x)}</text>'
        yield f'<text x="{LEFT - 60}" y="{TOP - 20}">{escape(self.curves.title())}</text>'


def told(name, point, x):
    mean, least, most = (f"{float(it):.6f}" for it in point[2:5])
    return f"{name + ', ' if name else ''}{x} {point[1]}: mean {mean}, min {least}, max {most}, rows {point[5]}, open {point[6]}"


def curve(frame, at, name, points):
    colour = COLOURS[at % len(COLOURS)]
    line = " ".join(f"{frame.x(it[1]):.2f},{frame.y(it[2]):.2f}" for it in points)
    yield f'<polyline points="{line}" fill="none" stroke="{colour}" stroke-width="2"/>'
    for it in points:
        x = f"{frame.x(it[1]):.2f}"
        yield f"<g><title>{escape(told(name, it, frame.curves.x))}</title>"
        yield f'<line x1="{x}" x2="{x}" y1="{frame.y(it[3]):.2f}" y2="{frame.y(it[4]):.2f}" stroke="{colour}"/>'
        fill = "#fff" if it[6] else colour
        yield f'<circle cx="{x}" cy="{frame.y(it[2]):.2f}" r="4" fill="{fill}" stroke="{colour}"/></g>'
    if name:
        y = TOP + 10 + 20 * at
        yield f'<line x1="{WIDTH - RIGHT + 16}" x2="{WIDTH - RIGHT + 40}" y1="{y}" y2="{y}" stroke="{colour}" stroke-width="2"/>'
        yield f'<text x="{WIDTH - RIGHT + 48}" y="{y + 4}">{escape(name)}</text>'


def svg(curves):
    frame = Frame(curves)
    lines = [f'<svg xmlns="http://www.w3.org/2000/svg" width="{WIDTH}" height="{HEIGHT}" viewBox="0 0 {WIDTH} {HEIGHT}">',
             f"<title>{escape(curves.title())}</title><style>{STYLE}</style>",
             '<rect class="page" width="100%" height="100%"/>', *frame.grid()]
    for at, (name, points) in enumerate(curves.names().items()):
        lines += curve(frame, at, name, points)
    return "\n".join([*lines, "</svg>"]) + "\n"


def quoted(text):
    return "'" + text.replace("'", "''") + "'"


def script(curves):
    """What gnuplot is told: the points are in it."""
    yield f"set terminal svg size {WIDTH},{HEIGHT} dynamic background 'white' noenhanced"
    yield f"set title {quoted(curves.title())}\nset xlabel {quoted(curves.x)}\nset ylabel {quoted(curves.y)}"
    yield "set key outside right top\nset grid\nset yrange [0:*]\nset offsets graph 0.03, graph 0.03, 0, 0"
    places = sorted({it[1] for it in curves.points})
    if len(places) <= 12:
        yield f"set xtics ({', '.join(map(str, places))})"
    if curves.log:
        yield "set logscale x 2"
    plots = []
    for at, (name, points) in enumerate(curves.names().items()):
        yield f"$c{at} << END"
        for it in points:
            yield f"{it[1]} {' '.join(f'{float(value):.6f}' for value in it[2:5])}"
        yield "END"
        title = f"title {quoted(name)}" if name else "notitle"
        plots.append(f"$c{at} using 1:2:3:4 with yerrorlines lc rgb '{COLOURS[at % len(COLOURS)]}' pt 7 {title}")
    yield "plot " + ", ".join(plots)


def by_gnuplot(program, curves):
    ended = subprocess.run([program, "-d"], input="\n".join(script(curves)) + "\n", capture_output=True, text=True, check=False)
    if ended.returncode or not ended.stdout.rstrip().endswith("</svg>"):
        said = " ".join(ended.stderr.split()) or f"status {ended.returncode}"
        raise Fault(f"gnuplot: {said} (with --svg the picture is made without it)")
    return ended.stdout
