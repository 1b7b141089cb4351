"""Makes the tables of docs/TIMES.md and the picture beside them from the numbers of growth.py, and from nothing else.

A point is an input at one size (`at`: rows, or servers in series) with a number of workers: the least time in seconds, and the peak memory in MB.
"""
import math
from collections import namedtuple

Point = namedtuple("Point", "input at workers seconds megabytes")
# The name and the mark of each input; a mark is a path from its middle.
Style = namedtuple("Style", "name colour mark")
STYLES = {
    "server": Style("a source and a server", "#1f5fa8", "m-4 0a4 4 0 1 0 8 0a4 4 0 1 0 -8 0z"),
    "call-centre": Style("the call centre", "#b3400a", "m-3.5 -3.5h7v7h-7z"),
    "twelve": Style("twelve stations in a row", "#1d6b34", "m0 -4.8l4.4 7.6h-8.8z"),
    "row": Style("servers in a row", "#6d3a8c", "m0 -5l5 5l-5 5l-5 -5z"),
}
# In the picture's units: its size, where the axes of a panel begin and end, and how far the first and the last mark are from their ends.
WIDTH, HEIGHT = 760, 362
TOP, BOTTOM, ACROSS, ASIDE = 40, 265, 290, 15
DARK, PALE, GUIDE = "#333", "#ddd", "#555"


def workers_of(points):
    return sorted({point.workers for point in points})


def by_workers(workers):
    return f"{workers} worker{'s' * (workers != 1)}"


def cell(point):
    return f"{point.seconds:.{4 if point.seconds < 0.1 else 3}f}, {point.megabytes:.0f} MB"


def table(points, heads, told):
    """A row per input and size, and a column per number of workers."""
    workers = workers_of(points)
    yield f"| {' | '.join([*heads, *map(by_workers, workers)])} |"
    yield f"|{'---|' * (len(heads) + len(workers))}"
    found = {(point.input, point.at, point.workers): point for point in points}
    for name, at in dict.fromkeys((point.input, point.at) for point in points):
        cells = [cell(found[name, at, worker]) if (name, at, worker) in found else "" for worker in workers]
        yield f"| {' | '.join([*told(name, at), *cells])} |"


def tables(numbers):
    """Returns the tables, as in docs/TIMES.md, and a description of the series."""
    if not numbers["rows"] + numbers["nodes"]:
        return
    yield f"The least of {numbers['runs']} runs in seconds, and the greatest peak of memory, in form 2, with the script's settings of memory."
    took, others, steal = (numbers[item] for item in ("took", "others", "steal"))
    yield f"The series took {took:.0f} s. Meanwhile other work took {others:.1f} s of processor time, and `steal` was {steal:.1f} s."
    if numbers["rows"]:
        yield from ["", *table(numbers["rows"], ["Run", "Rows"], lambda name, at: [STYLES[name].name, f"{at:,}"])]
    if numbers["nodes"]:
        yield from ["", f"Servers in series after a source, over {numbers['over']:,} rows:", ""]
        yield from table(numbers["nodes"], ["Servers"], lambda name, at: [f"{at:,}"])


def steps(least, most):
    """Returns the numbers that are 1, 2 or 5 times a power of ten, and those just outside."""
    every = [float(f"{digit}e{power}") for power in range(-9, 9) for digit in (1, 2, 5)]
    low = max(item for item in every if item <= least)
    high = min(item for item in every if item >= most and item > low)
    return [item for item in every if low <= item <= high]


def text(x, y, says, more=""):
    return f'<text x="{x:.1f}" y="{y:.1f}"{more}>{says}</text>'


def mark(style, x, y, filled):
    return f'<path d="M{x:.1f} {y:.1f}{style.mark}" fill="{style.colour if filled else "#fff"}" stroke="{style.colour}" stroke-width="1.5"/>'


def line(colour, points, dashed):
    places = " ".join(f"{x:.1f},{y:.1f}" for x, y in points)
    dashes = ' stroke-dasharray="5 3"' if dashed else ""
    return f'<polyline points="{places}" fill="none" stroke="{colour}" stroke-width="1.5"{dashes}/>'


class Panel:
    """A half of the picture: seconds over a size, on logarithmic axes."""

    def __init__(self, left, title, says, points, seconds):
        self.left, self.points, self.seconds, middle = left, points, seconds, left + ACROSS / 2
        self.sizes = sorted({point.at for point in points})
        self.parts = [text(left, 22, title, ' font-weight="bold"')]
        if points:
            self.axes()
            self.guide()
            for name in dict.fromkeys(point.input for point in points):
                self.series(name)
        else:
            self.parts.append(text(middle, (TOP + BOTTOM) / 2, "not measured yet", ' text-anchor="middle"'))
        self.parts.append(f'<path d="M{left} {TOP}V{BOTTOM}h{ACROSS}" fill="none" stroke="{DARK}"/>')
        self.parts.append(text(middle, BOTTOM + 37, says, ' text-anchor="middle"'))

    def x(self, size):
        low, high = self.sizes[0], self.sizes[-1]
        share = math.log(size / low) / math.log(high / low) if low < high else 0.5
        return self.left + ASIDE + (ACROSS - 2 * ASIDE) * share

    def y(self, seconds):
        low, high = self.seconds[0], self.seconds[-1]
        return BOTTOM - (BOTTOM - TOP) * math.log(seconds / low) / math.log(high / low)

    def axes(self):
        """Draws a line and a label for each step of the seconds, or only for powers of ten if they are many; and for each size, if there is room."""
        for second in self.seconds:
            if len(self.seconds) <= 12 or f"{second:e}".startswith("1."):
                self.parts.append(f'<path d="M{self.left - 4} {self.y(second):.1f}h{ACROSS + 4}" stroke="{PALE}"/>')
                self.parts.append(text(self.left - 8, self.y(second) + 4, f"{second:g}", ' text-anchor="end"'))
        end = -math.inf
        for size in self.sizes:
            label, x = f"{size:,}", self.x(size)
            self.parts.append(f'<path d="M{x:.1f} {BOTTOM}v4" stroke="{DARK}"/>')
            if x - 3.5 * len(label) > end + 4:
                self.parts.append(text(x, BOTTOM + 18, label, ' text-anchor="middle"'))
                end = x + 3.5 * len(label)

    def guide(self):
        """Draws proportional growth, from the least time at the least size."""
        low, high = self.sizes[0], self.sizes[-1]
        begin = min(point.seconds for point in self.points if point.at == low)
        last = min(high, low * self.seconds[-1] / begin)
        ends = f"M{self.x(low):.1f} {self.y(begin):.1f}L{self.x(last):.1f} {self.y(begin * last / low):.1f}"
        self.parts.append(f'<path d="{ends}" stroke="{GUIDE}" stroke-dasharray="2 4"/>')

    def series(self, name):
        """Draws an input with the fewest and the most workers."""
        style, shown = STYLES[name], workers_of(self.points)
        for workers in dict.fromkeys([shown[0], shown[-1]]):
            more = workers > shown[0]
            places = [(self.x(point.at), self.y(point.seconds)) for point in self.points if (point.input, point.workers) == (name, workers)]
            self.parts += [f"<g><title>{style.name}, {by_workers(workers)}</title>", line(style.colour, places, more)]
            self.parts += [*(mark(style, x, y, more) for x, y in places), "</g>"]


def legend(points):
    """Draws two rows below the panels: what the marks mean, and how workers are told apart."""
    x, y = 50, BOTTOM + 64
    for style in [STYLES[style] for style in STYLES if style in {point.input for point in points}]:
        yield mark(style, x, y - 4, False)
        yield text(x + 12, y, style.name)
        x += 42 + 6.2 * len(style.name)
    shown, x, y = workers_of(points), 50, y + 20
    for workers in dict.fromkeys(shown[:1] + shown[-1:]):
        more = workers > shown[0]
        yield line(DARK, [(x - 6, y - 4), (x + 22, y - 4)], more)
        yield mark(Style("", DARK, STYLES["server"].mark), x + 8, y - 4, more)
        yield text(x + 30, y, by_workers(workers))
        x += 120
    if points:
        yield f'<path d="M{x - 6:.1f} {y - 4:.1f}h28" stroke="{GUIDE}" stroke-dasharray="2 4"/>'
        yield text(x + 30, y, "proportional growth")


def picture(numbers):
    """Returns the picture as SVG: the same numbers give the same bytes."""
    points = numbers["rows"] + numbers["nodes"]
    seconds = steps(min(point.seconds for point in points), max(point.seconds for point in points)) if points else []
    over = f"Seconds over servers, {numbers['over']:,} rows"
    panels = [Panel(50, "Seconds over rows", "rows of the trace", numbers["rows"], seconds)]
    panels.append(Panel(430, over, "servers in series after a source", numbers["nodes"], seconds))
    head = f'<svg xmlns="http://www.w3.org/2000/svg" viewBox="0 0 {WIDTH} {HEIGHT}" font-family="sans-serif" font-size="12" fill="{DARK}" '
    head += 'role="img" aria-label="Seconds over rows and over servers in a row, by mpsim, on logarithmic axes">'
    ground = f'<rect width="{WIDTH}" height="{HEIGHT}" fill="#fff"/>'
    return "".join(f"{panel}\n" for panel in [head, ground, *(part for panel in panels for part in panel.parts), *legend(points), "</svg>"])
