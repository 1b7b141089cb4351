"""Makes what theory.py writes: docs/VALIDATION.md and its picture."""
import math

from theory import ALLOWED, BATCHES, SECTIONS, erlang_b

# Where the axes of a panel begin and end, in the picture's units; shares go from 1 down to LEAST.
TOP, BOTTOM, WIDTH, LEAST = 40, 265, 290, 1e-4
LINE, MARK, DARK = "#1f5fa8", "#b3400a", "#333"


def number(value):
    return f"{value:.5f}" if abs(value) < 1 else f"{value:.4f}"


def table(samples):
    """The table of a section: the first seed's figures, and how far off each seed's are."""
    yield "| What | Formula | Theory | mpsim | Off |"
    yield "|---|---|---|---|---|"
    for row in zip(*[it.figures for it in samples]):
        first = row[0]
        offs = ", ".join(f"{it.off:+.1f}" + ("" if it.holds else " **no**") for it in row)
        yield f"| {first.what} | {first.formula} | {number(first.theory)} | {number(first.measured)}±{first.error:.2g} | {offs} |"


def beginning(jobs, seeds, held, count, nodes, visits, off):
    """The lines before the sections. `off` has the names of the nodes at which Little's law doesn't hold."""
    little = "the sum of the times that the lines of `--jobs` give."
    return [
        "# Comparison with theory",
        "",
        f"`check/theory.py --write` writes this page. It compares runs of {jobs:,} random jobs with queueing theory. With the",
        f"{'seeds' if seeds[1:] else 'seed'} {', '.join(map(str, seeds))}, {held} of {count} figures agree.",
        "",
        "- *Theory* and *mpsim* (with the first seed, and its standard error) are in mean service times, unless stated otherwise.",
        f"- *Off* is each seed's distance from theory in standard errors. Up to {ALLOWED} are allowed. If all is well, one page in a",
        "  hundred has a figure further off.",
        f"- The standard error comes from the means of {BATCHES} batches of jobs, without a first one, in which the network fills.",
        "",
        "An error that moves a figure by several standard errors, here 0.1% to a few per cent, would show. An error of one tick,",
        "in the order of simultaneous events or in a single job would not. The proof excludes these, and random cases are compared",
        "with an event list (`check/compare.py`). `check/run theory` shows that two wrong programs are noticed: a server that",
        "serves the last arrival first, and a loss station with one place too many.",
        "",
        f"**Little's law holds exactly** at all {nodes} nodes, over {visits:,} visits: to the tick, `area` is"
        if not off
        else f"**Little's law fails** at {', '.join(off)}: `area` isn't",
        little,
        "",
        "![Waits of M/M/1 and calls lost, by mpsim and by formula](validation.svg)",
        "",
    ]


def page(found, words):
    """The page, from samples by the titles of their sections, one per seed."""
    figures = [it for samples in found.values() for sample in samples for it in sample.figures]
    samples = [it for samples in found.values() for it in samples]
    nodes, visits = sum(it.nodes for it in samples), sum(it.visits for it in samples)
    off = [name for it in samples for name in it.off_little]
    lines = beginning(words.jobs, words.seeds, sum(it.holds for it in figures), len(figures), nodes, visits, off)
    for title, samples in found.items():
        lines += [f"## {title}", "", SECTIONS[title][1], "", *table(samples), ""]
    return "\n".join(lines)


class Panel:
    """A half of the picture: a share, on a logarithmic scale, over a number."""

    def __init__(self, left, title, low, high, ticks, says):
        self.left, self.low, self.high = left, low, high
        self.parts = [
            f'<text x="{left}" y="22" font-weight="bold">{title}</text>',
            f'<path d="M{left} {TOP}V{BOTTOM}h{WIDTH}" fill="none" stroke="{DARK}"/>',
        ]
        for it in ticks:
            x = self.x(it)
            self.parts.append(f'<path d="M{x:.1f} {BOTTOM}v4" stroke="{DARK}"/><text x="{x:.1f}" y="{BOTTOM + 18}" text-anchor="middle">{it}</text>')
        for it in 1, 0.1, 0.01, 0.001, 0.0001:
            y = self.y(it)
            self.parts.append(
                f'<path d="M{left - 4} {y:.1f}h{WIDTH + 4}" stroke="#ddd"/><text x="{left - 8}" y="{y + 4:.1f}" text-anchor="end">{it:g}</text>'
            )
        self.parts.append(f'<text x="{left + WIDTH / 2}" y="{BOTTOM + 39}" text-anchor="middle">{says}</text>')

    def x(self, value):
        return self.left + WIDTH * (value - self.low) / (self.high - self.low)

    def y(self, share):
        return TOP + (BOTTOM - TOP) * math.log10(max(share, LEAST)) / math.log10(LEAST)

    def line(self, points):
        text = " ".join(f"{self.x(value):.1f},{self.y(share):.1f}" for value, share in points if share >= LEAST)
        self.parts.append(f'<polyline points="{text}" fill="none" stroke="{LINE}" stroke-width="1.5"/>')

    def bar(self, value, low, high):
        self.parts.append(f'<path d="M{self.x(value):.1f} {self.y(high):.1f}V{self.y(low):.1f}" stroke="{MARK}"/>')

    def circle(self, value, share):
        if share >= LEAST:
            self.parts.append(f'<circle cx="{self.x(value):.1f}" cy="{self.y(share):.1f}" r="3.5" fill="none" stroke="{MARK}" stroke-width="1.5"/>')

    def cross(self, value, share):
        if share >= LEAST:
            self.parts.append(f'<path d="M{self.x(value) - 4:.1f} {self.y(share):.1f}h8m-4 -4v8" stroke="{DARK}" stroke-width="1.5"/>')

    def key(self, *rows):
        # Below the curves, which fall.
        for at, (sign, colour, says) in enumerate(rows):
            self.parts.append(f'<text x="{self.left + 12}" y="{BOTTOM - 43 + 16 * at}"><tspan fill="{colour}">{sign}</tspan> {says}</text>')


def picture(found):
    """Two panels, where their sections are there: the share of M/M/1 that waits longer, and the share lost over the number of lines."""
    panels = []
    if "M/M/1" in found:
        panel = Panel(50, "M/M/1, load 0.8: share that waits longer", 0, 50, (0, 10, 20, 30, 40, 50), "mean services")
        panel.line([(ticks / 10, 0.8 * math.exp(-ticks / 50)) for ticks in range(0, 500, 2)])
        for ticks, share, error in found["M/M/1"][0].points["longer"]:
            panel.bar(ticks, share - ALLOWED * error, min(share + ALLOWED * error, 1))
            panel.circle(ticks, share)
        panel.key(("○", MARK, "mpsim, with its bound"), ("—", LINE, "by formula"))
        panels.append(panel)
    if "Erlang B" in found:
        panel, points = Panel(430, "25 erlangs: share of calls lost", 15, 40, (15, 20, 25, 30, 35, 40), "lines"), found["Erlang B"][0].points
        panel.line([(lines, erlang_b(lines, 25)) for lines in range(15, 41)])
        for lines, share in points["exponential"]:
            panel.circle(lines, share)
        for lines, share in points["constant"]:
            panel.cross(lines, share)
        panel.key(("○", MARK, "exponential holding times"), ("+", DARK, "constant ones"), ("—", LINE, "by formula"))
        panels.append(panel)
    head = '<svg xmlns="http://www.w3.org/2000/svg" viewBox="0 0 760 320" font-family="sans-serif" font-size="12" role="img" '
    head += 'aria-label="Waits of M/M/1 and calls lost, by mpsim and by formula">'
    return "".join(
        f"{it}\n" for it in [head, '<rect width="760" height="320" fill="#fff"/>', *[part for it in panels for part in it.parts], "</svg>"]
    )
