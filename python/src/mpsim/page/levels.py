"""Draws the share of calls answered in time over the day, as recorded and in a model; and makes the page of a model that was compared so."""

from __future__ import annotations

from html import escape
from typing import TYPE_CHECKING, NamedTuple, Optional

from .parts import in_words, part, percent, sheet

if TYPE_CHECKING:
    from typing import Callable, Iterable, List, Sequence

    from ..shapes import Row

# A chart's width and height, and the room for its scale, for the names of its lines, for its times and above it.
WIDE, HIGH, LEFT, RIGHT, BOTTOM, TOP = 440, 170, 38, 62, 32, 10
# The greatest height of the bars of calls.
BARS = 40


class Level(NamedTuple):
    """The calls of an interval: the minute of the day at which it begins (int; None for the whole day) and the number of calls (int); the shares of
    them that are answered in time as recorded and in the model, and their difference; and the share that ends alike in both (float, or None)."""

    minute: Optional[int]
    calls: int
    recorded: Optional[float]
    modelled: Optional[float] = None
    gap: Optional[float] = None
    same: Optional[float] = None

    def as_recorded(self) -> "Level":
        """Returns the level without what the model says.

        >>> Level(510, 9, 0.5, 0.6, 0.1, 1.0).as_recorded()
        Level(minute=510, calls=9, recorded=0.5, modelled=None, gap=None, same=None)
        """
        return Level(self.minute, self.calls, self.recorded)


def clock(minute: int) -> str:
    """Returns a time of day (str) from a minute of the day.

    >>> clock(510), clock(1440)
    ('08:30', '24:00')
    """
    return f"{minute // 60:02}:{minute % 60:02}"


def levels_of(rows: Iterable[Row], queue: str = "all") -> List[Level]:
    """Returns the levels of a queue (list of Level) from the rows of `mpplan validate`, as in `validation.HEADS`: the first of the whole day.

    >>> levels_of([["all", "all", 9, 0.5, 0.625, 0.125, 1.0], ["08:30", "all", 9, 0.5, 0.625, 0.125, 1.0]])[1][:4]
    (510, 9, 0.5, 0.625)
    """
    return [_level(row) for row in rows if row[1] == queue]


def _level(row: Row) -> Level:
    begin, calls = str(row[0]), row[2]
    recorded, modelled, gap, same = (float(it) if isinstance(it, (int, float)) else None for it in row[3:7])
    minute = None if begin == "all" else 60 * int(begin[:2]) + int(begin[3:])
    return Level(minute, calls if isinstance(calls, int) else 0, recorded, modelled, gap, same)


def level_chart(levels: Iterable[Level], every: int, title: str, goal: Optional[float] = None) -> str:
    """Returns a figure (str of HTML) of levels in rising order, in intervals of this many minutes: a solid line with dots as recorded, a dashed line
    with squares in the model, and bars for the calls; with a line at the goal (float), if there is one. Arrow keys step through it on a page that
    has `steps.js`. A model without any level has no line; the level of the whole day isn't drawn.

    >>> level_chart([Level(510, 9, 0.5, 0.6)], 30, "Desk").count('class="step"')
    1
    """
    drawn = [(it.minute, it) for it in levels if it.minute is not None]
    if not drawn:
        return f"<figure><h3>{escape(title)}</h3><p>Nobody called.</p></figure>"
    first, last = drawn[0][0], drawn[-1][0] + every
    most, has_model = max(it.calls for _, it in drawn), any(it.modelled is not None for _, it in drawn)

    def across(minute: float) -> float:
        return LEFT + (WIDE - LEFT - RIGHT) * (minute - first) / (last - first)

    parts = [_axes(first, last, across, goal)]
    for minute, it in drawn:
        parts.append(_step(across(minute), across(minute + every) - across(minute), it.calls / (most or 1), said(it, every, has_model)))
    middles = [across(minute + every / 2) for minute, _ in drawn]
    # The model's line is wider, and its squares larger, so that both are seen even if they are equal.
    parts.append(_line(middles, [it.modelled for _, it in drawn], across(every) - across(0), "p90"))
    parts.append(_line(middles, [it.recorded for _, it in drawn], across(every) - across(0), "p50"))
    parts.append(_names(drawn[-1][1]))
    says = f"{title}: share of calls answered in time by time of day, as recorded{' and in the model' if has_model else ''}"
    svg = f'<svg viewBox="0 0 {WIDE} {HIGH}" role="img" tabindex="0" data-steps="" aria-label="{escape(says)}. Step through it with the arrow keys.">'
    return f"<figure><h3>{escape(title)}</h3>{svg}{''.join(parts)}</svg></figure>"


def _up(share: float) -> float:
    return HIGH - BOTTOM - (HIGH - BOTTOM - TOP) * share


def _axes(first: int, last: int, across: Callable[[float], float], goal: Optional[float]) -> str:
    marks = []
    for tenth in range(0, 11, 2):
        y = _up(tenth / 10)
        marks.append(f'<line x1="{LEFT}" x2="{WIDE - RIGHT}" y1="{y:.1f}" y2="{y:.1f}"/>')
        marks.append(f'<text x="{LEFT - 5}" y="{y + 4:.1f}" text-anchor="end">{10 * tenth} %</text>')
    step = next((it for it in (15, 30, 60, 120, 180, 240) if (last - first) / it <= 9), 360)
    for minute in range(-(-first // step) * step, last + 1, step):
        marks.append(f'<line x1="{across(minute):.1f}" x2="{across(minute):.1f}" y1="{_up(0):.1f}" y2="{_up(0) + 4:.1f}"/>')
        marks.append(f'<text x="{across(minute):.1f}" y="{_up(0) + 16:.1f}" text-anchor="middle">{clock(minute)}</text>')
    middle = (LEFT + WIDE - RIGHT) / 2
    marks.append(f'<text x="{middle:.1f}" y="{HIGH - 4}" text-anchor="middle">time of day</text>')
    line = ""
    if goal is not None:
        line = f'<line class="goal" x1="{LEFT}" x2="{WIDE - RIGHT}" y1="{_up(goal):.1f}" y2="{_up(goal):.1f}"/>'
    return f'<g class="axis">{"".join(marks)}</g>{line}'


def _step(x: float, wide: float, calls: float, text: str) -> str:
    """Returns the bar of an interval, by its calls as a share of the most calls, and its title, which says its figures."""
    band = f'<rect class="band" x="{x:.1f}" y="{TOP}" width="{wide:.1f}" height="{HIGH - BOTTOM - TOP}"/>'
    y, high = HIGH - BOTTOM - BARS * calls, BARS * calls
    bar = f'<rect class="calls" x="{x + 0.5:.1f}" y="{y:.1f}" width="{max(wide - 1, 1):.1f}" height="{high:.1f}"/>'
    return f'<g class="step"><title>{escape(text)}</title>{band}{bar}</g>'


def said(it: Level, every: int, has_model: bool = True) -> str:
    """Returns what a level says (str).

    >>> said(Level(510, 9, 0.5, 0.6), 30)
    '08:30 to 09:00: 9 calls, answered in time 50.0 % as recorded, 60.0 % in the model'
    """
    shares = [("–" if share is None else percent(share)) + name for share, name in ((it.recorded, " as recorded"), (it.modelled, " in the model"))]
    calls = f"{it.calls:,} call{'' if it.calls == 1 else 's'}"
    begin = it.minute or 0
    return f"{clock(begin)} to {clock(begin + every)}: {calls}, answered in time {', '.join(shares if has_model else shares[:1])}"


def _line(middles: Sequence[float], shares: Sequence[Optional[float]], wide: float, kind: str) -> str:
    """Returns a line through the middles of intervals of this width, with a mark at each, and a gap where there are no calls."""
    path, marks, before = "", "", 0.0
    for x, share in zip(middles, shares):
        if share is None:
            continue
        y = _up(share)
        path += f"{'L' if path and x - before < 1.5 * wide else 'M'}{x:.1f} {y:.1f}"
        before = x
        square = f'x="{x - 4:.1f}" y="{y - 4:.1f}" width="8" height="8"'
        marks += f'<circle class="{kind}" cx="{x:.1f}" cy="{y:.1f}" r="2.4"/>' if kind == "p50" else f'<rect class="{kind}" {square}/>'
    return f'<path class="{kind}" d="{path}"/>{marks}' if path else ""


def _names(last: Level) -> str:
    """Returns the names of the lines, beside their ends and one below the other."""
    ends = [
        (_up(share), name, kind) for share, name, kind in ((last.recorded, "recorded", "p50"), (last.modelled, "model", "p90")) if share is not None
    ]
    ends.sort()
    texts, below = [], 0.0
    for y, name, kind in ends:
        below = max(y + 4, below + 13)
        texts.append(f'<text class="{kind}" x="{WIDE - RIGHT + 5}" y="{below:.1f}">{name}</text>')
    return "".join(texts)


def levels_page(rows: Sequence[Row], title: str, verdict: str, within: float, every: int) -> str:
    """Returns the page (str) of a model that was compared with what was recorded, from rows as in `validation.HEADS`: whether it may be trusted
    (str), a chart and a table of all calls, and one of each queue if there are several. `within` is the time (seconds) that counts as in time,
    `every` the minutes of an interval.

    >>> rows = [["all", "all", 9, 0.5, 0.6, 0.1, 1.0], ["08:30", "all", 9, 0.5, 0.6, 0.1, 1.0]]
    >>> levels_page(rows, "Desk", "the model may not be trusted", 20, 30).count("<figure>")
    1
    """
    queues = list(dict.fromkeys(str(row[1]) for row in rows))
    names = {it: "All calls" if it == "all" else it for it in queues}
    charts = "".join(level_chart(levels_of(rows, it), every, names[it]) for it in queues)
    tables = "".join(_table(levels_of(rows, it), names[it]) for it in queues)
    legend = (
        f"Share of all calls that were answered within {in_words(within)}. Solid line with dots: as recorded. "
        "Dashed line with squares: in the model. "
        "Bars: calls; with few calls a gap says little."
    )
    body = (
        f'<p class="answer">{escape(verdict[:1].upper() + verdict[1:])}.</p><section><h2>Over the day</h2><p class="legend">{legend}</p>'
        f'<output aria-live="polite"></output><div class="levels">{charts}</div></section><section><h2>In numbers</h2>{tables}</section>'
    )
    return sheet(title, body, script=part("steps.js"))


def _table(levels: Iterable[Level], caption: str) -> str:
    lines = []
    for it in levels:
        shares = ["–" if share is None else percent(share) for share in (it.recorded, it.modelled)]
        gap, same = "–" if it.gap is None else f"{100 * it.gap:+.1f}", "–" if it.same is None else percent(it.same)
        cells = "".join(f"<td>{text}</td>" for text in (f"{it.calls:,}", *shares, gap, same))
        lines.append(f'<tr><th scope="row">{"all day" if it.minute is None else clock(it.minute)}</th>{cells}</tr>')
    heads = "".join(f'<th scope="col">{it}</th>' for it in ("from", "calls", "recorded", "model", "gap, points", "calls alike"))
    table = f"<table><caption>{escape(caption)}</caption><thead><tr>{heads}</tr></thead><tbody>{''.join(lines)}</tbody></table>"
    return f'<div class="scroll" tabindex="0" role="region" aria-label="{escape(caption)}, table, scrolls">{table}</div>'
