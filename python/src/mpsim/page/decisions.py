"""Makes the page of a decision on staffing, for a reader who has never heard of a queue: minutes and clock times, one printed page."""

from __future__ import annotations

from html import escape
from typing import List, NamedTuple, Optional, Sequence, Tuple

from .levels import Level, level_chart
from .parts import in_words, part, percent, sheet

# A chart's width and height, the room for its scale and its times, and the heights of the two.
WIDE, HIGH, LEFT, BOTTOM, TOP = 340, 108, 24, 20, 8


class Past(NamedTuple):
    """What was recorded: the calls and how many callers gave up (int), the share answered in time (float, or None), and the mean and the 90th
    percentile of the waits of the others, in seconds (float, or None); the levels by time of day (Level, the first of the whole day), in intervals of
    `every` minutes (int)."""

    calls: int
    gone: int
    share: Optional[float]
    mean: Optional[float]
    p90: Optional[float]
    levels: Sequence[Level] = ()
    every: int = 30


class Chart(NamedTuple):
    """A kind of day: its name, the time of day at which each interval begins (list of str), the calls per day (list of float), the agents who are
    needed (list of int), and those whom the roster has (list of float, or None)."""

    name: str
    times: Sequence[str]
    calls: Sequence[float]
    need: Sequence[int]
    there: Optional[Sequence[float]]


class Case(NamedTuple):
    """A staffing: what it is (str), its hours of work, the share answered in time (float, or None), and the share if the agents are as proposed
    (float, or None)."""

    name: str
    hours: float
    share: Optional[float]
    kept: Optional[float] = None


class Decision(NamedTuple):
    """What the page says: its title, the period (str) and what its hours are counted per ("week" or "day"); the goal (a share, and seconds); the
    past, if it was recorded; the proposal and the other cases (Case); a Chart per kind of day; the price of an hour and its unit (float and str, or
    None); the share of paid time in which people aren't available; the assumptions, and what was left out (lists of str)."""

    title: str
    period: str
    per: str
    goal: Tuple[float, float]
    past: Optional[Past]
    proposal: Case
    cases: Sequence[Case]
    charts: Sequence[Chart]
    cost: Optional[Tuple[float, str]]
    shrinkage: float
    assumptions: Sequence[str]
    left_out: Sequence[str]


def of_100(share: Optional[float]) -> str:
    """Returns a share in words.

    >>> of_100(0.853), of_100(None)
    ('85 of 100', 'none')
    """
    return "none" if share is None else f"{int(100 * share + 1e-9)} of 100"


def decision_page(it: Decision) -> str:
    """Returns the page (str) of a Decision.

    >>> chart = Chart("Monday", ["08:00", "08:30"], [4.0, 6.0], [1, 2], None)
    >>> made = Decision("Desk", "in March", "day", (0.8, 20), None, Case("proposed", 1.5, 0.85), [], [chart], (35.0, "EUR"), 0.3, ["Chance."], [])
    >>> text = decision_page(made)
    >>> "85 of 100" in text, "75.00 EUR" in text, "tick" in text
    (True, True, False)
    """
    share, seconds = it.goal
    goal = f"{of_100(share)} callers are to be answered within {in_words(seconds)}"
    most = max(((max(chart.need, default=0), chart) for chart in it.charts), key=lambda pair: pair[0], default=None)
    peak = ""
    if most and most[0]:
        at = most[1].times[list(most[1].need).index(most[0])]
        peak = f" At most {_people(most[0])} answer at the same time, first on {most[1].name} at {at}."
    parts = [
        f"<p>{escape(it.period)}</p>",
        _section("The goal", f"<p>{escape(goal)}.</p>"),
        _section("What was", _past(it.past, share, seconds)),
        _section("What is proposed", f'<p class="answer">{_proposal(it)}{escape(peak)}</p>'),
        _section("Who is needed when", _charts(it.charts)),
        _section("What if", _cases(it)),
        _section("What this assumes", _list(it.assumptions)),
        _section("What was left out", _list(it.left_out)),
    ]
    return sheet(it.title, "".join(parts), script=part("steps.js"))


def _section(head: str, body: str) -> str:
    return f"<section><h2>{head}</h2>{body}</section>"


def _people(count: float) -> str:
    text = f"{count:.1f}".removesuffix(".0")
    return f"{text} {'person' if count == 1 else 'people'}"


def _list(texts: Sequence[str]) -> str:
    return "<ul>" + "".join(f"<li>{escape(it)}</li>" for it in texts) + "</ul>"


def _past(past: Optional[Past], share: float, seconds: float) -> str:
    if past is None:
        return "<p>How long callers waited wasn't recorded, or isn't part of this page.</p>"
    text = f"{past.calls:,} people called. {of_100(past.share)} were answered within {in_words(seconds)}; {past.gone:,} gave up before."
    if past.mean is not None and past.p90 is not None:
        text += f" Those who were answered waited {in_words(past.mean)} on average, and 90 of 100 of them at most {in_words(past.p90)}."
    return _levels(past, share, f"<p>{escape(text)}</p>") if past.levels else f"<p>{escape(text)}</p>"


def _levels(past: Past, goal: float, text: str) -> str:
    """Returns a text beside the chart of the levels, with how far the recorded ones and those of the roster agree over the whole day."""
    whole = next((it for it in past.levels if it.minute is None), None)
    legend = "Solid line with dots: answered in time. Bars: calls. Dotted line: the goal."
    if whole and whole.modelled is not None:
        legend = legend.replace(" Bars", " Dashed line with squares: the same by this page's method. Bars")
        text += f"<p>To check the method, the roster was given the same calls: it answers {of_100(whole.modelled)} in time. "
        text += "If both lines are close, the numbers below can be trusted.</p>"
    chart = level_chart(past.levels, past.every, "Answered in time", goal)
    told = '<output aria-live="polite"></output>'
    return f'<div class="beside"><div>{text}<p class="legend">{legend}</p>{told}</div><div class="levels">{chart}</div></div>'


def _paid(it: Decision, hours: float) -> float:
    return hours / (1 - it.shrinkage)


def _money(it: Decision, hours: float) -> str:
    return "" if it.cost is None else f"{_paid(it, hours) * it.cost[0]:,.2f} {it.cost[1]}".strip()


def _hours(value: float) -> str:
    return f"{value:,.1f}".removesuffix(".0")


def _proposal(it: Decision) -> str:
    text = f"{_hours(it.proposal.hours)} hours of answering per {it.per}"
    if it.shrinkage:
        paid = _hours(_paid(it, it.proposal.hours))
        text += f", which is {paid} paid hours, since {percent(it.shrinkage)} of paid time goes to breaks and absences"
    if it.cost is not None:
        text += f"; this costs {_money(it, it.proposal.hours)} per {it.per}"
    return escape(f"{text}. With it {of_100(it.proposal.share)} of these callers are answered in time.")


def _cases(it: Decision) -> str:
    money_heads = [f"cost per {it.per}", "difference"] if it.cost else ["difference"]
    heads = ["", f"hours per {it.per}", *money_heads, "answered in time", "if staffed as proposed"]
    rows = []
    for case in (it.proposal, *it.cases):
        more = case.hours - it.proposal.hours
        sign = "+" if more >= 0 else "−"
        money = f"{sign}{_money(it, abs(more))}" if it.cost else f"{sign}{_hours(abs(more))} h"
        values = [_hours(case.hours), *([_money(it, case.hours)] if it.cost else []), "" if case is it.proposal else money]
        values += ["–" if case.share is None else percent(case.share), "" if case.kept is None else percent(case.kept)]
        rows.append(f'<tr><th scope="row">{escape(case.name)}</th>' + "".join(f"<td>{escape(value)}</td>" for value in values) + "</tr>")
    head = "".join(f'<th scope="col">{escape(text)}</th>' for text in heads)
    return f'<div class="scroll"><table id="cases"><thead><tr>{head}</tr></thead><tbody>{"".join(rows)}</tbody></table></div>'


def _charts(charts: Sequence[Chart]) -> str:
    used = [at for chart in charts for at, need in enumerate(chart.need) if need or chart.calls[at] or chart.there and chart.there[at]]
    if not used:
        return "<p>Nobody called.</p>"
    first, last = min(used), max(used) + 1
    most = max(max([*chart.need[first:last], *(chart.there or [0])[first:last]]) for chart in charts)
    figures = "".join(_chart(chart, first, last, max(most, 1)) for chart in charts)
    legend = "Bars: the people who are needed." + (" Line: the people whom the roster has." if any(chart.there for chart in charts) else "")
    tables = "".join(_numbers(chart, first, last) for chart in charts)
    told = '<output aria-live="polite"></output>'
    return f'<p class="legend">{legend}</p>{told}<div class="charts">{figures}</div><details><summary>The same in numbers</summary>{tables}</details>'


def _chart(chart: Chart, first: int, last: int, most: float) -> str:
    wide, high = (WIDE - LEFT) / (last - first), HIGH - BOTTOM - TOP

    def up(value: float) -> float:
        return TOP + high * (1 - value / most)

    def across(at: int) -> float:
        return LEFT + wide * (at - first)

    bars, step = [], max(1, (last - first) // 6)
    for at in range(first, last):
        has = f", the roster has {_people(chart.there[at])}" if chart.there else ""
        said = f"{chart.name} {chart.times[at]}: {_people(chart.need[at])} needed{has}"
        bar = f'x="{across(at) + 0.5:.1f}" y="{up(chart.need[at]):.1f}" width="{max(wide - 1, 1):.1f}" height="{TOP + high - up(chart.need[at]):.1f}"'
        band = f'<rect class="band" x="{across(at):.1f}" y="{TOP}" width="{wide:.1f}" height="{high}"/>'
        bars.append(f'<g class="step"><title>{escape(said)}</title>{band}<rect class="need" {bar}/></g>')
    marks = [f'<text x="{across(at):.1f}" y="{HIGH - 5}">{chart.times[at]}</text>' for at in range(first, last, step)]
    for value in range(0, int(most) + 1, max(1, int(most) // 4)):
        marks.append(f'<line x1="{LEFT}" x2="{WIDE}" y1="{up(value):.1f}" y2="{up(value):.1f}"/><text x="2" y="{up(value) + 4:.1f}">{value}</text>')
    line = ""
    if chart.there:
        path = "".join(f"{'M' if at == first else 'L'}{across(at):.1f} {up(chart.there[at]):.1f}H{across(at + 1):.1f}" for at in range(first, last))
        line = f'<path class="there" d="{path}"/>'
    says = f"{chart.name}: people needed" + (" and in the roster" if chart.there else "") + " by time of day"
    svg = f'<svg viewBox="0 0 {WIDE} {HIGH}" role="img" tabindex="0" data-steps="" aria-label="{escape(says)}. Step through it with the arrow keys.">'
    return f'<figure><h3>{escape(chart.name)}</h3>{svg}<g class="axis">{"".join(marks)}</g>{"".join(bars)}{line}</svg></figure>'


def _numbers(chart: Chart, first: int, last: int) -> str:
    rows: List[str] = []
    for at in range(first, last):
        there = f"<td>{_hours(chart.there[at])}</td>" if chart.there else ""
        rows.append(f'<tr><th scope="row">{chart.times[at]}</th><td>{_hours(chart.calls[at])}</td><td>{chart.need[at]}</td>{there}</tr>')
    more = '<th scope="col">in the roster</th>' if chart.there else ""
    heads = f'<th scope="col">from</th><th scope="col">calls</th><th scope="col">needed</th>{more}'
    return f"<table><caption>{escape(chart.name)}</caption><thead><tr>{heads}</tr></thead><tbody>{''.join(rows)}</tbody></table>"
