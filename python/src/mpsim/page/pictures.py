"""Computes the data of a page's charts from a report; small, however many visits there are."""

from __future__ import annotations

from array import array
from bisect import bisect_left, bisect_right
from fractions import Fraction
from typing import TYPE_CHECKING

from ..agents.pools import visits_at
from ..lines import PASSED
from ..node_visits import HELD, LOST, percentile_of

if TYPE_CHECKING:
    from collections.abc import Iterable, Mapping, Sequence

    from ..lines import Node
    from ..node_visits import NodeVisits
    from ..report import Report

# The limit of numbers for all charts of a page together, at about seven per time interval and two per wait; and the minimum and maximum for one
# chart.
NUMBERS, LEAST, PIECES, WAITS = 6000, 20, 240, 200
# The average number of visits per interval, below which percentiles mean little.
VISITS = 20
# Round widths of less than a day, in seconds.
CLOCK, DAY = [1, 2, 5, 10, 15, 20, 30, 60, 120, 300, 600, 900, 1800, 3600, 7200, 10800, 21600, 43200], 86400
# No job waits at these.
WITHOUT_WAITS = *PASSED, "delay"


def nice(least: int, tick: float | Fraction | None = None) -> int:
    """Returns a round width, not less than this one (int, in ticks): 1, 2 or 5 with zeros; if the seconds per tick are known, round seconds, minutes,
    hours or days."""
    if tick is None:
        power: int = 10 ** (len(str(least)) - 1)
        return next(item * power for item in (1, 2, 5, 10) if item * power >= least)
    tick = Fraction(str(tick))
    seconds = next((item for item in CLOCK if item >= least * tick), None) or DAY * nice(-(-least * tick // DAY))
    return -(-seconds // tick)


def width_of(span: int, pieces: int, tick: float | Fraction | None = None) -> int:
    """Returns the width (int, ticks) of a time interval, for about this many."""
    return nice(-(-max(span, 1) // pieces), tick)


def over_time(visits: NodeVisits, span: int, pieces: int, tick: float | Fraction | None = None) -> dict[str, object]:
    """Returns the visits to a node by time of arrival, in about this many intervals of equal width: the arrivals, how many of them were lost or held,
    and the p50, p90 and maximum of the waits of those that departed, None if none did."""
    width, begin = width_of(span, pieces, tick), 0
    came, lost = [], []
    waits_at: dict[str, list[int | None]] = {"p50": [], "p90": [], "max": []}
    for end_time in range(width, span + width + 1, width):
        end = bisect_left(visits.arrive, end_time, begin)
        waits = sorted(item for item in visits.raw_wait[begin:end] if item >= 0)
        came.append(end - begin)
        lost.append(end - begin - len(waits))
        for name, percent in ("p50", 50), ("p90", 90), ("max", 100):
            waits_at[name].append(percentile_of(waits, percent) if waits else None)
        begin = end
    return {"width": width, "came": came, "lost": lost, **waits_at}


def number_over_time(visits: NodeVisits, span: int, width: int) -> dict[str, object]:
    """Returns how many of a node's visits were in it, in time intervals of one width (int, ticks), the last of which ends with the span: the mean of
    each interval, to three decimals, and the maximum. Lost visits are never in the node, held ones stay to the end. At any moment departures come
    before arrivals, so a visit of no duration doesn't show.

    >>> import mpsim
    >>> report = mpsim.run("model 1\\nsource door\\nserver desk =4 from door\\n", [("door", 0), ("door", 1), ("door", 4)], jobs=True)
    >>> number_over_time(report.visits["desk"], report.span, 5)
    {'width': 5, 'mean': [1.8, 1.6, 1.0], 'max': [2, 2, 1]}
    """
    begins = array("q", (arrive for arrive, wait in zip(visits.arrive, visits.raw_wait) if wait != LOST))
    ends = array("q", sorted(span if wait == HELD else depart for depart, wait in zip(visits.raw_depart, visits.raw_wait) if wait != LOST))
    greatest, came, gone = [], 0, 0
    for begin in range(0, span, width):
        end, first, before = min(begin + width, span), came, gone
        came, gone = bisect_left(begins, end, first), bisect_left(ends, end, before)
        greatest.append(_greatest(begins, ends, begin, range(first, came), before))
    return {"width": width, "mean": [round(it, 3) for it in means_of(begins, ends, span, width)], "max": greatest}


def means_of(begins: Sequence[int], ends: Sequence[int], span: int, width: int) -> list[float]:
    """Returns the mean number present (list of float) in time intervals of one width (int, ticks), the last of which ends with the span, from the
    times at which stays begin and those at which they end (both sorted sequences of int, in ticks).

    >>> from mpsim.page.pictures import means_of
    >>> means_of([0, 2], [3, 8], 8, 4)
    [1.25, 1.0]
    """
    means, came, gone = [], 0, 0
    for begin in range(0, span, width):
        end, first, before = min(begin + width, span), came, gone
        came, gone = bisect_left(begins, end, first), bisect_left(ends, end, before)
        # A stay present at the beginning counts for the whole interval, less the time after its end; a new one counts from its begin on.
        within = (first - before) * (end - begin) + (came - first - gone + before) * end - sum(begins[first:came]) + sum(ends[before:gone])
        means.append(within / (end - begin))
    return means


def _greatest(begins: Sequence[int], ends: Sequence[int], begin: int, numbers: range, gone: int) -> int:
    """Returns the maximum present at once within an interval: at its beginning, or after one of these arrivals (range) less those gone before."""
    gone = bisect_right(ends, begin, gone)
    most = numbers.start - gone
    for number in numbers:
        moment = begins[number]
        while gone < len(ends) and ends[gone] <= moment:
            gone += 1
        most = max(most, number + 1 - gone)
    return most


def distribution(visits: NodeVisits, most: int) -> dict[str, object]:
    """Returns the number of visits, and some waits of those that departed, in rising order, with how many waited no longer. Each count is exact. All
    waits are included if they are few; else those at equally spaced ranks, at common percentiles, and at ranks that close in on the longest."""
    waits = visits.waits()
    count = len(waits)
    ranks = {1} | {-(-count * number // most) for number in range(1, most + 1)} | {-(-count * item // 100) for item in (50, 90, 95, 99)}
    ranks |= {count - (count >> number) for number in range(1, count.bit_length() + 1)}
    kept = sorted({waits[rank - 1] for rank in ranks if rank > 0}) if count else []
    return {"came": len(visits), "wait": kept, "count": [bisect_right(waits, item) for item in kept]}


def stays_of(report: Report, nodes: Iterable[Node]) -> dict[str, NodeVisits]:
    """Returns the visits to those nodes (list of Node) of a report where jobs can stay, by name; none if the report has no visits."""
    names = [node.name for node in nodes if node.kind not in PASSED]
    return dict(zip(names, visits_at(report, names))) if report.has_visits else {}


def pictures_of(
    nodes: Iterable[Node], stays: Mapping[str, NodeVisits], span: int, numbers: int, tick: float | Fraction | None = None
) -> dict[str, dict[str, dict[str, object]]]:
    """Returns the charts of those nodes (list of Node) where jobs did arrive, by name, from the visits that `stays_of` returns and the span of the
    report (int, ticks), with about this many numbers in all. `tick` is the seconds per tick, if known."""
    waited = {node.name: node.kind not in WITHOUT_WAITS for node in nodes if node.name in stays}
    drawn = [stays[name] for name in waited if len(stays[name])]
    each = numbers // max(len(drawn), 1)
    pieces, waits = (min(max(each // share, LEAST), most) for share, most in ((10, PIECES), (7, WAITS)))
    found: dict[str, dict[str, dict[str, object]]] = {}
    for item in drawn:
        count, mine = max(min(pieces, len(item) // VISITS), 10), found.setdefault(item.node, {})
        if waited[item.node]:
            mine["time"] = over_time(item, span, count, tick)
            mine["waits"] = distribution(item, waits)
        if span:
            mine["number"] = number_over_time(item, span, width_of(span, count, tick))
    return found
