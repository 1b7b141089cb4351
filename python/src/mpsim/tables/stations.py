"""Tables of what stations of a line do that no node of a model does."""

from __future__ import annotations

from typing import TYPE_CHECKING

from ..node_visits import percentile_of

if TYPE_CHECKING:
    from collections.abc import Iterable, Iterator

    from ..shapes import Row
    from ..stations.batches import Batched, Oven
    from ..stations.breakdowns import Change
    from ..stations.buffers import Line, Worked
    from ..times.calendar import Calendar

MACHINES = ["machine", "places", "parts", "work", "blocked", "util", "blocked_share", "mean_wait", "max_wait"]

OVENS = ["node", "size", "ovens", "units", "batches", "full", "fill", "busy", "util", "mean_wait", "p50", "p90", "p99", "max"]
BREAKDOWNS = ["node", "at", "for", "record", "begin", "end", "added"]


def share(part: int, whole: int) -> str:
    """Returns a share as a report writes one: to four decimals, cut off, 0.0000 if the whole is 0.

    >>> from mpsim.tables.stations import share
    >>> share(2, 3), share(0, 0)
    ('0.6666', '0.0000')
    """
    return f"{(10**4 * part // whole if whole else 0) / 10**4:.4f}"


def machines(line: Line, worked: Worked) -> Iterator[Row]:
    """Yields the header and the rows (lists) of a table of a Line that was worked out (Worked), one row per machine: its places, including the part
    in work (None for the first, which has unlimited room), the parts that came, the ticks of work and those for which a finished part blocked it,
    both as shares of the span, and the mean and the longest wait for it, in ticks.

    >>> from mpsim.stations.buffers import line_of, worked_out
    >>> from mpsim.tables.stations import machines
    >>> from mpsim.traces import Trace
    >>> trace = Trace("t.csv", ["source", "time", "cut", "mill"], [["parts", "0", "1", "5"], ["parts", "0", "1", "5"]])
    >>> line = line_of(["cut", "1", "mill"])
    >>> for row in machines(line, worked_out(line, ["parts"], "model 1\\nsource parts\\n", trace)):
    ...     print(row)
    ['machine', 'places', 'parts', 'work', 'blocked', 'util', 'blocked_share', 'mean_wait', 'max_wait']
    ['cut', None, 2, 2, 4, '0.1818', '0.3636', 0.5, 1]
    ['mill', 1, 2, 10, 0, '0.9090', '0.0000', 0.0, 0]
    """
    yield [*MACHINES]
    found, span = worked.held, worked.report.span
    for at, name in enumerate(line.names):
        begin, depart, work = found.begin[at], found.depart[at], found.work[at]
        blocked = sum(depart) - sum(begin) - sum(work)
        waits = list(worked.report.visits[name].raw_wait) if begin else []
        mean, longest = (round(sum(waits) / len(waits), 3), max(waits)) if waits else (None, None)
        places = line.places[at - 1] if at else None
        yield [name, places, len(begin), sum(work), blocked, share(sum(work), span), share(blocked, span), mean, longest]


def breakdowns(changes: Iterable[Change], days: Calendar | None = None) -> Iterator[Row]:
    """Yields the header and the rows (lists) of a table of what breakdowns changed (iterable of Change), one row each: the node, the tick at which it
    begins and its ticks, the record whose service it prolongs, when this service begins and ends, and the ticks added. With the Calendar, `time` has
    the date of the beginning.

    >>> from mpsim.stations.breakdowns import Breakdown, Change
    >>> from mpsim.tables.stations import breakdowns
    >>> for row in breakdowns([Change(Breakdown("mill", 6, 10), 2, 4, 18, 10), Change(Breakdown("mill", 40, 5), None, None, None, 0)]):
    ...     print(row)
    ['node', 'at', 'for', 'record', 'begin', 'end', 'added']
    ['mill', 6, 10, 2, 4, 18, 10]
    ['mill', 40, 5, None, None, None, 0]
    """
    yield [*BREAKDOWNS[:2], *([] if days is None else ["time"]), *BREAKDOWNS[2:]]
    for it in changes:
        row: Row = [it.breakdown.place, it.breakdown.begin, it.breakdown.ticks, it.record, it.begin, it.end, it.added]
        if days is not None:
            row.insert(2, days.shown(it.breakdown.begin))
        yield row


def ovens(node: str, made: Iterable[tuple[Oven, Batched]]) -> Iterator[Row]:
    """Yields the header and the rows (lists) of a table of ovens at a node (str), one row per Oven with what it does (Batched): the places of an
    oven, the ovens, the units, the batches and how many of these are full, the share of the places that are taken when a batch begins, the ticks for
    which ovens work, also as a share of the span of all, and the mean, the percentiles and the longest of the waits until a batch begins, in ticks.

    >>> from mpsim.stations.batches import Collecting, Oven
    >>> from mpsim.tables.stations import ovens
    >>> from mpsim.traces import Trace
    >>> trace = Trace("t.csv", ["source", "time"], [["units", "0"], ["units", "3"], ["units", "4"]])
    >>> units, oven = Collecting("model 1\\nsource units\\nserver oven =20 from units\\n", trace, "oven"), Oven(2, 20, last=True)
    >>> list(ovens("oven", [(oven, units.batched(oven))]))[1]
    ['oven', 2, 1, 3, 2, 1, '0.7500', 40, '0.9302', 7.333, 3, 19, 19, 19]
    """
    yield [*OVENS]
    for oven, it in made:
        count, waits, busy = len(it.batches), sorted(it.waits()), oven.ticks * len(it.batches)
        row: Row = [node, oven.size, oven.ovens, len(waits), count, sum(batch.units == oven.size for batch in it.batches)]
        row += [share(len(waits), count * oven.size), busy, share(busy, oven.ovens * it.report.span)]
        row += [round(sum(waits) / len(waits), 3), *(percentile_of(waits, percent) for percent in (50, 90, 99, 100))] if waits else [None] * 5
        yield row
