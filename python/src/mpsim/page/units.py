"""Chooses the units of a page: the visits of single jobs, for all of the run if they are few, else for one window of time."""

from __future__ import annotations

from bisect import bisect_left
from collections import Counter
from fractions import Fraction
from typing import TYPE_CHECKING, Dict, List, Tuple

from ..node_visits import HELD
from .pictures import nice

if TYPE_CHECKING:
    from collections.abc import Iterable, Mapping, Sequence
    from datetime import datetime

    from ..node_visits import NodeVisits
    from ..report import Report

    Stay = Tuple[int, int, int, int]

# The limit of visits on a page, and the minimum for a run.
VISITS, LEAST = 900, 100
HOUR = 3600


def visits_for(runs: int) -> tuple[int, int]:
    """Returns how many visits each run of a page may show, and how many runs (two int), so that the page stays small.

    >>> visits_for(1), visits_for(3), visits_for(99)
    ((900, 1), (300, 3), (100, 9))
    """
    each = max(VISITS // runs, LEAST)
    return each, min(runs, VISITS // each)


def window_of(span: int, visits: int, tick: float | Fraction | None = None) -> int:
    """Returns the length of a window (int, ticks) for this many visits: the whole of a run with few, at least about a 24th; if the seconds per tick
    are known, an hour, or less of a run of less than two hours.

    >>> window_of(86400, 900, 1), window_of(1800, 500, 1), window_of(1000, 90), window_of(1000, 9000)
    (3600, 600, 1001, 50)
    """
    width = nice(-(-max(span, 1) // min(max(visits // 100, 1), 24)), tick)
    width = span + 1 if width >= span else width
    if tick is None:
        return width
    hour = -(-HOUR // Fraction(str(tick)))
    return hour if span >= 2 * hour else min(width, hour)


def units_of(
    report: Report,
    stays: Mapping[str, NodeVisits],
    most: int,
    tick: float | Fraction | None = None,
    start: datetime | None = None,
    hour: int | None = None,
) -> dict[str, object] | None:
    """Returns the units of a report: a row per job, with its record number and its visits (each the number of its station, the arrival, the wait, -1
    if it was lost, -2 if it was held, and the departure, in ticks), by record number. `stays` are the visits to the stations by name.

    If there are at most this many visits, all jobs have a row. Otherwise only those in one window (`only`), until there are too many: `units` (int)
    says how many there are in it. `width` and `first` give the windows, `chosen` the begin of the one to show: that in which most jobs come, or the
    one that begins at `hour` (int, ticks). With `start`, the local datetime of time 0, windows begin at full hours. None without visits."""
    if not stays:
        return None
    count = sum(map(len, stays.values()))
    width = window_of(report.span, count, tick)
    first = 0 if width > report.span and hour is None else _first(width, tick, start, hour)
    came = Counter((time - first) // width for node in report.nodes if node.kind == "source" for time in report.visits[node.name].arrive)
    busiest = first + width * min(came, key=lambda at: (-came[at], at), default=0)
    chosen = busiest if hour is None else hour
    only = count > most
    rows: Dict[int, List[Stay]] = {}
    for at, visits in enumerate(stays.values()):
        for job, arrive, wait, depart in _within(visits, chosen, chosen + width, report.span) if only else _ends(visits, report.span):
            rows.setdefault(job, []).append((at, arrive, wait, depart))
    ordered = sorted(rows.items())
    shown = [[job, sorted(mine, key=lambda it: (it[1], it[3], it[0]))] for job, mine in _few(ordered, most)]
    return {"width": width, "first": first, "chosen": chosen, "only": only, "units": len(ordered), "names": list(stays), "rows": shown}


def _first(width: int, tick: float | Fraction | None, start: datetime | None, hour: int | None) -> int:
    """Returns the begin of the first window, at most 0, so that others begin at `hour`, or at full hours."""
    if hour is not None:
        return hour % width - width
    past = int((start.hour * HOUR + start.minute * 60 + start.second) / tick) if start and tick else 0
    return -(past % width)


def _ends(visits: NodeVisits, span: int) -> Iterable[tuple[int, int, int, int]]:
    for job, arrive, wait, depart in zip(visits.job, visits.arrive, visits.raw_wait, visits.raw_depart):
        yield job, arrive, wait, depart if wait >= 0 else span if wait == HELD else arrive


def _within(visits: NodeVisits, begin: int, end: int, span: int) -> Iterable[tuple[int, int, int, int]]:
    """Yields the visits that are there at some time of a window."""
    last = bisect_left(visits.arrive, end)
    for number, it in enumerate(_ends(visits, span)):
        if number >= last:
            return
        if it[3] > begin or it[1] >= begin:
            yield it


def _few(rows: Sequence[tuple[int, List[Stay]]], most: int) -> Sequence[tuple[int, List[Stay]]]:
    """Returns the first rows, with at most this many visits, but at least one row."""
    count = 0
    for at, (_, mine) in enumerate(rows):
        count += len(mine)
        if count > most and at:
            return rows[:at]
    return rows
