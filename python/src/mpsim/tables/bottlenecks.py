"""Ranks changes of a network by what each is worth: throughput, time in the network, jobs in it, and each of them per cost."""

from __future__ import annotations

import re
from fractions import Fraction
from math import inf
from typing import TYPE_CHECKING, Dict, NamedTuple, Optional, Tuple

from ..files import table_rows
from ..node_visits import percentile_of
from ..sweeps.investments import CAPACITY, SERVER, SERVICE
from ..times.texts import HOUR
from .sojourns import ways

if TYPE_CHECKING:
    from collections.abc import Collection, Iterable, Sequence

    from ..report import Report
    from ..shapes import Path, Row

    Costs = Dict[Tuple[str, str], Fraction]

# The figures that changes are ranked by.
FIGURES = "throughput", "p90", "wip"
COSTS_HEAD = "station", "change", "cost"
# A gain per cost is one per this many units of it.
UNITS = 1000


class Worth(NamedTuple):
    """What a run is worth: how many jobs left per unit of time (float), the 90th percentile of their times in the network (int, ticks), the mean
    number of jobs in the network (float), each None if there is nothing to count, and how many jobs were lost and held (int)."""

    throughput: Optional[float]
    p90: Optional[int]
    wip: Optional[float]
    lost: int
    held: int


def worth(report: Report, times: Sequence[int], per: int) -> Worth:
    """Returns the Worth of a report with visits, for the times of its trace (list of int) and a number of ticks to count throughput by (int).

    The window is from the first arrival to the last. A job that is lost, or that a join holds to the end, doesn't count as throughput. A lost job is
    in the network until it is lost, one that is held to the end.

    >>> import mpsim
    >>> report = mpsim.run("model 1\\nsource door\\nserver desk =4 from door\\n", [("door", 0), ("door", 1), ("door", 10)], jobs=True)
    >>> worth(report, [0, 1, 10], 100)
    Worth(throughput=20.0, p90=7, wip=1.1, lost=0, held=0)
    """
    every = ways(report)
    first, end = min(times, default=0), max(times, default=0)
    stays: list[int] = []
    left, inside, lost = 0, sum(end - time for time in times), 0
    for came, at, sojourn in zip(every.came, every.end, every.sojourn):
        inside -= max(0, end - came - sojourn)
        if at % 2:
            lost += 1
            continue
        stays.append(sojourn)
        left += came + sojourn <= end
    throughput, wip = (round(it / (end - first), 4) if end > first else None for it in (left * per, inside))
    p90 = percentile_of(sorted(stays), 90) if stays else None
    return Worth(throughput, p90, wip, lost, len(times) - len(every.job))


class Trial(NamedTuple):
    """A run of a change: the station (str), SERVICE, CAPACITY or SERVER, its Worth, None if the run was rejected, and the error line then."""

    station: str
    what: str
    worth: Optional[Worth]
    refusal: Optional[str] = None


def read_costs(path: Path, stations: Collection[str]) -> Costs:
    """Returns what changes cost (dict of Fraction by pairs of a station and a change), from a CSV file with the columns of COSTS_HEAD. A station `*`
    is each that has no row of its own for that change. Raises OSError if the file can't be read, and ValueError for an invalid row, with its number
    (the header is row 1), and for a station that isn't among `stations`."""
    found: Costs = {}
    for number, row in table_rows(path, list(COSTS_HEAD)):
        station, what, cost = (row[name] for name in COSTS_HEAD)
        why = None
        if station != "*" and station not in stations:
            why = f"no station {station!r}; the model has {', '.join(stations)}"
        elif what not in (SERVICE, CAPACITY, SERVER):
            why = f"change {what!r}: expected {SERVICE}, {CAPACITY} or {SERVER}"
        elif not re.fullmatch(r"\d{1,12}(\.\d{1,6})?", cost) or not Fraction(cost):
            why = f"cost {cost!r}: expected a number above 0"
        elif (station, what) in found:
            why = f"{station} has two rows for {what}"
        if why:
            raise ValueError(f"{path}: row {number}: {why}")
        found[station, what] = Fraction(cost)
    return found


def heads(unit: str, has_costs: bool) -> list[str]:
    """Returns the names of the columns; `unit` says what throughput is counted per."""
    figures = [unit, "p90", "wip"]
    gains = [f"gain_{name}" for name in FIGURES]
    ranks = [f"rank_{name}" for name in FIGURES]
    return [
        "station",
        "change",
        *figures,
        "lost",
        "held",
        *gains,
        *ranks,
        *(["cost", "gain_per_cost", "rank_per_cost"] if has_costs else []),
        "refusal",
    ]


def rows_of(base: Worth, trials: Iterable[Trial], by: str, costs: Costs | None = None) -> list[Row]:
    """Returns the rows (lists, as in `heads`) of a table: the model as it is, then its changes, the best first. A gain is how much more throughput,
    or how many ticks or jobs less; ranks count from 1, and equal gains have one rank. Changes are in order of the rank by one of FIGURES, or, with
    costs, by its gain per 1,000 units of cost; changes without a cost, and rejected ones, come last.

    >>> one, two = Worth(10.0, 50, 2.0, 0, 0), Worth(10.0, 40, 1.5, 0, 0)
    >>> for row in rows_of(one, [Trial("saw", "service", one), Trial("mill", "server", two)], "p90"):
    ...     print(*row[:-1])
     as it is 10.0 50 2.0 0 0 None None None None None None
    mill server 10.0 40 1.5 0 0 0.0 10 0.5 1 1 1
    saw service 10.0 50 2.0 0 0 0.0 0 0.0 1 2 2
    """
    tried = list(trials)
    gains = {name: [_gain(base, it.worth, name) for it in tried] for name in FIGURES}
    ranks = {name: _ranks(gains[name]) for name in FIGURES}
    prices = [None if costs is None else costs.get((it.station, it.what), costs.get(("*", it.what))) for it in tried]
    per_cost = [None if gain is None or price is None else round(gain * UNITS / float(price), 6) for gain, price in zip(gains[by], prices)]
    cost_ranks = _ranks(per_cost)
    made: list[tuple[float, float, Row]] = []
    for at, it in enumerate(tried):
        row: Row = [it.station, it.what, *_figures(it.worth), *(gains[name][at] for name in FIGURES), *(ranks[name][at] for name in FIGURES)]
        if costs is not None:
            price = prices[at]
            row += [None if price is None else float(price), per_cost[at], cost_ranks[at]]
        first, second = (inf if rank is None else rank for rank in (ranks[by][at] if costs is None else cost_ranks[at], ranks[by][at]))
        made.append((first, second, [*row, it.refusal]))
    missing: Row = [None] * (7 if costs is None else 10)
    return [["", "as it is", *_figures(base), *missing], *(row for _, _, row in sorted(made, key=lambda item: item[:2]))]


def _figures(worth: Worth | None) -> Row:
    return [None] * 5 if worth is None else [*worth]


def _gain(base: Worth, mine: Worth | None, name: str) -> float | None:
    """Returns how much better a figure is than that of the model as it is; None if either is missing."""
    one, other = (None if it is None else {"throughput": it.throughput, "p90": it.p90, "wip": it.wip}[name] for it in (base, mine))
    if one is None or other is None:
        return None
    return round(other - one if name == "throughput" else one - other, 4)


def _ranks(gains: Sequence[float | None]) -> list[int | None]:
    """Returns the rank of each gain, from 1 for the greatest; equal ones have the same. None for a missing one."""
    return [None if gain is None else 1 + sum(other > gain for other in gains if other is not None) for gain in gains]


def per_of(tick: int | None) -> tuple[str, int]:
    """Returns what throughput is counted per: the name of its column, and the number of ticks, for the length of a tick (int, nanoseconds; None if it
    isn't known).

    >>> per_of(10**9), per_of(None)
    (('per_hour', 3600), ('per_1000_ticks', 1000))
    """
    return ("per_hour", HOUR // tick) if tick is not None and HOUR % tick == 0 else ("per_1000_ticks", 1000)
