"""Compares how the units of an event log passed a line with how the jobs of a model pass it: time in each station, throughput, lead time."""

from __future__ import annotations

from bisect import bisect_right
from collections import Counter
from typing import TYPE_CHECKING, NamedTuple

from ..agents.pools import pooled, queue_name
from ..model import nodes_of
from ..node_visits import percentile_of
from ..times.calendar import days_until
from ..wording import counted, listed
from .sojourns import ways

if TYPE_CHECKING:
    from collections.abc import Iterable, Iterator, Mapping, Sequence
    from typing import Dict, List

    from ..exports.events import Passage
    from ..model import ModelNode
    from ..report import Report
    from ..shapes import Row
    from ..times.calendar import Calendar
    from ..traces.trace import Trace

    # Times (list of int, ticks) by a name.
    Times = Dict[str, List[int]]

HEADS = "of", "name", "figure", "log", "model", "gap", "log_count", "model_count"
PERCENTS = 50, 90


class Limits(NamedTuple):
    """When a model is trusted: how far the percentiles of the lead time may differ, those of the time in a station, and the number of units that
    leave in a shift (shares of what the log has, float); and how many units a product, a station or a shift needs to be judged (int). A time in a
    station may always differ by `least` of the median lead time."""

    lead: float = 0.1
    station: float = 0.2
    shift: float = 0.1
    units: int = 20
    least: float = 0.02


class Sides(NamedTuple):
    """What one side shows, the log or the model: times in stations by node, lead times by product (dicts of lists of int, ticks), and the ticks at
    which units left (list of int)."""

    stations: Times
    leads: Times
    left: List[int]


def places_of(text: str) -> dict[str, list[str]]:
    """Returns the columns of service times (list of str) of each node of a model's text that has some, by the name of the node. A pool is one node.

    >>> places_of("model 1\\nsource in\\ntandem line cut / 4 =0 / 4 mill from in\\nserver pack =9 from line\\nloss oven 3 bake from pack\\n")
    {'line': ['cut', 'mill'], 'oven': ['bake']}
    """
    nodes = {node.name: node for node in nodes_of(text)}
    found: dict[str, list[str]] = {}
    for node in nodes.values():
        words = [word for word in node.arguments.split() if word[0].isalpha()]
        is_queue = node.kind == "delay" and node.name.endswith(queue_name("")) and words == [f"{_pool(node)}_wait"] and _pool(node) in nodes
        if node.kind not in ("split", "fork", "join", "source") and words and not is_queue:
            found[node.name] = words
    return found


def _pool(node: ModelNode) -> str:
    return node.name[: -len(queue_name(""))]


def of_log(
    passages: Iterable[Passage], places: Mapping[str, Sequence[str]], zero: int, tick: int, products: Mapping[int, str], product: str | None
) -> Sides:
    """Returns the Sides of a log, from the Passage of each unit, in the time that counts from `zero` on, with a tick (int, in its unit).

    The time in a station begins when the unit leaves the station before, or arrives, and ends when its last service there ends. `places` are the
    columns of each node; `products` the texts of the codes in the column `product`, if any. Units that gave up don't count."""
    of = {column: node for node, columns in places.items() for column in columns}
    stations: dict[str, list[int]] = {node: [] for node in places}
    leads: dict[str, list[int]] = {"all": []}
    left = []
    for unit in passages:
        if unit.abandoned:
            continue
        before, ended = unit.arrival, unit.arrival
        last: str | None = None
        stays: dict[str, int] = {}
        for column, _, end in unit.visits:
            node = of.get(column, f"/{column}")
            if node != last:
                before, last = ended, node
            ended = max(ended, end)
            stays[node] = ended - before
        for node, stay in stays.items():
            if node in stations:
                stations[node].append(_ticks(stay, tick))
        lead = _ticks(ended - unit.arrival, tick)
        leads["all"].append(lead)
        if product is not None:
            leads.setdefault(products.get(unit.codes[product], str(unit.codes[product])), []).append(lead)
        left.append((ended - zero) // tick)
    return Sides(stations, leads, left)


def _ticks(length: int, tick: int) -> int:
    return (2 * length + tick) // (2 * tick)


def of_model(report: Report, places: Mapping[str, Sequence[str]], trace: Trace, products: Mapping[int, str], product: str | None) -> Sides:
    """Returns the Sides of a report with visits. The time in a node is that from the arrival there to the departure; a job whose services there are
    all 0 ticks doesn't count, as it is a unit that skips the station. Lost jobs, and those that a join holds to the end, don't count."""
    kinds = report.by_name
    stations: dict[str, list[int]] = {}
    for node, columns in places.items():
        needs = [max(values) for values in zip(*(trace.numbers(column) for column in columns))]
        is_pool = kinds[node].kind == "trunk" and queue_name(node) in kinds and kinds[queue_name(node)].kind == "delay"
        visits = pooled(report, node) if is_pool else report.visits[node]
        stays = zip(visits.job, visits.arrive, visits.raw_wait, visits.raw_depart)
        stations[node] = [depart - arrive for job, arrive, wait, depart in stays if wait >= 0 and needs[job - 1]]
    leads: dict[str, list[int]] = {"all": []}
    codes = trace.numbers(product) if product is not None else []
    every, left = ways(report), []
    for job, came, end, sojourn in zip(every.job, every.came, every.end, every.sojourn):
        if end % 2 == 0:
            leads["all"].append(sojourn)
            left.append(came + sojourn)
            if codes:
                leads.setdefault(products.get(codes[job - 1], str(codes[job - 1])), []).append(sojourn)
    return Sides(stations, leads, left)


def shifts_of(days: Calendar, last: int, by: str) -> tuple[list[int], list[str]]:
    """Returns the ticks at which shifts begin (list of int, rising) and their names, up to tick `last`: stretches of working time ("shift"), days
    ("day") or hours ("hour"). Raises ValueError if the times are too large for this calendar."""
    days_until(days, last)
    if by != "shift":
        return days.parts("each" if by == "hour" else "day", last)
    begins = [tick for tick, _ in days.stretches(last)]
    return begins, [days.shown(tick)[:16].replace("T", " ") for tick in begins]


def rows_of(log: Sides, model: Sides, shifts: tuple[Sequence[int], Sequence[str]]) -> list[Row]:
    """Returns the rows (lists, as in HEADS) of a table: the lead time of all units and of each product, the time in each station, and how many units
    left in each shift. A gap is the share by which the model has more; None without a figure of the log.

    >>> one, two = Sides({"saw": [4, 6]}, {"all": [9, 9]}, [3, 5, 12]), Sides({"saw": [5, 9]}, {"all": [9, 18]}, [3, 11, 12])
    >>> for row in rows_of(one, two, ([0, 10], ["Monday", "Tuesday"])):
    ...     print(*row)
    lead time all p50 9 9 0.0 2 2
    lead time all p90 9 18 1.0 2 2
    station saw p50 4 5 0.25 2 2
    station saw p90 6 9 0.5 2 2
    shift Monday left 2 1 -0.5 2 1
    shift Tuesday left 1 2 1.0 1 2
    """
    made: list[Row] = []
    for of, mine, other in ("lead time", log.leads, model.leads), ("station", log.stations, model.stations):
        for name in [*mine, *(name for name in other if name not in mine)]:
            one, two = sorted(mine.get(name, [])), sorted(other.get(name, []))
            for percent in PERCENTS:
                figures = [percentile_of(it, percent) if it else None for it in (one, two)]
                made.append([of, name, f"p{percent}", *figures, _gap(*figures), len(one), len(two)])
    begins, names = shifts
    counts = [Counter(bisect_right(begins, tick) - 1 for tick in side.left) for side in (log, model)]
    for number, name in enumerate(names):
        both = [count[number] for count in counts]
        if any(both):
            made.append(["shift", name, "left", *both, _gap(*both), *both])
    return made


def _gap(one: int | None, other: int | None) -> float | None:
    return None if not one or other is None else round((other - one) / one, 4)


def _judged(rows: Sequence[Row], limits: Limits) -> Iterator[tuple[Row, bool]]:
    """Yields the rows that have units enough to be judged, and whether their gap is within the limits."""
    median = next((row[3] for row in rows if row[:3] == ["lead time", "all", "p50"]), None)
    least = limits.least * median if isinstance(median, int) else 0
    bounds = {"lead time": limits.lead, "station": limits.station, "shift": limits.shift}
    for row in rows:
        of, one, other, gap, count = row[0], row[3], row[4], row[5], row[6]
        if not isinstance(count, int) or count < limits.units or not isinstance(one, int):
            continue
        missing = not isinstance(other, int) or not isinstance(gap, float)
        is_near = of == "station" and isinstance(other, int) and abs(other - one) <= least
        yield row, not missing and (is_near or isinstance(gap, float) and abs(gap) <= bounds[str(of)])


def verdict(rows: Sequence[Row], limits: Limits = Limits()) -> str:
    """Returns a line (str) that says whether a model may be trusted, and why not, from rows as in HEADS.

    >>> rows = [["lead time", "all", "p50", 100, 104, 0.04, 50, 50], ["station", "saw", "p90", 40, 52, 0.3, 50, 50]]
    >>> verdict(rows)
    'the model may not be trusted: station saw p90 +30.0 % (20 % allowed)'
    >>> verdict(rows[:1])
    'the model may be trusted: lead times differ by at most 10 %, times in stations by 20 %, shifts by 10 %'
    """
    judged = list(_judged(rows, limits))
    bounds = {"lead time": limits.lead, "station": limits.station, "shift": limits.shift}
    far = [row for row, is_fine in judged if not is_fine]
    if not any(row[0] == "lead time" for row, _ in judged):
        return f"it can't be said whether the model may be trusted: the log has fewer than {counted(limits.units, 'unit')} (--trust-units)"
    if not far:
        lead, station, shift = (_percent(share) for share in (limits.lead, limits.station, limits.shift))
        allowed = f"lead times differ by at most {lead}, times in stations by {station}, shifts by {shift}"
        return f"the model may be trusted: {allowed}"
    parts = []
    for of, bound in bounds.items():
        mine = [row for row in far if row[0] == of]
        if mine:
            row = max(mine, key=lambda it: abs(it[5]) if isinstance(it[5], float) else float("inf"))
            gap = f"{100 * row[5]:+.1f} %" if isinstance(row[5], float) else "isn't in the model"
            every = sum(it[0] == of for it, _ in judged)
            more = f"; {len(mine)} of {every} figures of {of}s are further apart" if len(mine) > 1 else ""
            parts.append(f"{of} {row[1]}{'' if of == 'shift' else f' {row[2]}'} {gap} ({_percent(bound)} allowed{more})")
    return f"the model may not be trusted: {', '.join(parts)}"


def _percent(share: float) -> str:
    return f"{100 * share:g} %"


def unmatched(passages: Sequence[Passage], places: Mapping[str, Sequence[str]], text: str) -> list[str]:
    """Returns lines (list of str) on stations of a log that no node of a model's text has, on nodes that the log doesn't have, and on units that gave
    up."""
    there = Counter(column for unit in passages for column, _, _ in unit.visits)
    of = {column for columns in places.values() for column in columns}
    told = []
    if lacking := [column for column in there if column not in of]:
        told.append(f"no node of the model has the service of {listed(lacking)}: their times aren't compared, and count in the lead time only")
    if absent := [node for node, columns in places.items() if not any(column in there for column in columns)]:
        told.append(f"the log has no station for {listed(absent)}")
    fixed = [node.name for node in nodes_of(text) if node.kind not in ("split", "fork", "join", "source") and node.name not in places]
    fixed = [name for name in fixed if not (name.endswith(queue_name("")) and name[: -len(queue_name(""))] in places)]
    if fixed:
        told.append(f"no column of services at {listed(fixed)}: the log can't be compared there")
    if gone := sum(unit.abandoned for unit in passages):
        told.append(f"{counted(gone, 'unit')} gave up, and {'is' if gone == 1 else 'are'} left out")
    return told
