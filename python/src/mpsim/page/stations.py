"""Computes, in time intervals of one width, the number in each station, how busy it is, and the network's throughput, from the visits of a report."""

from __future__ import annotations

from array import array
from collections import Counter
from typing import TYPE_CHECKING

from ..agents.pools import gone_name, pools, with_pools
from ..model import nodes_of
from ..node_visits import HELD, LOST
from .pictures import means_of, width_of

if TYPE_CHECKING:
    from collections.abc import Iterable, Mapping, Sequence
    from fractions import Fraction

    from ..lines import Node
    from ..node_visits import NodeVisits
    from ..report import Report

# The limit of numbers for the stations of all runs of a page, and the maximum and the minimum of intervals.
NUMBERS, MOST, LEAST = 8000, 144, 24
# At a server or a loss station with one server, and at several servers that share a queue, service is the end of a visit.
ENDS_WITH_SERVICE = "server", "loss", "trunk", "pool"


def intervals_for(stations: int, runs: int) -> tuple[int, int]:
    """Returns about how many intervals each station gets, and for how many runs of a page (two int), so that the page stays small.

    >>> intervals_for(6, 1), intervals_for(63, 1), intervals_for(10, 100)
    ((144, 1), (63, 1), (24, 16))
    """
    each = NUMBERS // (2 * max(stations, 1) * runs)
    return (min(MOST, each), runs) if each >= LEAST else (LEAST, max(1, NUMBERS // (2 * stations * LEAST)))


def servers_of(node: Node, span: int) -> int | None:
    """Returns the number of servers (int) of a Node in which service is the end of a visit; None for another, and if the figures of its line leave it
    open. `span` is that of the report (int, ticks).

    >>> import mpsim
    >>> report = mpsim.run("model 2\\nsource s\\ntrunk t 3 =5 from s\\n", [("s", 0), ("s", 1)])
    >>> servers_of(report["t"], report.span), servers_of(report["s"], report.span)
    (3, None)
    """
    if node.kind not in ENDS_WITH_SERVICE or node.util is None:
        return None
    if node.kind in ("server", "loss"):
        return 1
    # The report cuts the utilisation off after four decimals: the greatest and the least number of servers that give it.
    share = round(10**4 * node.util)
    most = 10**4 * node.busy // (share * span) if share else 0
    return most if most and 10**4 * node.busy // ((share + 1) * span) + 1 == most else None


def _busy(visits: NodeVisits, servers: int, span: int, width: int) -> list[float]:
    """Returns the utilisation in each interval."""
    served = [(arrive + wait, depart) for arrive, wait, depart in zip(visits.arrive, visits.raw_wait, visits.raw_depart) if wait >= 0]
    begins, ends = (array("q", sorted(it[at] for it in served)) for at in (0, 1))
    return [it / servers for it in means_of(begins, ends, span, width)]


def _there(visits: NodeVisits, span: int, width: int) -> list[float]:
    """Returns the mean number in a station in each interval. Lost visits are never there, held ones stay to the end."""
    begins = array("q", (arrive for arrive, wait in zip(visits.arrive, visits.raw_wait) if wait != LOST))
    ends = array("q", sorted(span if wait == HELD else depart for depart, wait in zip(visits.raw_depart, visits.raw_wait) if wait != LOST))
    return means_of(begins, ends, span, width)


def _short(value: float) -> float:
    """Returns a figure to three digits, as an int if it is whole."""
    short = float(f"{value:.3g}")
    return int(short) if short == int(short) else short


def _counts(times: Iterable[int], width: int, count: int) -> list[int]:
    """Returns how many of these times (int, ticks) are in each of `count` intervals; the last has the end of the run too."""
    found = Counter(time // width for time in times)
    return [found[at] for at in range(count - 1)] + [found[count - 1] + found[count]]


def throughput(report: Report, width: int) -> dict[str, list[int]] | None:
    """Returns how many jobs came into the network, left it, and left it without service (`lost`), in time intervals of one width (int, ticks), the
    last of which ends with the span; None if the report doesn't show it: with a fork or a join it needs the model.

    >>> import mpsim
    >>> report = mpsim.run("model 1\\nsource s\\nserver d =4 from s\\n", [("s", 0), ("s", 1)], jobs=True)
    >>> throughput(report, 5)
    {'came': [2, 0], 'left': [1, 1], 'lost': [0, 0]}
    """
    count, model = -(-report.span // width), {it.name: it for it in nodes_of(report.model)} if report.model else {}
    came, all_left, lost = [0] * count, [0] * count, [0] * count
    exits, gone = {(it.name, it.output) for it in report.exits}, {gone_name(pool) for pool in pools(report)}
    for node in report.nodes:
        if node.kind in ("fork", "join") and node.name not in model:
            return None
        visits = report.visits.get(node.name)
        if not visits:
            continue
        away = _counts((arrive for arrive, wait in zip(visits.arrive, visits.raw_wait) if wait == LOST), width, count)
        ends = _counts((depart for depart, wait in zip(visits.raw_depart, visits.raw_wait) if wait >= 0), width, count)
        arrivals = _counts(visits.arrive, width, count)
        # Each job on an output is at once on its way to the node that reads it, or has left.
        parts = model[node.name].outputs if node.kind == "fork" else 1
        whole = len(model[node.name].inputs) if node.kind == "join" else 1
        for at in range(count):
            all_left[at] += ends[at] * parts // whole + away[at] - (0 if node.kind == "source" else arrivals[at])
            came[at] += arrivals[at] if node.kind == "source" else 0
            lost[at] += away[at] if (node.name, 1) in exits else ends[at] if node.name in gone and (node.name, 0) in exits else 0
    if sum(all_left) != sum(it.jobs for it in report.exits):
        return None
    return {"came": came, "left": [it - away for it, away in zip(all_left, lost)], "lost": lost}


def stations_of(report: Report, stays: Mapping[str, NodeVisits], count: int, tick: float | Fraction | None = None) -> dict[str, object] | None:
    """Returns the stations of a report over time, in about `count` intervals (int) of one `width` (int, ticks), the last of which ends with the span:
    the `throughput`, and per station its name, the mean number in it (`number`) and its utilisation in percent (`busy`; None if visits don't show
    it). A pool is one station. `stays` are the visits that `stays_of` returns, `tick` the seconds per tick, if known. None without visits or span.
    """
    nodes = [it for it in with_pools(report).values() if it.name in stays]
    if not nodes or not report.span:
        return None
    width = width_of(report.span, count, tick)
    found: list[dict[str, object]] = []
    for node in nodes:
        servers = servers_of(node, report.span)
        number = [_short(it) for it in _there(stays[node.name], report.span, width)]
        busy = None if servers is None else [_short(100 * it) for it in _busy(stays[node.name], servers, report.span, width)]
        found.append({"name": node.name, "number": number, "busy": busy})
    return {"width": width, "through": throughput(report, width), "stations": found}


def station_names(report: Report, stays: Mapping[str, NodeVisits]) -> Sequence[str]:
    """Returns the names of the stations (sequence of str): the nodes, with a pool as one, where jobs can stay."""
    return [name for name in with_pools(report) if name in stays]
