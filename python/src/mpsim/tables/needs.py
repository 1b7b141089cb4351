"""Makes a table of the agents that are needed per interval."""

from __future__ import annotations

import math
from fractions import Fraction
from typing import TYPE_CHECKING

from ..agents.staffing import Goal, Interval, erlang_c
from ..node_visits import percentile_of
from ..times.intervals import label
from ..times.texts import SECOND

if TYPE_CHECKING:
    from collections.abc import Iterator, Sequence

    from ..shapes import Row

HEADS = "from", "days", "calls", "handling_time", "agents", "rostered", "within", "p90", "occupancy", "erlang_c"


def rows_of(
    found: Sequence[Interval], count: int, every: int, tick: int, goal: Goal, shrinkage: Fraction = Fraction(0), by_queue: bool = False
) -> Iterator[Row]:
    """Yields a row (list, as in HEADS) for each Interval of so many days (int) that has calls or agents: the time of day; the days; per day, the
    calls to two decimals; their mean handling time in seconds; the agents needed, and rostered with this shrinkage (Fraction); the share served
    within the goal's time; the 90th percentile of the waits in seconds; the occupancy; and the number of agents by Erlang's formula. None if there is
    no value. With `by_queue` the queue follows the time of day: "all", and then each queue with its calls and the time of its own goal, if it has
    one; it has no agents of its own."""
    for number, it in enumerate(found):
        if not it.calls and not it.agents:
            continue
        name, handling = label(number, every), it.service / it.calls if it.calls else None
        erlang = None
        if handling is not None and goal.is_for_all():
            erlang = erlang_c(it.calls / count, handling, every / tick, goal.share, goal.within)
        occupancy = round(it.worked / it.there, 4) if it.there else None
        many = [it.agents, math.ceil(it.agents / (1 - shrinkage))]
        front, within = _figures(it.calls, it.service, it.waits, count, tick, goal.within_of(None))
        yield [name, *(["all"] if by_queue else []), *front, *many, *within, occupancy, erlang]
        for queue, mine in it.queues.items() if by_queue else ():
            front, within = _figures(*mine, count, tick, goal.within_of(queue))
            yield [name, queue, *front, None, None, *within, None, None]


def _figures(calls: int, service: int, waits: Sequence[int], count: int, tick: int, within: int | None) -> tuple[Row, Row]:
    """Returns the figures of some calls (lists): the days, the calls per day and their handling time; the share within these ticks, and the 90th
    percentile of the waits."""
    handling = round(service / calls * tick / SECOND, 1) if calls else None
    share = round(sum(wait <= within for wait in waits) / calls, 4) if calls and within is not None else None
    p90 = round(percentile_of(sorted(waits), 90) * tick / SECOND, 1) if waits else None
    return [count, round(calls / count, 2), handling], [share, p90]
