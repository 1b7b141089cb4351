"""Reports waits by hour of day, by day, by weekday or hour by hour."""

from __future__ import annotations

from bisect import bisect_right
from collections import defaultdict
from typing import TYPE_CHECKING

from ..times.calendar import days_until
from ..times.texts import WEEKDAYS
from .service import PERCENTS, figures_of, heads

if TYPE_CHECKING:
    from collections.abc import Iterator, Sequence

    from ..node_visits import NodeVisits
    from ..shapes import Row
    from ..times.calendar import Calendar


def hours(visits: NodeVisits, days: Calendar, by: str = "hour", within: Sequence[int] = (20,), percents: Sequence[float] = PERCENTS) -> Iterator[Row]:
    """Yields the header and the rows (lists) of a table of visits (NodeVisits): a row per part of a Calendar, with the `figures` of the
    visits that arrived in it. `by` is "hour" (of day), "day", "weekday" or "each" (hour of each day). Parts without arrivals are omitted. Raises
    ValueError if the times are too large for this calendar.

    >>> import mpsim
    >>> from mpsim.times.calendar import Calendar
    >>> from mpsim.tables.hours import hours
    >>> trace = [("door", 0, 100), ("door", 50, 1), ("door", 3600, 1)]
    >>> visits = mpsim.run("model 1\\nsource door\\nserver desk d from door\\n", trace, jobs=True).visits
    >>> for row in hours(visits["desk"], Calendar(10**9), percents=[90]):
    ...     print(*row)
    hour came departed lost held mean_wait p90 max within_20_of_all within_20_of_departed
    00:00 2 2 0 0 25.0 50 50 0.5 0.5
    01:00 1 1 0 0 0.0 0 0 1.0 1.0
    """
    last = max(visits.arrive, default=0)
    days_until(days, last)
    begins, names = days.parts(by, last)
    # The hours of a day, and the weekdays, have one row each.
    every = sorted(set(names), key=WEEKDAYS.index if by == "weekday" else None) if by in ("hour", "weekday") else names
    place = {name: at for at, name in enumerate(every)} if by in ("hour", "weekday") else {}
    waits: dict[int, list[int]] = defaultdict(list)
    for arrive, wait in zip(visits.arrive, visits.raw_wait):
        part = bisect_right(begins, arrive) - 1
        waits[place[names[part]] if place else part].append(wait)
    yield ["hour" if by == "each" else by, *heads(within, percents)]
    for at in sorted(waits):
        yield [every[at], *figures_of(visits, waits[at], within, percents)]
