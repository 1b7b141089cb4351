"""Draws other traces from the days of one: each day is replaced by one that could have come in its place."""

from __future__ import annotations

import random
from bisect import bisect_right
from typing import TYPE_CHECKING, Dict, List, Tuple

from ..times.calendar import days_until
from ..times.texts import DAY, WEEKDAYS, moment
from .scale import Walls
from .trace import Trace

if TYPE_CHECKING:
    from ..times.calendar import Calendar


class Days:
    """The days of a trace, from that of its first record to that of its last, and the days that may replace each: all of the same weekday, or, with
    `within` "any", all of them. Days without records count. Raises ValueError for weekdays without dates, and if the times aren't ticks.

    >>> from mpsim.times.calendar import Calendar
    >>> rows = [["door", str(time)] for time in (10, 86400 + 20, 86400 + 30)]
    >>> days = Days(Trace("t.csv", ["source", "time"], rows), Calendar(10**9), "any")
    >>> days.resampled(7, 1).times(), days.resampled(7, 2).times()
    ([10, 86410], [20, 30, 86410])
    """

    def __init__(self, trace: Trace, calendar: "Calendar", within: str = "weekday") -> None:
        if within == "weekday" and not calendar.is_dated:
            raise ValueError("weekdays need the date of time 0: give --start, or --within any")
        self.trace, self.walls = trace, Walls(calendar)
        times = trace.times()
        days_until(calendar, max(times, default=0))
        found = list(calendar.midnights(max(times, default=0)))
        if calendar.working:
            # A day without working time replaces no other, and isn't replaced.
            found = [day for day in found if calendar.tick_at(day[1]) < calendar.tick_at(day[2])]
        begins = [calendar.tick_at(begin) for _, begin, _ in found]
        self.numbers = [day for day, _, _ in found]
        self.records: List[List[int]] = [[] for _ in found]
        for at in sorted(range(len(times)), key=times.__getitem__):
            self.records[bisect_right(begins, times[at]) - 1].append(at)
        # Days before the first record aren't days of the trace.
        first = next((at for at, records in enumerate(self.records) if records), 0)
        del self.numbers[:first], self.records[:first]
        self.clock = [self.walls.of(time) for time in times]
        self.groups: Dict[str, List[int]] = {}
        self.names = [WEEKDAYS[moment(day * DAY).weekday()] if within == "weekday" else "any" for day in self.numbers]
        for at, name in enumerate(self.names):
            self.groups.setdefault(name, []).append(at)

    def drawn(self, seed: int, number: int) -> List[int]:
        """Returns which day replaces each day (list of int, from 0) in the trace of this number, with this seed. It doesn't depend on how many traces
        are drawn."""
        draw = random.Random(f"{seed}:{number}")
        return [draw.choice(self.groups[name]) for name in self.names]

    def early(self) -> int:
        """Returns how many records, of the days that may replace the first one, have a time of day before time 0: the first day begins then.

        >>> from mpsim.times.calendar import Calendar
        >>> trace = Trace("t.csv", ["source", "time"], [["door", "10"], ["door", "70000"], ["door", "80000"]])
        >>> Days(trace, Calendar(10**9, "2026-03-02T12:00"), "any").early()
        2
        """
        if not self.numbers:
            return 0
        mine = self.groups[self.names[0]]
        return sum(self.clock[at] < (self.numbers[source] - self.numbers[0]) * DAY for source in mine for at in self.records[source])

    def resampled(self, seed: int, number: int) -> Trace:
        """Returns the trace of this number (int), with this seed: the records of the drawn days, in order of time, at their times of day. Records
        that would come before time 0 are left out (`early`)."""
        made: List[Tuple[int, int, int]] = []
        for place, source in enumerate(self.drawn(seed, number)):
            later = (self.numbers[place] - self.numbers[source]) * DAY
            made += [(self.walls.tick(self.clock[at] + later), place, at) for at in self.records[source] if self.clock[at] + later >= 0]
        rows = self.trace.rows
        return Trace(self.trace.path, self.trace.header, [[rows[at][0], str(time), *rows[at][2:]] for time, _, at in sorted(made)])
