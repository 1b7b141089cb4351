"""Makes a table of what a group of agents did per interval of the day."""

from __future__ import annotations

from bisect import bisect_right
from typing import TYPE_CHECKING

from ..limits import FOREVER
from ..node_visits import percentile_of
from ..times.intervals import Kinds
from ..times.texts import SECOND

if TYPE_CHECKING:
    from collections.abc import Iterator, Sequence

    from ..agents.groups import Agent
    from ..shapes import Row
    from ..times.intervals import Day

# The names of the kind of an interval come first (`mpsim.times.intervals.Kinds`).
HEADS = "queue", "offered", "answered", "abandoned", "within", "mean_wait", "p90", "agents", "occupancy"


class Table:
    """What a group did per interval of the day, over all days (list of Day), or of each weekday: from the calls (sequences of queue, arrival,
    service, agent and wait, in ticks) and the agents (list of Agent). Raises ValueError for weekdays without dates."""

    cells: dict[tuple[int, str], list[tuple[int, int]]]
    used: set[int]

    def __init__(
        self,
        days: Sequence[Day],
        calls: tuple[Sequence[str], Sequence[int], Sequence[int], Sequence[int], Sequence[int]],
        agents: Sequence[Agent],
        within: int,
        by_weekday: bool = False,
    ) -> None:
        self.within, self.kinds = within, Kinds(days, by_weekday)
        # Of each interval of each day, the ticks at which it begins and ends, and its kind.
        self.begins = [tick for day in days for tick in day.begins[:-1]]
        self.ends = [tick for day in days for tick in day.begins[1:]]
        self.kind = [self.kinds.of(day, number) for day in days for number in range(self.kinds.each)]
        self.there, self.worked, self.cells = [0] * self.kinds.count, [0] * self.kinds.count, {}
        # The intervals of days, by their place among all, in which there is an agent or a call.
        self.used = set()
        end = days[-1].begins[-1]
        for agent in agents:
            for begin, until in agent.intervals:
                self._spread(self.there, begin, min(until, end))
        for queue, arrive, service, who, wait in zip(*calls):
            at = bisect_right(self.begins, arrive) - 1
            self.used.add(at)
            self.cells.setdefault((self.kind[at], queue), []).append((who, wait))
            if who:
                begin, until = arrive + wait, arrive + wait + service
                for first, last in agents[who - 1].intervals:
                    self._spread(self.worked, max(begin, first), min(until, last, end))

    def _spread(self, sums: list[int], begin: int, end: int) -> None:
        """Adds the ticks from `begin` to `end` to the intervals in which they are."""
        at = bisect_right(self.begins, begin) - 1
        while begin < end:
            until = min(end, self.begins[at + 1] if at + 1 < len(self.begins) else FOREVER)
            sums[self.kind[at]] += until - begin
            self.used.add(at)
            begin, at = until, at + 1

    def rows(self, every: int, tick: int) -> Iterator[Row]:
        """Yields the header and a row (lists, as in HEADS) per interval with calls or agents, for the length of intervals and of a tick (int,
        nanoseconds): the weekday, if it is by weekday; the time of day; the queue, "all" or its name; how many calls were offered, answered and
        abandoned; the share of all that was answered within `within` ticks; the mean wait and the 90th percentile of those answered, in seconds; the
        mean number of agents, over the days with an agent or a call in the interval; and the share of their time that they worked."""
        yield [*self.kinds.heads, *HEADS]
        queues, spans = sorted({queue for _, queue in self.cells}), [0] * self.kinds.count
        for at in self.used:
            spans[self.kind[at]] += self.ends[at] - self.begins[at]
        for number in range(self.kinds.count):
            mine = {queue: self.cells.get((number, queue), []) for queue in queues}
            every_call = [it for calls in mine.values() for it in calls]
            if every_call or self.there[number]:
                names = self.kinds.names(number, every)
                agents = round(self.there[number] / spans[number], 2) if spans[number] and any(self.there) else None
                occupancy = round(self.worked[number] / self.there[number], 4) if self.there[number] else None
                yield [*names, "all", *self._figures(every_call, tick), agents, occupancy]
                if len(queues) > 1:
                    yield from ([*names, queue, *self._figures(calls, tick), None, None] for queue, calls in mine.items() if calls)

    def _figures(self, calls: Sequence[tuple[int, int]], tick: int) -> Row:
        waits = sorted(wait for agent, wait in calls if agent)
        share = round(bisect_right(waits, self.within) / len(calls), 4) if calls else None
        mean, p90 = (round(sum(waits) / len(waits) * tick / SECOND, 1), round(percentile_of(waits, 90) * tick / SECOND, 1)) if waits else (None, None)
        return [len(calls), len(waits), len(calls) - len(waits), share, mean, p90]
