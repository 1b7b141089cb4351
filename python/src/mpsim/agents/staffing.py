"""Finds the least number of agents for each interval of a day that reaches a service level.

The agents who are available in an interval are the first ones of a roster; each serves calls by the rules of `mpsim.agents`. The calls are the
recorded ones, so what is found holds for them. It is tested, not proved."""

from __future__ import annotations

import math
from bisect import bisect_left
from fractions import Fraction
from typing import TYPE_CHECKING, Dict, List, Mapping, NamedTuple, Optional, Tuple

from .groups import FIRST, Agent, Group

if TYPE_CHECKING:
    from collections.abc import Callable, Sequence

    from ..times.intervals import Span

    SpanCalls = Tuple[Span, List[List["Waiting"]]]


class Goal(NamedTuple):
    """A service level: at least `share` (Fraction) of the calls are served within `within` (int, ticks). If `occupancy` (Fraction) isn't None, agents
    work at most this share of their time. `queues` has levels of single queues (pairs of a share and ticks, by name); if it has any, a `share` of 0
    means that all calls together have none.

    >>> from fractions import Fraction
    >>> from mpsim.agents.staffing import Goal
    >>> Goal(Fraction(4, 5), 20)
    Goal(share=Fraction(4, 5), within=20, occupancy=None, queues={})
    """

    share: Fraction
    within: int
    occupancy: Optional[Fraction] = None
    queues: Mapping[str, Tuple[Fraction, int]] = {}

    def is_for_all(self) -> bool:
        """Returns whether all calls together have a level."""
        return not self.queues or self.share > 0

    def times(self, queue: str) -> List[Tuple[Optional[str], int]]:
        """Returns the levels that a call of a queue counts in: pairs of the queue, or None for that of all calls, and the ticks.

        >>> Goal(Fraction(4, 5), 20, None, {"sales": (Fraction(9, 10), 10)}).times("sales")
        [(None, 20), ('sales', 10)]
        """
        own = [(queue, self.queues[queue][1])] if queue in self.queues else []
        return [(None, self.within), *own] if self.is_for_all() else [*own]

    def within_of(self, queue: Optional[str]) -> Optional[int]:
        """Returns the ticks within which calls of a queue, or all calls, are to be served (int; None if no level says it)."""
        if queue is not None and queue in self.queues:
            return self.queues[queue][1]
        return self.within if self.is_for_all() else None


class Interval(NamedTuple):
    """What is found for an interval: the number of agents (int); how many calls arrive in it (int), the ticks of service that they bring (int), and
    the waits of those that are served (list of int, ticks); the ticks that agents work in it, and those that they are there (int); and the calls, the
    service and the waits of each queue (tuples, by name)."""

    agents: int
    calls: int
    service: int
    waits: List[int]
    worked: int
    there: int
    queues: Dict[str, Tuple[int, int, List[int]]] = {}

    def within(self, ticks: int) -> float | None:
        """Returns the share of calls that are served within this many ticks (float; None without calls)."""
        return sum(wait <= ticks for wait in self.waits) / self.calls if self.calls else None


class Waiting(NamedTuple):
    """A call that waits: the number of the interval in which it arrived, its arrival, service and patience (int, ticks; patience may be None), and
    the name of its queue (str)."""

    number: int
    arrive: int
    service: int
    patience: Optional[int]
    queue: str = ""


class _Passed(NamedTuple):
    """A day at the end of an interval: when agents end their calls (dict of place to tick), the calls that wait (list of Waiting), the waits of the
    calls that began in the interval (tuples of the number of an interval, ticks, and a queue), and the ticks that agents of the interval worked."""

    busy: Dict[int, int]
    waiting: List[Waiting]
    began: List[Tuple[int, int, str]]
    worked: int


def passed(
    before: _Passed, number: int, bounds: tuple[int, int], calls: list[Waiting], agents: int, last: int, priorities: Mapping[str, int] | None = None
) -> _Passed:
    """Returns a day at the end of an interval (_Passed) from one at its beginning, with the interval's number, its bounds, the calls that arrive in
    it (list of Waiting), its number of agents, the last tick of the day, and the priorities of queues, as `Group` takes them."""
    begin, end = bounds
    busy = {place: it for place, it in before.busy.items() if it > begin}
    last = max(begin, min(end, last))
    worked = sum(min(it, last) - begin for place, it in busy.items() if place <= agents)
    waiting = [*before.waiting, *calls]
    if not waiting:
        return _Passed(busy, [], [], worked)
    began, left = [], []
    free = [max(begin, busy.get(place, begin)) for place in range(1, agents + 1)]
    group = Group([Agent([(at, end)] if at < end else []) for at in free], priorities, FIRST)
    _, arrivals, services, patience, queues = zip(*waiting)
    for call, agent, wait in zip(waiting, *group.assigned(arrivals, services, queues if priorities else None, patience)):
        if agent:
            at = call.arrive + wait
            began.append((call.number, wait, call.queue))
            worked += max(0, min(at + call.service, last) - at)
            if at + call.service > busy.get(agent, 0):
                busy[agent] = at + call.service
        elif wait < 0 or call.arrive + wait >= end:
            left.append(call)
    return _Passed(busy, left, began, worked)


class Search:
    """Goes through the intervals of some days, which get the same numbers of agents, and chooses the least for each. `days` are pairs of a Span, such
    as a Day, and its calls (list, per interval, of lists of Waiting); `priorities` of queues are those that `Group` takes.

    Whether an interval reaches the goal may depend on the next one: callers who wait at its end may still be served in time. They count as served
    until the next number is chosen, which must keep to that. Enough agents always can, because all who wait are served when the next interval
    begins."""

    waits: list[list[int]]
    found: list[Interval]
    states: list[_Passed]
    hits: list[dict[str | None, int]]

    def __init__(self, days: Sequence[SpanCalls], goal: Goal, priorities: Mapping[str, int] | None = None) -> None:
        self.goal, self.days, self.priorities = goal, days, priorities
        self.bounds = [day.bounds() for day, _ in days]
        self.states = [_Passed({}, [], [], 0) for _ in days]
        self.calls = [sum(len(calls[number]) for _, calls in days) for number in range(len(self.bounds[0]))]
        names = {call.queue for _, calls in days for mine in calls for call in mine}
        # The levels that the calls of each queue count in.
        self.times = {name: goal.times(name) for name in names}
        self.wanted = [self._wanted(number) for number in range(len(self.calls))]
        self.waits = [[] for _ in self.calls]
        self.hits = [dict.fromkeys(wanted, 0) for wanted in self.wanted]
        # Per interval the waits of each queue.
        self.queues: list[dict[str, list[int]]] = [{} for _ in self.calls]
        self.found = []

    def _wanted(self, number: int) -> dict[str | None, Fraction]:
        """Returns how many calls of an interval are to be served in time, for each level that counts its calls."""
        counts: dict[str | None, int] = {}
        for call in (call for _, calls in self.days for call in calls[number]):
            for key, _ in self.times[call.queue]:
                counts[key] = counts.get(key, 0) + 1
        return {key: (self.goal.share if key is None else self.goal.queues[key][0]) * count for key, count in counts.items()}

    def step(self) -> None:
        """Chooses the number of agents of the next interval: the least, of at least one if there is a call to serve that has a level."""
        number = len(self.found)
        asks = self.wanted[number] or any(self.times[call.queue] for it in self.states for call in it.waiting)
        agents = max(1, self.found[-1].agents if self.found else 1) if asks else 0
        tried = self.tried(agents)
        if agents and self.holds(agents, tried):
            while agents > 1 and self.holds(agents - 1, less := self.tried(agents - 1)):
                agents, tried = agents - 1, less
        while agents and not self.holds(agents, tried):
            agents += 1
            tried = self.tried(agents)
        self.choose(number, agents, tried)

    def choose(self, number: int, agents: int, tried: list[_Passed]) -> None:
        """Sets the number of agents of the next interval, and each day at its end, which `tried` returned."""
        self.states = tried
        for it in tried:
            for at, wait, queue in it.began:
                self.waits[at].append(wait)
                for key, within in self.times[queue]:
                    self.hits[at][key] += wait <= within
                self.queues[at].setdefault(queue, []).append(wait)
        each: dict[str, tuple[int, int]] = {}
        for call in (call for _, calls in self.days for call in calls[number]):
            calls, service = each.get(call.queue, (0, 0))
            each[call.queue] = calls + 1, service + call.service
        queues = {name: (*each[name], self.queues[number].setdefault(name, [])) for name in sorted(each)}
        worked, service = sum(it.worked for it in tried), sum(service for _, service in each.values())
        self.found.append(Interval(agents, self.calls[number], service, self.waits[number], worked, self._there(number, agents), queues))

    def tried(self, agents: int) -> list[_Passed]:
        """Returns each day at the end of the next interval (list of _Passed), with this many agents in it."""
        number = len(self.found)
        every = zip(self.states, self.bounds, self.days)
        return [
            passed(state, number, bounds[number], calls[number], agents, day.begins[-1], self.priorities) for state, bounds, (day, calls) in every
        ]

    def _there(self, number: int, agents: int) -> int:
        return agents * sum(day.begins[number + 1] - day.begins[number] for day, _ in self.days)

    def holds(self, agents: int, tried: list[_Passed]) -> bool:
        """Returns whether these days keep to the goal: the next interval, and those before it from which calls still wait."""
        number = len(self.found)
        more: dict[tuple[int, str | None], int] = {}
        open_ = {number, *(call.number for state in self.states for call in state.waiting)}
        for it, bounds in zip(tried, self.bounds):
            end = bounds[number][1]
            for at, wait, queue in it.began:
                for key, within in self.times[queue]:
                    more[at, key] = more.get((at, key), 0) + (wait <= within)
            for call in it.waiting:
                for key, within in self.times[call.queue]:
                    more[call.number, key] = more.get((call.number, key), 0) + (end - call.arrive <= within)
        if any(self.hits[at][key] + more.get((at, key), 0) < count for at in open_ for key, count in self.wanted[at].items()):
            return False
        return self.goal.occupancy is None or sum(it.worked for it in tried) <= self.goal.occupancy * self._there(number, agents)

    def left(self) -> dict[str, int]:
        """Returns how many calls of each queue are never served and don't leave (dict of str to int)."""
        found: dict[str, int] = {}
        for call in (call for it in self.states for call in it.waiting):
            found[call.queue] = found.get(call.queue, 0) + 1
        return found


def searched(
    days: Sequence[SpanCalls], goal: Goal, progress: Callable[[int], object] | None = None, priorities: Mapping[str, int] | None = None
) -> Search:
    """Returns a Search that has chosen all numbers, whose `found` is what `least` returns. It takes what `least` takes."""
    search = Search(days, goal, priorities)
    for number in range(len(search.calls)):
        search.step()
        if progress:
            progress(number + 1)
    return search


def least(
    days: Sequence[SpanCalls], goal: Goal, progress: Callable[[int], object] | None = None, priorities: Mapping[str, int] | None = None
) -> list[Interval]:
    """Returns an Interval for each interval of a day: from the first to the last, the least number of agents with which the calls of all days
    together can reach a Goal in that interval and those before it, and at least one if there is a call to serve that has a level. `days` are pairs of
    a Span, such as a Day, and its calls (list, per interval, of lists of Waiting); `progress`, if given, is called with the number of intervals done;
    `priorities` of queues are those that `Group` takes.

    >>> from mpsim.times.calendar import Calendar
    >>> from mpsim.times.intervals import days_of
    >>> day, = days_of(Calendar(10**9), 0, 43200 * 10**9)
    >>> calls = [[Waiting(0, at, 60, None) for at in (0, 10, 20, 100)], []]
    >>> [it.agents for it in least([(day, calls)], Goal(Fraction(3, 4), 20))]
    [2, 0]
    """
    return searched(days, goal, progress, priorities).found


def with_numbers(days: Sequence[SpanCalls], goal: Goal, numbers: Sequence[int], priorities: Mapping[str, int] | None = None) -> list[Interval]:
    """Returns an Interval for each interval of a day, with these numbers of agents (list of int), whether they reach a Goal or not; `days` and
    `priorities` are those of `least`.

    >>> from mpsim.agents.staffing import Goal, Waiting, with_numbers
    >>> from mpsim.times.calendar import Calendar
    >>> from mpsim.times.intervals import days_of
    >>> day, = days_of(Calendar(10**9), 0, 43200 * 10**9)
    >>> calls = [[Waiting(0, at, 60, None) for at in (0, 10, 20, 100)], []]
    >>> [it.within(20) for it in with_numbers([(day, calls)], Goal(Fraction(3, 4), 20), [1, 0])]
    [0.25, None]
    """
    search = Search(days, goal, priorities)
    for number, agents in enumerate(numbers):
        search.choose(number, agents, search.tried(agents))
    return search.found


def calls_of(
    spans: Sequence[Span],
    arrivals: Sequence[int],
    services: Sequence[int],
    patience: Sequence[int | None] | None = None,
    queues: Sequence[str] | None = None,
) -> list[list[list[Waiting]]]:
    """Returns the calls of each Span, such as a Day (list, per span, of what `least` takes), from arrivals (int, ticks, in any order), services,
    patience and queues (sequences; patience and queues may be None). Spans may overlap.

    >>> from mpsim.agents.staffing import calls_of
    >>> from mpsim.times.calendar import Calendar
    >>> from mpsim.times.intervals import days_of
    >>> calls_of(days_of(Calendar(10**9), 0, 43200 * 10**9), [50000], [60])
    [[[], [Waiting(number=1, arrive=50000, service=60, patience=None, queue='')]]]
    """
    order = sorted(range(len(arrivals)), key=arrivals.__getitem__)
    times = [arrivals[call] for call in order]
    found: list[list[list[Waiting]]] = []
    for span in spans:
        mine: list[list[Waiting]] = [[] for _ in span.begins[1:]]
        for call in order[bisect_left(times, span.begins[0]) : bisect_left(times, span.begins[-1])]:
            number = span.interval(arrivals[call])
            queue = queues[call] if queues else ""
            mine[number].append(Waiting(number, arrivals[call], services[call], patience[call] if patience else None, queue))
        found.append(mine)
    return found


def erlang_c(calls: float, service: float, span: float, share: float | Fraction, within: int) -> int | None:
    """Returns the least number of agents (int) with which `share` of random calls wait at most `within` ticks, by Erlang's formula for calls that
    wait: for this many calls (float) of this mean service (float, ticks) in a span of this many ticks. None without work.

    >>> erlang_c(120, 240, 1800, 0.8, 20)
    20
    """
    load = calls * service / span if span else 0
    if not load:
        return None
    blocked, agents = 1.0, 0
    while True:
        agents += 1
        blocked = load * blocked / (agents + load * blocked)
        if agents > load:
            waits = blocked / (1 - load / agents * (1 - blocked))
            if 1 - waits * math.exp((load - agents) * within / service) >= share:
                return agents
