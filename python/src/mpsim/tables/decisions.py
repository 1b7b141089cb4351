"""Works out what a decision on staffing needs: the agents that reach a goal, those that a roster has, and what changes if the calls do."""

from __future__ import annotations

from typing import TYPE_CHECKING, Dict, List, NamedTuple, Optional, Sequence, Tuple

from ..agents.groups import Agent, Group
from ..agents.plans import Part, Plan
from ..agents.staffing import Goal, Interval, calls_of, least, with_numbers
from ..node_visits import percentile_of
from ..times.intervals import Day, days_of
from ..times.texts import HOUR
from .grids import longer

if TYPE_CHECKING:
    from ..agents.staffing import SpanCalls
    from ..times.calendar import Calendar


class Calls(NamedTuple):
    """The calls of a decision: their arrivals and services (sequences of int, ticks), their patience (sequence, or None), and the names of their
    queues (sequence of str, or None if there is one)."""

    arrivals: Sequence[int]
    services: Sequence[int]
    patience: Optional[Sequence[Optional[int]]] = None
    queues: Optional[Sequence[str]] = None

    def longer(self, more: int) -> "Calls":
        """Returns the calls with services that are longer by this many ticks (shorter if it is below 0), as `mpsim.tables.grids.longer` makes
        them."""
        return self._replace(services=longer(self.services, more))


class Choice(NamedTuple):
    """Which days a decision is about: those of a date or of a weekday (str), or all."""

    date: Optional[str] = None
    weekday: Optional[str] = None

    def has(self, day: Day) -> bool:
        """Returns whether a Day is one of them."""
        return (not self.date or day.name == self.date) and (not self.weekday or day.weekday == self.weekday)


class Result(NamedTuple):
    """What some numbers of agents give: the hours of work (float) per week, or per day if only one kind of day is asked for; and the share of the
    calls that is served within the time of the goal (float; None without calls)."""

    hours: float
    share: Optional[float]


class Decider:
    """Judges numbers of agents by a Goal, for the chosen days of a Calendar, in intervals of this length (int, nanoseconds), with the priorities of
    queues that Group takes.

    >>> from fractions import Fraction
    >>> from mpsim.times.calendar import Calendar
    >>> decider = Decider(Calendar(10**9), Choice(), 12 * HOUR, Goal(Fraction(3, 4), 20))
    >>> calls = Calls([0, 10, 20, 100], [60] * 4)
    >>> numbers = decider.need(calls)
    >>> numbers, decider.result(numbers, calls), decider.result(decider.changed(numbers, -1), calls)
    ({'': [0, 0], 'all days': [2, 0]}, Result(hours=24.0, share=0.75), Result(hours=12.0, share=0.25))
    """

    def __init__(self, calendar: "Calendar", choice: Choice, every: int, goal: Goal, priorities: Optional[Dict[str, int]] = None) -> None:
        self.calendar, self.choice, self.every, self.goal, self.priorities = calendar, choice, every, goal, priorities

    def days(self, calls: Calls) -> List[Day]:
        """Returns the days of some calls, chosen or not."""
        return days_of(self.calendar, max(calls.arrivals, default=0), self.every)

    def plan(self, calls: Calls) -> Plan:
        """Returns the Plan of the chosen days of some calls."""
        return Plan(self.days(calls), self.choice.date, self.choice.weekday)

    def groups(self, calls: Calls) -> List[Part]:
        """Returns the kinds of chosen days, which get the same numbers each (list of Part)."""
        return self.plan(calls).parts

    def _stretches(self, plan: Plan, calls: Calls) -> "List[SpanCalls]":
        queues = calls.queues if self.priorities else None
        return [*zip(plan.stretches, calls_of(plan.stretches, calls.arrivals, calls.services, calls.patience, queues))]

    def need(self, calls: Calls) -> Dict[str, List[int]]:
        """Returns the least numbers of agents that reach the goal (list of int, per interval), by the names of kinds of days. What is needed on the
        day before is part of the numbers, by the name "" (`Plan`)."""
        plan = self.plan(calls)
        found = [it.agents for it in least(self._stretches(plan, calls), self.goal, None, self.priorities)]
        return {"": found[: plan.every], **{part.name: [*plan.of(part, found)] for part in plan.parts}}

    def changed(self, numbers: Dict[str, List[int]], more: int) -> Dict[str, List[int]]:
        """Returns numbers with this many agents more, or fewer, in each interval that has any."""
        return {name: [max(0, it + more) if it else 0 for it in mine] for name, mine in numbers.items()}

    def intervals(self, numbers: Dict[str, List[int]], calls: Calls) -> Dict[str, Tuple[int, List[Interval]]]:
        """Returns the number of days and what happens in each interval, by the names of kinds of days, with numbers of agents from other calls. A
        kind without numbers has no agents."""
        plan, nobody = self.plan(calls), [0] * (24 * HOUR // self.every)
        by_place = {0: "", **{part.place: part.name for part in plan.parts}}
        counts = [count for place in range(len(plan.stretches[0].begins) // plan.every) for count in numbers.get(by_place.get(place, "-"), nobody)]
        found = with_numbers(self._stretches(plan, calls), self.goal, counts, self.priorities)
        return {part.name: (len(part.days), [*plan.of(part, found)]) for part in plan.parts}

    def result(self, numbers: Dict[str, List[int]], calls: Calls) -> Result:
        """Returns the Result of numbers of agents for some calls."""
        found = [it for _, each in self.intervals(numbers, calls).values() for it in each]
        return Result(self.hours(numbers), _share([wait for it in found for wait in it.waits], sum(it.calls for it in found), self.goal.within))

    def hours(self, numbers: Dict[str, List[int]]) -> float:
        """Returns the hours of work in one day of each group."""
        return sum(sum(mine) for name, mine in numbers.items() if name) * self.every / HOUR

    def there(self, agents: Sequence[Agent], calls: Calls) -> Dict[str, List[float]]:
        """Returns the mean number of agents of a roster in each interval (list of float), by the names of kinds of days."""
        return {part.name: self._mean(agents, part.days) for part in self.groups(calls)}

    def _mean(self, agents: Sequence[Agent], days: Sequence[Day]) -> List[float]:
        found = []
        for number in range(len(days[0].begins) - 1):
            there = span = 0
            for day in days:
                begin, end = day.begins[number : number + 2]
                span += end - begin
                there += sum(max(0, min(until, end) - max(since, begin)) for agent in agents for since, until in agent.intervals)
            found.append(there / span if span else 0.0)
        return found

    def of_group(self, group: Group, agents: Sequence[Agent], calls: Calls) -> Result:
        """Returns the Result of a roster (a Group of agents) for some calls."""
        who, waits = group.assigned(calls.arrivals, calls.services, calls.queues, calls.patience)
        kept = [at for at, is_mine in enumerate(self.chosen(calls)) if is_mine]
        hours = sum(sum(mine) for mine in self.there(agents, calls).values()) * self.every / HOUR
        return Result(hours, _share([waits[at] for at in kept if who[at]], len(kept), self.goal.within))

    def chosen(self, calls: Calls) -> List[bool]:
        """Returns whether each call comes on a chosen day."""
        spans = [(day.begins[0], day.begins[-1]) for day in self.days(calls) if self.choice.has(day)]
        order, found, at = sorted(range(len(calls.arrivals)), key=calls.arrivals.__getitem__), [False] * len(calls.arrivals), 0
        for call in order:
            while at < len(spans) and spans[at][1] <= calls.arrivals[call]:
                at += 1
            found[call] = at < len(spans) and spans[at][0] <= calls.arrivals[call]
        return found


def _share(waits: Sequence[int], calls: int, within: int) -> Optional[float]:
    return sum(wait <= within for wait in waits) / calls if calls else None


class Recorded(NamedTuple):
    """What was recorded on the chosen days: the calls and how many callers gave up (int), the share that was answered in time (float; None without
    calls), and the mean and the 90th percentile of the waits of the others (float and int, ticks; None if nobody was answered)."""

    calls: int
    gone: int
    share: Optional[float]
    mean: Optional[float]
    p90: Optional[int]


def recorded_of(waits: Sequence[int], gone: Sequence[bool], within: int) -> Recorded:
    """Returns what was recorded, from the waits (int, ticks) of calls and whether they were abandoned.

    >>> recorded_of([5, 30, 9], [False, False, True], 20)
    Recorded(calls=3, gone=1, share=0.3333333333333333, mean=17.5, p90=30)
    """
    answered = sorted(wait for wait, is_gone in zip(waits, gone) if not is_gone)
    mean, p90 = (sum(answered) / len(answered), percentile_of(answered, 90)) if answered else (None, None)
    return Recorded(len(waits), sum(gone), _share(answered, len(waits), within), mean, p90)
