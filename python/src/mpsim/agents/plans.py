"""Chooses the days that get the same numbers of agents.

Each day begins with the calls that still wait or are served from the day before: days are taken in stretches, and the first day of a stretch only
makes a beginning."""

from __future__ import annotations

from typing import TYPE_CHECKING, Dict, List, NamedTuple, Optional

from ..times.intervals import Stretch
from ..times.texts import WEEKDAYS

if TYPE_CHECKING:
    from collections.abc import Sequence
    from typing import TypeVar

    from ..times.intervals import Day

    Item = TypeVar("Item")


class Part(NamedTuple):
    """Days of a plan that get the same numbers: their name, the days (list of Day), and their place in each stretch (int, from 1)."""

    name: str
    days: List[Day]
    place: int


class Plan:
    """What `mpsim.agents.staffing` is to staff: the name of the days' column (`head`), the kinds of days (`parts`, a list of Part), and the stretches
    of days (`stretches`, a list of Stretch). A stretch of weekdays is a Sunday and the week after it. All stretches have as many intervals; those of
    a Part follow one another.

    `days` are consecutive (sequence of Day). With a `date` or a `weekday` (str) the plan has only those days, each after the one before. Days without
    dates are all alike. Raises ValueError if no day is one of them.

    >>> from mpsim.times.calendar import Calendar
    >>> from mpsim.times.intervals import days_of
    >>> days = days_of(Calendar(10**9, "2026-03-04T00:00"), 6 * 86400, 86400 * 10**9)
    >>> plan = Plan(days)
    >>> [(part.name, len(part.days)) for part in plan.parts][:3]
    [('Monday', 1), ('Tuesday', 1), ('Wednesday', 1)]
    >>> [stretch.begins[3:] for stretch in plan.stretches]
    [[0, 86400, 172800, 259200, 345600, 432000], [604800, 604800, 604800, 604800, 604800, 604800]]
    >>> Plan(days, weekday="Friday").stretches[0].begins
    [86400, 172800, 259200]
    """

    def __init__(self, days: Sequence[Day], date: Optional[str] = None, weekday: Optional[str] = None) -> None:
        is_dated = days[0].weekday is not None
        chosen = [day for day in days if (not date or day.name == date) and (not weekday or day.weekday == weekday)]
        if not chosen:
            raise ValueError("no such day")
        self.head = "date" if date else "weekday" if is_dated else "day"
        self.every = len(days[0].begins) - 1
        by_number: Dict[int, Day] = {day.number: day for day in days}
        if date or weekday or not is_dated:
            self.parts = [Part(date or weekday or "all days", chosen, 1)]
            firsts, count = [day.number - 1 for day in chosen], 2
        else:
            kinds = [(place, name, [day for day in chosen if day.weekday == name]) for place, name in enumerate(WEEKDAYS, 1)]
            self.parts = [Part(name, mine, place) for place, name, mine in kinds if mine]
            # A Sunday, by the weekdays of the first day and of the others.
            sundays = {day.number - WEEKDAYS.index(day.weekday or "") - 1 for day in days}
            firsts, count = sorted(sundays), 8
        self.stretches = [Stretch([by_number.get(first + at) for at in range(count)]) for first in firsts]

    def of(self, part: Part, found: Sequence[Item]) -> Sequence[Item]:
        """Returns those of some values per interval of a stretch (sequence) that belong to the days of a Part."""
        return found[part.place * self.every : (part.place + 1) * self.every]
