"""Divides days into intervals of equal length, such as half-hours, by the clock."""

from __future__ import annotations

from bisect import bisect_right
from typing import TYPE_CHECKING, Optional, Sequence

from ..limits import FOREVER
from .texts import DAY, MINUTE, WEEKDAYS, given, length, moment

if TYPE_CHECKING:
    from .calendar import Calendar


def every_of(text: str) -> int:
    """Returns the nanoseconds of the value of --every. Raises ValueError for an invalid value.

    >>> every_of("30min") // MINUTE
    30
    """
    value = given("--every", length, text)
    if value < MINUTE or DAY % value:
        raise ValueError(f"--every {text}: expected whole intervals in a day, of a minute or more, such as 15min, 30min or 1h")
    return value


def label(number: int, every: int) -> str:
    """Returns the time of day (str) at which an interval begins, by its number from 0 and the length of intervals (int, nanoseconds).

    >>> label(17, 30 * MINUTE)
    '08:30'
    """
    return f"{number * every // (60 * MINUTE):02}:{number * every // MINUTE % 60:02}"


class Kinds:
    """The kinds of intervals of some days (list of Day): one per interval of the day or, `by_weekday`, one per weekday and interval. They are numbers
    (int, from 0) in the order of a table. Raises ValueError for weekdays without dates.

    >>> from mpsim.times.calendar import Calendar
    >>> days = days_of(Calendar(10**9, "2026-03-03T00:00"), 90000, 12 * 60 * MINUTE)
    >>> [[kinds.of(day, 1), kinds.names(kinds.of(day, 1), 720 * MINUTE)] for kinds in (Kinds(days), Kinds(days, True)) for day in days]
    [[1, ['12:00']], [1, ['12:00']], [3, ['Tuesday', '12:00']], [5, ['Wednesday', '12:00']]]
    """

    def __init__(self, days: Sequence[Day], by_weekday: bool = False) -> None:
        if by_weekday and days[0].weekday is None:
            raise ValueError("--by weekday needs the date of time 0: give --start")
        self.by_weekday, self.each = by_weekday, len(days[0].begins) - 1
        self.heads = ["weekday", "from"] if by_weekday else ["from"]
        self.count = self.each * (len(WEEKDAYS) if by_weekday else 1)

    def of(self, day: Day, number: int) -> int:
        """Returns the kind of an interval, by its number in its Day."""
        return number + (self.each * WEEKDAYS.index(day.weekday or "") if self.by_weekday else 0)

    def names(self, kind: Optional[int], every: int) -> list[str]:
        """Returns the names of a kind, for the columns of `heads`, with this length of intervals (int, nanoseconds); of None, "all"."""
        if kind is None:
            return ["all"] * len(self.heads)
        return [*([WEEKDAYS[kind // self.each]] if self.by_weekday else []), label(kind % self.each, every)]


class Span:
    """Consecutive intervals: the ticks (list of int) at which they begin, with the tick at which the last one ends."""

    begins: list[int]

    def interval(self, tick: int) -> int:
        """Returns the number of the interval (int, from 0) of a tick of this span."""
        return min(bisect_right(self.begins, tick), len(self.begins) - 1) - 1

    def bounds(self) -> list[tuple[int, int]]:
        """Returns the intervals (list of pairs of int, in ticks). The last one that isn't empty has no end: a call that waits then is still
        served."""
        bounds = list(zip(self.begins, self.begins[1:]))
        last = max((number for number, (begin, end) in enumerate(bounds) if begin < end), default=len(bounds) - 1)
        bounds[last] = bounds[last][0], FOREVER
        return bounds


class Day(Span):
    """A day of a Calendar: its number, its name, its weekday (str; None without dates), and the ticks (list of int) at which its intervals begin,
    with the tick of the next midnight at the end. Of an hour that the clock repeats, both belong to the interval in which it is first repeated; the
    intervals of an hour that it skips have no length."""

    def __init__(self, days: Calendar, number: int, end: int, every: int) -> None:
        self.number, self.name = number, days.name(number)
        self.weekday = WEEKDAYS[moment(number * DAY).weekday()] if days.is_dated else None
        begins = [days.place.first(number * DAY + at * every) for at in range(DAY // every)]
        self.begins = [max(0, days.tick_at(value)) for value in begins] + [max(0, days.tick_at(end))]


class Stretch(Span):
    """Consecutive days as one Span: a sequence of Day, with None for each day that isn't in the trace, whose intervals are empty. At least one day
    is.

    >>> from mpsim.times.calendar import Calendar
    >>> Stretch([None, *days_of(Calendar(10**9), 0, 12 * 60 * MINUTE)]).begins
    [0, 0, 0, 43200, 86400]
    """

    def __init__(self, days: Sequence[Optional[Day]]) -> None:
        there = [day for day in days if day]
        self.begins, at = [], there[0].begins[0]
        for day in days:
            self.begins += day.begins[:-1] if day else [at] * (len(there[0].begins) - 1)
            at = day.begins[-1] if day else at
        self.begins.append(at)


def days_of(days: Calendar, last: int, every: int) -> list[Day]:
    """Returns each Day of a Calendar, from that of tick 0 to that of tick `last` (int), with intervals of this many nanoseconds.

    >>> from mpsim.times.calendar import Calendar
    >>> [(it.name, it.weekday, it.begins[:3]) for it in days_of(Calendar(10**9, "2026-03-02T00:00"), 90000, 30 * MINUTE)]
    [('2026-03-02', 'Monday', [0, 1800, 3600]), ('2026-03-03', 'Tuesday', [86400, 88200, 90000])]
    """
    return [Day(days, number, end, every) for number, _, end in days.midnights(last)]
