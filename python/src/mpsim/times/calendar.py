"""Converts between ticks and the days and hours of a calendar."""

from __future__ import annotations

import re
from typing import TYPE_CHECKING

from .texts import DAY, HOUR, MINUTE, SECOND, UNITS, WEEKDAYS, given, iso, length, moment
from .working import WorkingTime, openings_in
from .zones import Zone

if TYPE_CHECKING:
    from collections.abc import Iterable, Iterator, Sequence

# The most days in a table, about a hundred years. A longer span means that the times aren't ticks.
DAYS = 36525


def tick_of(text: str) -> int:
    """Returns the nanoseconds of a tick. Raises ValueError for an invalid text."""
    nanos = length(text)
    if nanos < 1:
        raise ValueError("a tick must be longer than 0")
    return nanos


def length_text(nanos: int) -> str:
    """Returns a length of time in the form that `length` reads."""
    per, unit = next((per, unit) for per, unit in ((SECOND, "s"), (10**6, "ms"), (1000, "us"), (1, "ns")) if nanos % per == 0)
    return f"{nanos // per}{unit}"


def first_lines(tick: int, start: str | None, zone: str | None, columns: Sequence[str], sources: Iterable[str], more: Iterable[str] = ()) -> str:
    """Returns the first lines of a model: the tick (int, nanoseconds), time 0 (ISO 8601 text or None), its zone (str or None), the columns of the
    trace after `time`, `more` comments, and the sources (lists of str). `settings_in` reads them back.

    >>> print(first_lines(100000000, "2026-03-02T08:00:00+01:00", "Europe/Berlin", ["talk"], ["phone"]), end="")
    model 1
    # a tick is 100ms, time 0 is 2026-03-02T08:00:00+01:00 in Europe/Berlin
    # columns: talk
    source phone
    """
    lines = ["model 1", _settings(tick, start, zone), *([f"# columns: {', '.join(columns)}"] if columns else []), *more]
    return "".join(f"{line}\n" for line in [*lines, *(f"source {source}" for source in sources)])


def _settings(tick: int, start: str | None, zone: str | None) -> str:
    at = f", time 0 is {start}" + (f" in {zone}" if zone else "") if start else ""
    return f"# a tick is {length_text(tick)}{at}"


_SETTINGS = rf"# a tick is (\d+(?:{'|'.join(UNITS)}))(?:, time 0 is (\S+)(?: in (\S+))?)?"


def settings_in(text: str) -> tuple[int | None, str | None, str | None]:
    """Returns what the first lines of a model say: the tick in nanoseconds, time 0 as an ISO 8601 text, and the zone; each None if missing."""
    found = re.search(rf"^{_SETTINGS}\r?$", text, re.M)
    return (tick_of(found[1]), found[2], found[3]) if found else (None, None, None)


def with_settings(text: str, tick: int, start: str | None, zone: str | None) -> str:
    """Returns a model's text with these settings in its first lines.

    >>> with_settings("model 1\\nsource door\\n", 1000000000, None, None)
    'model 1\\n# a tick is 1s\\nsource door\\n'
    """
    return with_line(text, _SETTINGS, _settings(tick, start, zone))


_WORKING = r"# working time is ([^\r\n]+?)"


def working_line(text: str) -> str:
    """Returns the comment of a model that says when time counts, from the text of openings. `working_in` reads it back."""
    return f"# working time is {text}"


def working_in(text: str) -> str | None:
    """Returns the text of the openings in whose hours the ticks of a model count; None if they count all hours.

    >>> working_in("model 1\\n# working time is mon-fri 06:00-14:00\\nsource door\\n")
    'mon-fri 06:00-14:00'
    """
    found = re.search(rf"^{_WORKING}\r?$", text, re.M)
    return found[1] if found else None


def with_working(text: str, working: str) -> str:
    """Returns a model's text with these openings in its first lines."""
    return with_line(text, _WORKING, working_line(working))


def with_line(text: str, pattern: str, line: str) -> str:
    """Returns a model's text with the first line that matches a pattern replaced by a comment. If no line matches, the comment goes after the version
    line and the comments that follow it."""
    lines = text.split("\n")
    at = next((at for at, it in enumerate(lines) if re.fullmatch(pattern, it.removesuffix("\r"))), None)
    if at is None:
        at = next((at for at, it in enumerate(lines, 1) if it.split()[:1] == ["model"]), 0)
        while lines[at:] and lines[at].startswith("#"):
            at += 1
        lines.insert(at, lines[at - 1])
    lines[at] = line + "\r" * lines[at].endswith("\r")
    return "\n".join(lines)


class Calendar:
    """The day and hour of each tick. `tick` (int) is in nanoseconds, `start` an ISO 8601 text, `zone` a name. Without a start, time 0 is a midnight.
    Days change at midnight of the zone. With `working`, a text of openings such as "mon-fri 06:00-14:00", ticks count working time only: a tick that
    follows the last one of a shift is at the next opening. Raises ValueError for an invalid value, and for a zone or working time without a start.

    >>> from mpsim.times.calendar import Calendar
    >>> days = Calendar(10**9, "2026-03-28T00:00:00+01:00", "Europe/Berlin")
    >>> days.parts("day", 200000)
    ([0, 86400, 169200], ['2026-03-28', '2026-03-29', '2026-03-30'])
    >>> shifts = Calendar(10**9, "2026-03-06T06:00", None, "mon-fri 06:00-14:00")
    >>> shifts.shown(8 * 3600 - 1), shifts.shown(8 * 3600)
    ('2026-03-06T13:59:59', '2026-03-09T06:00:00')
    """

    def __init__(self, tick: int | None, start: str | None = None, zone: str | None = None, working: str | None = None) -> None:
        if tick is None:
            raise ValueError("the length of a tick is unknown; a model whose first lines `mpplan prepare` wrote gives it")
        self.tick, self.place, self.is_dated = tick, Zone(zone), start is not None
        if zone and not self.is_dated:
            raise ValueError(f"the zone {zone} needs the date of time 0, on which clock changes depend: give --start")
        wall, offset = given("time 0,", iso, start) if start else (0, None)
        # With an offset but no zone there are no clock changes: moments are wall-clock times.
        self.begin = wall - offset if offset is not None and zone else wall if offset is not None or not zone else self.place.first(wall)
        if working and not self.is_dated:
            raise ValueError("working time needs the date of time 0: give --start")
        self.working = WorkingTime(openings_in(working), self.place) if working else None
        self._zero = self.working.of(self.begin) if self.working else self.begin

    def moment(self, tick: int) -> int:
        """Returns the moment of a tick (int, nanoseconds)."""
        value = self._zero + tick * self.tick
        return self.working.moment(value) if self.working else value

    def shown(self, tick: int) -> str:
        """Returns the ISO 8601 text of a tick, with its offset if there is a zone."""
        return self.place.shown(self.moment(tick))

    def keeps_clock(self, nanos: int) -> bool:
        """Returns whether records that are moved by this length need this calendar to keep their time of day: whole days on a clock that changes or
        that counts working time."""
        return (self.place.zone is not None or self.working is not None) and nanos % DAY == 0

    def wall(self, tick: int) -> int:
        """Returns the wall-clock time of a tick, in nanoseconds since 1970."""
        return self.place.wall(self.moment(tick))

    def tick_at(self, value: int) -> int:
        """Returns the first tick at or after a moment."""
        return -((self._zero - (self.working.of(value) if self.working else value)) // self.tick)

    def stretches(self, last: int) -> list[tuple[int, int]]:
        """Returns the stretches of working time up to tick `last` (list of pairs): the first tick of each, and its wall-clock time. Without working
        time there is one.

        >>> [it for it, _ in Calendar(10**9, "2026-03-06T12:00", None, "mon-fri 06:00-14:00").stretches(40000)]
        [0, 7200, 36000]
        """
        begins = self.working.openings_between(self.begin, self.moment(last)) if self.working else []
        return [(tick, self.wall(tick)) for tick in sorted({0, *map(self.tick_at, begins)})]

    def tick_of_date(self, text: str) -> int:
        """Returns the first tick at or after a date with a time, an ISO 8601 text; of a time that occurs twice, the first. It may be below 0. Raises
        ValueError for another text, and without the date of time 0.

        >>> from mpsim.times.calendar import Calendar
        >>> Calendar(10**9, "2026-03-02T08:00").tick_of_date("2026-03-02 09:00")
        3600
        """
        return self.tick_at(self.moment_of_date(text))

    def moment_of_date(self, text: str) -> int:
        """Returns the moment (int, nanoseconds) of a date with a time, as `tick_of_date` reads it, also while it is closed. Raises the same."""
        if not self.is_dated:
            raise ValueError(f"the date {text} needs the date of time 0: give --start")
        wall, offset = iso(text)
        return self.place.first(wall) if offset is None else wall - offset if self.place.zone else wall

    def midnights(self, last: int) -> Iterator[tuple[int, int, int]]:
        """Yields each day from that of tick 0 to that of tick `last`: its number, the moment at which it begins, and the moment at which the next
        begins."""
        day = self.wall(0) // DAY
        while True:
            begin, end = self.place.first(day * DAY), self.place.first((day + 1) * DAY)
            if self.tick_at(begin) > last:
                return
            yield day, begin, end
            day += 1

    def name(self, day: int) -> str:
        """Returns the date of a day by its number; without dates, its count from time 0."""
        return str(moment(day * DAY).date()) if self.is_dated else f"day {day + 1}"

    def parts(self, by: str, last: int) -> tuple[list[int], list[str]]:
        """Returns the ticks at which parts begin, in rising order, and the names of the parts, up to tick `last`. `by` is "day", "each" (every hour
        of every day), or "weekday" or "hour" (of day), whose names repeat. Raises ValueError for weekdays without a date."""
        if by == "weekday" and not self.is_dated:
            raise ValueError("weekdays need the date of time 0: give --start")
        begins: list[int] = []
        names: list[str] = []
        for day, begin, end in self.midnights(last):
            values = [begin] if by in ("day", "weekday") else list(self._hours(begin, end))
            begins += map(self.tick_at, values)
            names += {"day": [self.name(day)], "weekday": [WEEKDAYS[moment(day * DAY).weekday()]]}.get(by) or self._named(day, values, by)
        return begins, names

    def _named(self, day: int, values: Sequence[int], by: str) -> list[str]:
        """Returns the names of the hours of a day that begin at these moments (list). Unless `by` is "hour", two hours of the same name get their
        offsets from UTC."""
        hours = [f"{self.place.wall(value) % DAY // HOUR:02}:00" for value in values]
        if by == "hour":
            return hours
        return [f"{self.name(day)} {hour}" + (self.place.offset(it) if hours.count(hour) > 1 else "") for hour, it in zip(hours, values)]

    def _hours(self, begin: int, end: int) -> Iterator[int]:
        """Yields the moments within a day at which an hour of the clock begins. An hour that occurs twice, even in part, begins twice: some clocks
        change by half an hour."""
        last = None
        for value in range(begin, end, 15 * MINUTE):
            wall = self.place.wall(value)
            if last is None or wall // HOUR != last // HOUR or wall <= last:
                yield value
            last = wall


def days_until(days: Calendar, last: int) -> int:
    """Returns the number of days (int) from time 0 to the last time (int, ticks). Raises ValueError for an implausible number."""
    count = last * days.tick // DAY
    if count > DAYS:
        raise ValueError(f"time {last} is {count} days after time 0: a tick is shorter than {days.tick / SECOND:g} s, or these times aren't ticks")
    return count
