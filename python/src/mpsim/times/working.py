"""Working time: counts only the time in which a plant or an office is open, by a calendar of shifts."""

from __future__ import annotations

import re
from bisect import bisect_right
from datetime import date
from itertools import accumulate
from typing import TYPE_CHECKING, NamedTuple

from ..files import table_rows
from .texts import DAY, EPOCH, MINUTE, WEEKDAYS, clock, moment

if TYPE_CHECKING:
    from collections.abc import Iterable, Sequence

    from ..shapes import Path
    from .zones import Zone

HEAD = "days", "from", "to"
OFF = "off"
# The most bytes of a calendar as a comment of a model.
BYTES = 8000
# The most days of a range of dates, and from the first day that is asked for to any other.
RANGE, SPAN = 3660, 60000
# Days are looked up in blocks of this many.
BLOCK = 64
_SHORT = [name[:3].lower() for name in WEEKDAYS]


class Opening(NamedTuple):
    """A row of a calendar: its days, as text (`mon-fri`, `2026-04-03` or `2026-12-24..2026-12-31`), and when work begins and ends on each of them
    (int, nanoseconds after midnight; an end after midnight is above 24 hours). An end that equals the begin means that the days are off."""

    days: str
    since: int
    until: int

    def __str__(self) -> str:
        until = self.until if self.until <= DAY else self.until - DAY
        return f"{self.days} {OFF}" if self.since == self.until else f"{self.days} {_clock_text(self.since)}-{_clock_text(until)}"


def _clock_text(nanos: int) -> str:
    return f"{nanos // (60 * MINUTE):02}:{nanos // MINUTE % 60:02}"


def weekdays_in(text: str) -> set[int] | None:
    """Returns the weekdays (set of int, Monday 0) of a text such as `mon-fri` or `sat,sun`; None, for every day, of an empty text or `daily`. Raises
    ValueError for another text.

    >>> sorted(weekdays_in("fri-sun"))
    [4, 5, 6]
    """
    if text.strip().lower() in ("", "daily"):
        return None
    found = set()
    for part in text.lower().replace(" ", "").split(","):
        first, _, last = part.partition("-")
        if first[:3] not in _SHORT or last and last[:3] not in _SHORT:
            raise ValueError(f"{text!r} isn't a date or weekdays such as mon-fri")
        begin, end = _SHORT.index(first[:3]), _SHORT.index((last or first)[:3])
        found |= {at % 7 for at in range(begin, end + 1 + 7 * (end < begin))}
    return found


def dates_in(text: str) -> range | None:
    """Returns the numbers of the days (range, from 1970) of a date or of a range of dates such as `2026-12-24..2026-12-31`; None of another text.
    Raises ValueError for a date that doesn't exist, and for a range that is empty or longer than ten years."""
    if not re.match(r"\d{4}-", text):
        return None
    first, mark, last = text.partition("..")
    begin, end = (_day(part.strip()) for part in (first, last if mark else first))
    if not begin <= end < begin + RANGE:
        raise ValueError(f"{text!r}: expected a date, or a range of at most {RANGE:,} days such as 2026-12-24..2026-12-31")
    return range(begin, end + 1)


def _day(text: str) -> int:
    try:
        return (date.fromisoformat(text) - EPOCH.date()).days
    except ValueError:
        raise ValueError(f"{text!r} isn't a date such as 2026-04-03") from None


def opening(days: str, since: str, until: str) -> Opening:
    """Returns the Opening of a row of a calendar. Raises ValueError for an invalid row.

    >>> print(opening("Mon - Fri", "6:00", "14:00"), opening("2026-04-03", "off", ""), sep="; ")
    mon-fri 06:00-14:00; 2026-04-03 off
    """
    on = re.sub(r"\s+", "", days).lower()
    is_date = dates_in(on) is not None
    if not on:
        raise ValueError("the days are missing: expected weekdays such as mon-fri, daily, or a date")
    if not is_date:
        weekdays_in(on)
    if since.strip().lower() == OFF:
        if until.strip() or not is_date:
            raise ValueError(f"{days} is {OFF}: only a date is {OFF}, without an end; weekdays without a row are closed")
        return Opening(on, 0, 0)
    begin, end = (_minutes(text) for text in (since, until))
    if begin == DAY or begin == end:
        raise ValueError(f"work from {since.strip()} to {until.strip()}: expected two different times of day, such as 06:00 and 14:00")
    return Opening(on, begin, end + DAY * (end < begin))


def _minutes(text: str) -> int:
    try:
        value = clock(text)
    except ValueError as error:
        raise ValueError(f"{text.strip()!r}: {error}") from None
    if value % MINUTE:
        raise ValueError(f"{text.strip()!r}: expected whole minutes")
    return value


def read_openings(path: Path) -> list[Opening]:
    """Returns the openings (list of Opening) in a CSV file with the header `days,from,to` and a row per shift, such as `mon-fri,06:00,14:00`.

    `days` are weekdays as in a roster (`mon-fri`, `sat,sun`, `daily`), or a date such as 2026-04-03, or a range such as 2026-12-24..2026-12-31. The
    hours of a date replace those of its weekday; a date is closed if `from` is `off`. A shift whose end isn't later than its begin ends on the next
    day. Fields are separated by commas, or by semicolons if the header's are. Raises OSError if the file can't be read, and ValueError for an
    invalid row, with its number (the header is row 1), and if there is no working time."""
    found = []
    for number, row in table_rows(path, list(HEAD)):
        try:
            found.append(opening(*(row[name] for name in HEAD)))
        except ValueError as error:
            raise ValueError(f"{path}: row {number}: {error}") from None
    try:
        _judge(found)
    except ValueError as error:
        raise ValueError(f"{path}: {error}") from None
    return found


def _judge(openings: Sequence[Opening]) -> None:
    """Raises ValueError if these openings contain no working time, or are too many for a comment, or if a date is off and has hours."""
    if not any(it.since < it.until for it in openings):
        raise ValueError("it has no working time: expected a row such as mon-fri,06:00,14:00")
    if len(openings_text(openings)) > BYTES:
        raise ValueError(f"it is longer than {BYTES:,} bytes: write ranges of dates such as 2026-12-24..2026-12-31")
    kinds: dict[int, bool] = {}
    for it in openings:
        for day in dates_in(it.days) or ():
            if kinds.setdefault(day, it.since < it.until) != (it.since < it.until):
                raise ValueError(f"{moment(day * DAY).date()} is {OFF} and has hours")


def openings_text(openings: Iterable[Opening]) -> str:
    """Returns openings as one text, which `openings_in` reads back.

    >>> openings_text([opening("mon-fri", "22:00", "06:00"), opening("2026-04-03", "off", "")])
    'mon-fri 22:00-06:00; 2026-04-03 off'
    """
    return "; ".join(map(str, openings))


def openings_in(text: str) -> list[Opening]:
    """Returns the openings (list of Opening) in a text that `openings_text` wrote. Raises ValueError for an invalid one.

    >>> openings_in("sat 06:00-12:00") == [opening("sat", "06:00", "12:00")]
    True
    """
    found = []
    for part in text.split(";"):
        on, _, times = part.strip().rpartition(" ")
        since, mark, until = times.partition("-")
        try:
            found.append(opening(on, since, until if mark else ""))
        except ValueError as error:
            raise ValueError(f"working time {part.strip()!r}: {error}") from None
    _judge(found)
    return found


class WorkingTime:
    """The working time that openings (list of Opening) leave on the clock of a Zone. Openings that overlap count once.

    Working time is counted in nanoseconds from an arbitrary beginning, so only differences matter. While it is closed, it stands still: `of` gives
    all moments from a closing to the next opening the same working time, and `moment` gives the opening back.

    >>> from mpsim.times.texts import HOUR, iso
    >>> from mpsim.times.zones import Zone
    >>> shifts = WorkingTime(openings_in("mon-fri 06:00-14:00; 2026-04-03 off"), Zone())
    >>> thursday, tuesday = (iso(text)[0] for text in ("2026-04-02T13:00", "2026-04-07T07:00"))
    >>> (shifts.of(tuesday) - shifts.of(thursday)) // HOUR
    10
    >>> shifts.moment(shifts.of(thursday) + HOUR) == iso("2026-04-06T06:00")[0]
    True
    """

    def __init__(self, openings: Sequence[Opening], place: Zone) -> None:
        self.openings, self._place = list(openings), place
        self._week: dict[int, list[tuple[int, int]]] = {}
        self._dates: dict[int, list[tuple[int, int]]] = {}
        for it in self.openings:
            dates = dates_in(it.days)
            weekdays = None if dates is not None else weekdays_in(it.days)
            table = self._week if dates is None else self._dates
            for day in dates if dates is not None else range(7) if weekdays is None else weekdays:
                table.setdefault(day, []).extend([(it.since, it.until)] if it.since < it.until else [])
        # The first day that is looked up counts as the beginning of working time.
        self._anchor: int | None = None
        self._first = self._end = 0
        self._begins: list[int] = []
        self._lengths: list[int] = []
        self._before: list[int] = []
        # Spans that begin or end while it is closed, each once.
        self.outside: set[tuple[int, int]] = set()

    def __str__(self) -> str:
        return openings_text(self.openings)

    def _of_day(self, day: int) -> list[tuple[int, int]]:
        """Returns the openings of a day (list of pairs of moments), by its number from 1970."""
        times = self._dates[day] if day in self._dates else self._week.get(moment(day * DAY).weekday(), [])
        first = self._place.first
        return [(first(day * DAY + since), first(day * DAY + until)) for since, until in times]

    def _cover(self, first: int, end: int) -> None:
        """Looks the days from `first` up to `end` (their numbers) up, and all between these and those that are known."""
        if self._anchor is None:
            self._anchor = self._first = self._end = first
        if max(abs(first - self._anchor), abs(end - self._anchor)) > SPAN:
            raise ValueError(f"the calendar has too little working time: {SPAN:,} days aren't enough for these times")
        self._first, self._end = min(first, self._first), max(end, self._end)
        # A shift of the day before may run past midnight.
        spans = sorted(span for day in range(self._first - 1, self._end) for span in self._of_day(day) if span[0] < span[1])
        merged: list[tuple[int, int]] = []
        for begin, finish in spans:
            if merged and begin <= merged[-1][1]:
                merged[-1] = merged[-1][0], max(merged[-1][1], finish)
            else:
                merged.append((begin, finish))
        self._begins = [begin for begin, _ in merged]
        self._lengths = [finish - begin for begin, finish in merged]
        zero = self._place.first(self._anchor * DAY)
        earlier = sum(min(finish, zero) - begin for begin, finish in merged if begin < zero)
        self._before = [total - earlier for total in accumulate(self._lengths, initial=0)]

    def _look_up(self, value: int) -> int:
        """Returns the index of the opening that a moment is in or follows; -1 if none is known before it."""
        day = value // DAY
        if self._anchor is None or not self._first + 2 <= day < self._end - 2:
            self._cover(day - BLOCK, day + BLOCK)
        return bisect_right(self._begins, value) - 1

    def of(self, value: int) -> int:
        """Returns the working time (int, nanoseconds) at a moment. While it is closed, it is that of the next opening."""
        at = self._look_up(value)
        return self._before[0] if at < 0 else self._before[at] + min(value - self._begins[at], self._lengths[at])

    def is_open(self, value: int) -> bool:
        """Returns whether a moment is in working time. The moment at which a shift ends isn't."""
        at = self._look_up(value)
        return at >= 0 and value - self._begins[at] < self._lengths[at]

    def is_end(self, value: int) -> bool:
        """Returns whether work may end at a moment: it is in working time, or at the end of a shift."""
        at = self._look_up(value)
        return at >= 0 and value - self._begins[at] <= self._lengths[at]

    def length(self, begin: int, end: int) -> int:
        """Returns the working time (int, nanoseconds) between two moments, and notes it in `outside` if the span begins or ends while it is
        closed."""
        if end > begin and not (self.is_open(begin) and self.is_end(end)):
            self.outside.add((begin, end))
        return self.of(end) - self.of(begin)

    def openings_between(self, begin: int, end: int) -> list[int]:
        """Returns the moments after `begin`, up to `end`, at which work begins (list of int)."""
        self.of(begin), self.of(end)
        return self._begins[bisect_right(self._begins, begin) : bisect_right(self._begins, end)]

    def moment(self, worked: int) -> int:
        """Returns the last moment with this working time (int, nanoseconds): when a shift ends, it is the next opening. Raises ValueError if the
        calendar never has so much."""
        if self._anchor is None:
            raise ValueError("working time counts from a moment: none is known yet")
        block = BLOCK
        while worked >= self._before[-1]:
            self._cover(self._end, self._end + block)
            block *= 2
        block = BLOCK
        while worked < self._before[0]:
            self._cover(self._first - block, self._first)
            block *= 2
        at = bisect_right(self._before, worked) - 1
        return self._begins[at] + worked - self._before[at]
