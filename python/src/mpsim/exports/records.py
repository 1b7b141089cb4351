"""Turns rows of an export into records of a trace."""

from __future__ import annotations

import contextlib
import re
from itertools import islice
from operator import gt
from typing import TYPE_CHECKING

from ..limits import SOURCES
from ..names import name_for
from ..times.moments import Moments
from ..times.texts import DAY, Asks, Cache, Unread, day_of
from ..times.zones import Zone
from .arrivals import AGES
from .values import Code, Demand

if TYPE_CHECKING:
    from collections.abc import Mapping, Sequence

    from .conditions import Condition
    from .events import Log
    from .plan import Column

# Moments are stored as 64-bit integers, which reach from 1684 to 2255.
MOST = 9 * 10**18


class Dates:
    """A column of dates: its index (`column`) and `how` to read it (Moments)."""

    def __init__(self, column: int, how: Moments) -> None:
        self.column, self.how = column, how

    def midnight(self, row: Sequence[str]) -> int:
        """Returns the wall-clock midnight of a row's day (int, nanoseconds since 1970). Raises Unread or Asks, with the `column`."""
        try:
            return self.how.dates[row[self.column]]
        except (Unread, Asks) as error:
            error.column = self.column
            raise


class Numbers:
    """Three columns of numbers that give a day: the indices (`columns`) of its year, month and day.

    >>> from mpsim.exports.records import Numbers
    >>> Numbers([2, 0, 1]).midnight(["3", "02", "1970"]) // DAY
    60
    """

    def __init__(self, columns: Sequence[int]) -> None:
        self.columns, self._midnights = tuple(columns), Cache(self._work)

    def midnight(self, row: Sequence[str]) -> int:
        """Does what Dates.midnight does."""
        year, month, day = self.columns
        return self._midnights[row[year], row[month], row[day]]

    def _work(self, texts: tuple[str, str, str]) -> int:
        year = self._number(0, texts, r"[1-9]\d{3}", "not a year of four digits")
        month = self._number(1, texts, r"0?[1-9]|1[0-2]", "not a month from 1 to 12")
        day = self._number(2, texts, r"0?[1-9]|[12]\d|3[01]", "not a day from 1 to 31")
        try:
            return day_of(year, month, day)
        except Unread:
            raise self._error(2, "not a day of its month") from None

    def _number(self, at: int, texts: Sequence[str], pattern: str, why: str) -> int:
        text = texts[at].strip()
        if not re.fullmatch(pattern, text, re.ASCII):
            raise self._error(at, why if text else "empty")
        return int(text)

    def _error(self, at: int, why: str) -> Unread:
        error = Unread(why)
        error.column = self.columns[at]
        return error


class Times:
    """A column of times: its index (`column`) and `how` to read it (Moments), in a Zone; if it has only a time of day, `dates` (Dates, Numbers or
    None) gives the day. `arrival` (Times or None) is the column of arrivals, unless this is it."""

    _seen: dict[str, tuple[int, bool]]

    def __init__(self, column: int, how: Moments, zone: Zone, dates: Dates | Numbers | None = None, arrival: Times | None = None) -> None:
        self.column, self.how, self.zone, self.dates = column, how, zone, dates
        # The hours of a timetable go on from the day of the arrival, also after midnight.
        self._timetable = arrival if arrival and arrival.how.form == how.form == "gtfs" else None
        self._seen = {}

    def first(self, row: Sequence[str], until: int | None = None) -> int:
        """Returns the moment of a row; if its hour occurs twice, the last that isn't after `until`, if given. Without a date it is on day 0."""
        if self.dates is None:
            return self.how.of(row[self.column], None, until)
        return self.zone.utc(self.dates.midnight(row) + self.how.of(row[self.column]), self._seen, None, until)

    def is_like(self, rows: Sequence[Sequence[str]], column: int) -> bool:
        """Returns whether most of the first fields of another column are times of this form. Numbers that count from a day, such as seconds from
        1970, are times only if they are within ten years of this column's."""
        how, rows = Moments(self.how.form, Zone()), list(islice((row for row in rows if row[column].strip()), 100))
        fields = [row for row in rows if how.is_one(row[column])]
        if how.form in ("unix", "unixms", "excel") and not self.how.is_of_day:
            fields = [row for row in fields if how.is_one(row[self.column]) and abs(how.of(row[column]) - how.of(row[self.column])) < AGES]
        return 2 * len(fields) > len(rows)

    def clocks(self) -> list[Moments]:
        """Returns the ways to read a time of day or a tick whose texts could also be lengths."""
        form, clocks = self.how.form, [Moments("clock", Zone())]
        if form == "ticks" or self.how.is_of_day and form != "clock":
            clocks.append(Moments(form, Zone()))
        if form == "excel" and self.how.is_of_day:
            clocks[-1].make_of_day()
        return clocks

    def could_be(self, texts: Sequence[str]) -> bool:
        """Returns whether most of the first texts of another column could be times of day, or ticks."""
        texts, clocks = list(islice(filter(str.strip, texts), 100)), self.clocks()
        return 2 * sum(any(how.is_one(text) for how in clocks) for text in texts) > len(texts)

    def descents(self, texts: Sequence[str]) -> int:
        """Returns how often times go back, by a clock that never changes."""
        how, found = Moments(self.how.form, Zone()), []
        for text in texts:
            with contextlib.suppress(ValueError, OverflowError):
                found.append(how.of(text))
        return sum(later < earlier for earlier, later in zip(found, islice(found, 1, None)))

    def day(self, row: Sequence[str]) -> int:
        """Returns the wall-clock midnight of a row's day; day 0 without a date."""
        return self.dates.midnight(row) if self.dates else 0

    def later(self, row: Sequence[str], than: int) -> int:
        """Returns the moment of a row at or after another one. A time of day is its next occurrence."""
        value = self.how.of(row[self.column], than)
        if not self.how.is_of_day:
            return value
        shown = self.zone.wall(than)
        midnight = self._timetable.day(row) if self._timetable else shown // DAY * DAY
        try:
            moment = self.zone.utc(midnight + value, self._seen, than)
        except Unread:
            # It is skipped on this day, before `than`, so it is on the next.
            if midnight + value >= shown:
                raise
            moment = than - 1
        return moment if moment >= than else self.zone.utc(midnight + DAY + value, self._seen, than)

    def many_later(self, columns: Sequence[Sequence[str]], than: Sequence[int]) -> Sequence[int]:
        """Returns the moments (list or array of int) of rows, given as columns, at or after other ones. Raises Unread if one needs individual
        treatment."""
        found = self.how.many(columns[self.column])
        if any(map(gt, than, found)):
            raise Unread("one by one")
        return found


class TooManySources(ValueError):
    """An export has more sources than a model may have."""


class Left(ValueError):
    """A row to leave out: the index of the column that can't be read, None for the whole row, and the reason."""

    def __init__(self, column: int | None, why: str) -> None:
        super().__init__(column, why)
        self.column, self.why = column, why


class Unwanted(Exception):
    """A row that a condition excludes."""


class Records:
    """Makes records from rows. `width` is the number of fields in the header, `time` the arrival (Times), `answered` the beginnings of services with
    an `End` (list of Times), `values` the columns of the trace. `source` is a column, or `only` the name that all records get; `renamed` has given
    names, and `known` the allowed ones (None for any). Rows that don't meet all `conditions` (list of Condition), and those that arrive before
    `begins` or not before `ends` (moments or None), are excluded. `ended` (Times or None) are ends of services if the rows are in their order, which
    says which hour is meant if it occurs twice. Jobs that meet all conditions of `gone` (list of Condition), if there are any, gave up;
    `served` counts services of theirs above 0, which are taken as 0."""

    names: dict[str, str]
    conditions: list[Condition | Log]
    gone: list[Condition]
    begins: int | None
    ends: int | None
    ended: Times | None
    _used: set[str]
    _numbers: dict[str, int]

    def __init__(
        self,
        width: int,
        time: Times,
        answered: Sequence[Times],
        values: Sequence[Column],
        source: int | None = None,
        only: str | None = None,
        renamed: Mapping[str, str] | None = None,
        known: Sequence[str] | None = None,
    ) -> None:
        self.width, self.time, self.answered, self.values = width, time, answered, values
        self.source, self.only, self.known = source, only or "", known
        self.renamed, self.names, self.conditions, self.begins, self.ends = renamed or {}, {}, [], None, None
        self.ended, self.gone, self.served = None, [], 0
        self._taken, self._used = set(self.renamed.values()), set()
        self._named, self._numbers = Cache(self._name_of), {}
        self._codes = [(at, it) for at, it in enumerate(values) if isinstance(it, Code)]

    def _name_of(self, text: str) -> str:
        text = text.strip()
        if not text:
            raise Unread("empty")
        if text in self.names:
            return self.names[text]
        made = self.renamed.get(text) or name_for(text, self._taken, self._numbers)
        if self.known is None and made not in self._used and len(self._used) >= SOURCES:
            raise TooManySources(f"more than {SOURCES} sources, the limit of a model: give one name for all, or --rename several to one")
        if self.known is not None and made not in self.known:
            raise Unread(f"the model has no source {made}")
        self.names[text] = made
        self._taken.add(made)
        self._used.add(made)
        return made

    def many(self, rows: Sequence[Sequence[str]]) -> list[Sequence[str] | Sequence[int]]:
        """Returns records as columns (sources, moments, and each of the values) for rows that meet the conditions and need no individual treatment.
        Raises ValueError if one may; nothing visible has changed then."""
        if self.time.dates or self.ended or self.gone:
            raise Unread("one by one")
        self.judge_widths(rows)
        columns = list(zip(*rows))
        stamps = self.time.how.many(columns[self.time.column])
        first, last = min(stamps), max(stamps)
        if not -MOST < first <= last < MOST or not self._is_within(first) or not self._is_within(last):
            raise Unread("one by one")
        begun = [stamps, *(item.many_later(columns, stamps) for item in self.answered)]
        values = [value.many(columns, begun) for value in self.values]
        named: list[str] = [self.only] * len(rows) if self.source is None else list(map(self._named.__getitem__, columns[self.source]))
        for at, column in self._codes:
            values[at] = list(map(column.code, rows))
        return [named, stamps, *values]

    def judge_widths(self, rows: Sequence[Sequence[str]]) -> None:
        """Raises ValueError unless all rows have as many fields as the header."""
        if set(map(len, rows)) != {self.width}:
            raise Unread("one by one")

    def _unserved(self, value: Column, row: Sequence[str]) -> int:
        """Returns the service of a job that gave up, and counts it if the export has another."""
        if isinstance(value, Demand) and row[value.column].strip():
            with contextlib.suppress(ValueError):
                self.served += value.how.ticks[row[value.column]] > 0
        return 0

    def _is_within(self, stamp: int) -> bool:
        return (self.begins is None or stamp >= self.begins) and (self.ends is None or stamp < self.ends)

    def of(self, row: Sequence[str]) -> list[str | int]:
        """Returns a record: a list of the source, the moment, and the values. Raises Left if the row can't be read, Unwanted if it is excluded, and
        Asks, with the `column`."""
        if len(row) != self.width and (len(row) < self.width or any(row[self.width :])):
            raise Left(None, f"the number of fields isn't the header's {self.width}")
        at = self.time.column
        try:
            for condition in self.conditions:
                at = condition.column
                if not condition.holds(row):
                    raise Unwanted
            until = None
            if self.ended is not None and row[self.ended.column].strip():
                at = self.ended.column
                until = self.ended.first(row)
            at = self.time.column
            stamp = self.time.first(row, until)
            if not -MOST < stamp < MOST:
                raise Unread("out of the range of times")
            if not self._is_within(stamp):
                raise Unwanted
            begun, gone = [stamp], False
            for condition in self.gone:
                at = condition.column
                gone = condition.holds(row)
                if not gone:
                    break
            for item in [] if gone else self.answered:
                at = item.column
                begun.append(item.later(row, stamp))
                if begun[-1] < stamp:
                    raise Unread("before the job arrives")
            values = []
            for value in self.values:
                at = value.column
                values.append(self._unserved(value, row) if gone and value.is_service else value.of(row, begun))
            at = -1 if self.source is None else self.source
            source = self.only if self.source is None else self._named[row[at]]
        except Unread as error:
            raise Left(getattr(error, "column", at), str(error)) from None
        except OverflowError:
            raise Left(at, "out of the range of dates") from None
        except Asks as error:
            if not hasattr(error, "column"):
                error.column = at
            raise
        for at, column in self._codes:
            values[at] = column.code(row)
        return [source, stamp, *values]
