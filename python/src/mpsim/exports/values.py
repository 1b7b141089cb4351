"""The columns of a trace after the time: service times and waits, and words as numbers. The services (`is_service`) of a job that gave up are 0."""

from __future__ import annotations

from operator import sub
from typing import TYPE_CHECKING

from ..limits import GREATEST_VALUE
from ..times.texts import HOUR, Asks, Unread

if TYPE_CHECKING:
    from collections.abc import Mapping, Sequence

    from ..times.lengths import Lengths
    from ..times.moments import Moments
    from ..times.zones import Zone
    from .conditions import Condition
    from .expressions import Expression
    from .records import Times

# Clocks are set back by half an hour or more: a shorter service is the shortest there may be.
REPEATED = HOUR // 2
# The columns that jobs which gave up need: how long each waited, and whether it gave up.
WAIT, ABANDONED = "wait", "abandoned"
# In place of a unit: the column has times, not lengths.
TIME = "time"


def other_length(zone: Zone, begin: int, end: int) -> int | None:
    """Returns the nanoseconds (int) that count between two moments if they would be fewer with one of them in the other of two hours that the clock
    of a Zone shows alike; None if they wouldn't, or if the order of the rows says which hour it is.

    >>> from mpsim.times.zones import Zone
    >>> other_length(Zone("Europe/Berlin", "first"), 1792889700 * 10**9, 1792894080 * 10**9) // 10**9
    780
    """
    if not zone.name or end - begin < REPEATED or zone.twice not in ("first", "second"):
        return None
    counted = zone.counted
    least = min(counted(last) - counted(first) for first in zone.both(begin) for last in zone.both(end) if first <= last)
    return least if least < counted(end) - counted(begin) else None


class Demand:
    """A column of service times (Lengths); `empty` is the number of ticks for an empty field, or None to leave the row out."""

    is_service = True

    def __init__(self, name: str, column: int, how: Lengths, empty: int | None = None) -> None:
        self.name, self.column, self.how, self.empty = name, column, how, empty

    def of(self, row: Sequence[str], begun: Sequence[int]) -> int:
        """Returns the ticks (int) of a row. `begun` has the moments of the arrival and of the beginnings of services. Raises Unread and Asks."""
        text = row[self.column]
        return self.empty if self.empty is not None and not text.strip() else self.how.ticks[text]

    def many(self, columns: Sequence[Sequence[str]], begun: Sequence[Sequence[int]]) -> list[int]:
        """Returns the ticks (list of int) of rows, given as columns. Raises Unread if one needs individual treatment."""
        return list(map(self.how.ticks.__getitem__, columns[self.column]))

    @property
    def rounded(self) -> int:
        """The number of distinct texts that aren't whole ticks."""
        return self.how.rounded


class Sum:
    """Service times (`parts`, a list of Demand, End or Expression) with one name, which are rounded to ticks and added up."""

    is_service = True

    def __init__(self, parts: Sequence[Demand | End | Expression]) -> None:
        self.parts, self.name = parts, parts[0].name
        self.column: int = parts[0].column

    def of(self, row: Sequence[str], begun: Sequence[int]) -> int:
        """Returns the ticks (int) of a row. `begun` has the moments of the arrival and of the beginnings of services. Raises Unread and Asks."""
        total = 0
        for part in self.parts:
            try:
                total += part.of(row, begun)
            except (Unread, Asks) as error:
                if not hasattr(error, "column"):
                    error.column = part.column
                raise
        if total > GREATEST_VALUE:
            raise Unread("above 2^36 ticks")
        return total

    def many(self, columns: Sequence[Sequence[str]], begun: Sequence[Sequence[int]]) -> list[int]:
        """Returns the ticks (list of int) of rows, given as columns. Raises Unread if one needs individual treatment."""
        totals = list(map(sum, zip(*(part.many(columns, begun) for part in self.parts))))
        if max(totals) > GREATEST_VALUE:
            raise Unread("one by one")
        return totals

    @property
    def rounded(self) -> int:
        """The number of distinct texts of its parts that aren't whole ticks."""
        return sum(getattr(part, "rounded", 0) for part in self.parts)


class End:
    """The time from the beginning of a service to its end in a column (Times), rounded to ticks. `begin` (int) selects the beginning: 0 is the
    arrival, 1 and up those of `Records.answered`."""

    is_service = True

    def __init__(self, name: str, times: Times, tick: int, empty: int | None = None, begin: int = 0) -> None:
        self.name, self.times, self.tick, self.empty, self.begin = name, times, tick, empty, begin
        self.column: int = times.column

    def of(self, row: Sequence[str], begun: Sequence[int]) -> int:
        """Returns the ticks (int) of a row. `begun` has the moments of the arrival and of the beginnings of services. Raises Unread and Asks."""
        if self.empty is not None and not row[self.column].strip():
            return self.empty
        begin = begun[self.begin]
        end = self.times.later(row, begin)
        if end < begin:
            raise Unread("before the service begins")
        least = other_length(self.times.zone, begin, end)
        if least is not None:
            lengths = f"{self._ticks(least)} or {self._ticks(self.times.zone.length(begin, end))} ticks"
            raise Asks(f"the service is {lengths} long, since an hour occurs twice: give --twice order, for rows in order of --time or of --end")
        return self._ticks(self.times.zone.length(begin, end))

    def _ticks(self, length: int) -> int:
        ticks = (2 * length + self.tick) // (2 * self.tick)
        if ticks > GREATEST_VALUE:
            raise Unread("above 2^36 ticks")
        return ticks

    def many(self, columns: Sequence[Sequence[str]], begun: Sequence[Sequence[int]]) -> list[int]:
        """Returns the ticks (list of int) of rows, given as columns. Raises Unread if one needs individual treatment."""
        if self.empty is not None:
            raise Unread("one by one")
        ends, zone = self.times.many_later(columns, begun[self.begin]), self.times.zone
        lengths = list(map(zone.length, begun[self.begin], ends)) if zone.working else list(map(sub, ends, begun[self.begin]))
        is_doubtful = zone.twice in ("first", "second") and (zone.working is not None or max(lengths) >= REPEATED)
        if is_doubtful or max(lengths) >= GREATEST_VALUE * self.tick:
            raise Unread("one by one")
        tick, half = self.tick, self.tick // 2
        return [(length + half) // tick for length in lengths]


class Wait:
    """How long a job waited, in the first of some columns (`parts`, a list of Demand or End) that isn't empty. `unsure` has the columns without a
    unit, and the option that names each (dict): a text that could be a time in one of these formats (`clocks`, a list of Moments) needs one."""

    is_service = False

    def __init__(self, name: str, parts: Sequence[Demand | End], unsure: Mapping[int, str], clocks: Sequence[Moments]) -> None:
        self.name, self.parts, self.unsure, self.clocks = name, parts, unsure, clocks
        self.column: int = parts[0].column

    def of(self, row: Sequence[str], begun: Sequence[int]) -> int:
        """Returns the ticks (int) of a row. `begun` has the moment of the arrival first. Raises Unread and Asks, with the `column`."""
        part = next((part for part in self.parts if row[part.column].strip()), self.parts[0])
        option = self.unsure.get(part.column)
        try:
            if option and any(how.is_one(row[part.column]) for how in self.clocks):
                raise Asks(f"it could be the length of the wait, or the time at which the wait ended: give its unit, {option}:s or {option}:{TIME}")
            return part.of(row, begun)
        except (Unread, Asks) as error:
            error.column = part.column
            raise

    def many(self, columns: Sequence[Sequence[str]], begun: Sequence[Sequence[int]]) -> list[int]:
        """Raises Unread, since each row needs individual treatment."""
        raise Unread("one by one")


class Abandoned:
    """Whether a job gave up, which it did if it meets all conditions (list of Condition), as 1 or 0."""

    # It is in several columns of the export, or none.
    is_service, column = False, -1

    def __init__(self, name: str, conditions: Sequence[Condition]) -> None:
        self.name, self.conditions = name, conditions

    def of(self, row: Sequence[str], begun: Sequence[int]) -> int:
        """Returns 1 for the row of a job that gave up, else 0. Raises Unread and Asks."""
        return int(all(condition.holds(row) for condition in self.conditions))

    def many(self, columns: Sequence[Sequence[str]], begun: Sequence[Sequence[int]]) -> list[int]:
        """Raises Unread, since each row needs individual treatment."""
        raise Unread("one by one")


class Constant:
    """The same ticks for all records."""

    is_service = True

    def __init__(self, name: str, ticks: int) -> None:
        # It is in no column of the export.
        self.name, self.column, self.ticks = name, -1, ticks

    def of(self, row: Sequence[str], begun: Sequence[int]) -> int:
        """Returns the ticks (int) of a row."""
        return self.ticks

    def many(self, columns: Sequence[Sequence[str]], begun: Sequence[Sequence[int]]) -> list[int]:
        """Returns the ticks (list of int) of rows, given as columns."""
        return [self.ticks] * len(columns[0])


class Code:
    """A column of words as numbers. Words in `known` (dict or None) have theirs; others are numbered in order of their first record, from 0 or from
    the greatest known number plus 1."""

    is_service = False

    def __init__(self, name: str, column: int, known: Mapping[str, int] | None = None) -> None:
        self.name, self.column, self.known, self.codes = name, column, known, dict(known or {})
        self._next = max(self.codes.values(), default=-1) + 1

    def of(self, row: Sequence[str], begun: Sequence[int]) -> int:
        """Returns 0: words of rows that are left out get no number, and `code` is called only for rows that stay."""
        return 0

    def many(self, columns: Sequence[Sequence[str]], begun: Sequence[Sequence[int]]) -> list[int]:
        """Returns nothing yet: `code` is called for each row that stays."""
        return []

    def code(self, row: Sequence[str]) -> int:
        """Returns the number (int) of the word in a row, the next one for a new word."""
        word = row[self.column].strip()
        number = self.codes.get(word)
        if number is None:
            number = self.codes[word] = self._next
            self._next += 1
        return number
