"""Reads the agents that are needed per interval, and the forms of shifts that are allowed.

Times of day are minutes after midnight; more than 1440 of them are on the next day."""

from __future__ import annotations

import re
from datetime import date
from fractions import Fraction
from typing import TYPE_CHECKING, Dict, List, NamedTuple, Optional, Tuple

from ..files import table_rows
from ..times.texts import MINUTE, WEEKDAYS, clock, length

if TYPE_CHECKING:
    from collections.abc import Callable
    from os import PathLike

FORMS_HEAD = "form", "begin", "length", "break", "between", "cost", "most"
DAY = 1440
# The first columns of the tables of `mpplan staff`, and for how many days each name of a day holds until the next one.
KINDS = {"weekday": 7, "date": None, "day": 1}


class Need(NamedTuple):
    """Numbers of agents: whether its days are a "weekday" (numbers from Monday, 0), a "date" (numbers of days from the year 1) or a "day" like any
    other (number 0); the length of an interval (int, minutes); and the agents by the number of the interval, counted from the midnight of day 0
    (dict of int to int)."""

    kind: str
    every: int
    agents: Dict[int, int]

    def days(self) -> list[int]:
        """Returns the numbers of its days, in order."""
        return sorted({number * self.every // DAY for number in self.agents})

    def wrapped(self, number: int) -> int:
        """Returns the number of an interval in the week or the day in which the need repeats itself."""
        days = KINDS[self.kind]
        return number if days is None else number % (days * DAY // self.every)

    def name(self, number: int) -> str:
        """Returns the name of an interval, such as "Monday 08:30"."""
        day, minute = divmod(number * self.every, DAY)
        return f"{day_name(self.kind, day)} {clock_text(minute)}".strip()


class Form(NamedTuple):
    """The shifts that a row of forms allows: its name; the times of day at which they begin (list of int); their length and that of the break in it
    (int, minutes; 0 without a break); between which minutes the break is (pair of int), after the begin of the shift or, if `by_clock`, of the day;
    the cost of a shift (Fraction); and how many there may be on a day (int; None for any number)."""

    name: str
    begins: List[int]
    length: int
    pause: int = 0
    between: Tuple[int, int] = (0, 0)
    by_clock: bool = False
    cost: Fraction = Fraction(1)
    most: Optional[int] = None

    def pauses(self, begin: int, every: int) -> list[int | None]:
        """Returns the times of day at which the break of a shift may begin: the earliest, and each full interval of `every` minutes after it. Any
        other time would miss as many intervals or more. Without a break it is [None].

        >>> Form("early", [480], 480, 30, (180, 300)).pauses(480, 60)
        [660, 720]
        """
        found: set[int] = set()
        if not self.pause:
            return [None]
        for shift in (0, DAY) if self.by_clock else (begin,):
            first, last = max(begin, self.between[0] + shift), min(begin + self.length, self.between[1] + shift) - self.pause
            if first <= last:
                found |= {first, *range((first // every + 1) * every, last + 1, every)}
        return [*sorted(found)]


def read_forms(path: str | PathLike[str]) -> list[Form]:
    """Returns the forms in a CSV file with the columns of FORMS_HEAD. Raises OSError if it can't be read, and ValueError for an invalid row, with its
    number (the header is row 1).

    `begin` lists times of day and ranges such as `07:00-10:00/30min`, separated by spaces. `length` and `break` are such as `8.5h` and `30min`. The
    break is inside `between`: `3h-5h` after the begin, or `11:00-14:00` on the clock. An empty `break` is none, an empty `cost` is that of the hours
    without the break at 1 each, and an empty `most` any number."""
    forms: list[Form] = []
    for number, row in table_rows(path, list(FORMS_HEAD)):
        try:
            forms.append(_form(*(row[name] for name in FORMS_HEAD)))
            if forms[-1].name in (it.name for it in forms[:-1]):
                raise ValueError(f"the form {forms[-1].name} is there twice")
        except ValueError as error:
            raise ValueError(f"{path}: row {number}: {error}") from None
    if not forms:
        raise ValueError(f"{path}: no form of shifts")
    return forms


def _form(name: str, begin: str, lasts: str, rest: str, between: str, cost: str, most: str) -> Form:
    if not name:
        raise ValueError("the form has no name")
    if bool(rest) != bool(between):
        raise ValueError("break and between go together")
    if not re.fullmatch(r"(\d{1,9}(\.\d{1,6})?)?", cost):
        raise ValueError(f"cost {cost!r}: expected a number")
    if not re.fullmatch(r"\d{0,6}", most):
        raise ValueError(f"most {most!r}: expected a number of shifts")
    minutes, pause = _minutes("length", lasts), _minutes("break", rest) if rest else 0
    if not 0 < minutes <= DAY or pause >= minutes:
        raise ValueError(f"length {lasts!r}: a shift takes at most 24h and more than its break")
    by_clock = ":" in between
    window = _window(between, _minute if by_clock else _minutes) if rest else (0, 0)
    price = Fraction(cost) if cost else Fraction(minutes - pause, 60)
    form = Form(name, _begins(begin), minutes, pause, window, by_clock, price, int(most) if most else None)
    for at in form.begins:
        if not form.pauses(at, DAY):
            raise ValueError(f"a shift from {clock_text(at)} has no {rest} of break between {between}")
    return form


def _begins(text: str) -> list[int]:
    found: set[int] = set()
    for part in text.split():
        several = re.fullmatch(r"([^-/]+)-([^-/]+)/([^-/]+)", part)
        if several:
            first, last, step = _minute("begin", several[1]), _minute("begin", several[2]), _minutes("begin", several[3])
            if last < first or not step:
                raise ValueError(f"begin {part!r}: expected a rising range such as 07:00-10:00/30min")
            found |= {*range(first, last + 1, step)}
        else:
            found.add(_minute("begin", part))
    if not found or max(found) >= DAY:
        raise ValueError(f"begin {text!r}: expected times of day such as 08:00 or 07:00-10:00/30min")
    return sorted(found)


def _window(text: str, read: Callable[[str, str], int]) -> tuple[int, int]:
    first, mark, last = text.partition("-")
    if not mark:
        raise ValueError(f"between {text!r}: expected such as 3h-5h or 11:00-14:00")
    begin, end = read("between", first), read("between", last)
    if ":" in text and end <= begin:
        end += DAY
    return begin, end


def _minutes(what: str, text: str) -> int:
    """Returns the whole minutes of a length of time."""
    return _whole(what, text, length)


def _minute(what: str, text: str) -> int:
    """Returns the whole minutes after midnight of a time of day."""
    return _whole(what, text, clock)


def _whole(what: str, text: str, read: Callable[[str], int]) -> int:
    try:
        value, rest = divmod(read(text), MINUTE)
    except ValueError as error:
        raise ValueError(f"{what} {text!r}: {error}") from None
    if rest:
        raise ValueError(f"{what} {text!r}: not whole minutes")
    return value


def read_need(path: str | PathLike[str], column: str, every: int | None = None) -> Need:
    """Returns the Need in a CSV table of `mpplan staff`: the days in its column `weekday`, `date` or `day`, the times of day in `from`, and the
    agents in the column of this name. Rows of single queues don't count. `every` is the length of its intervals (int, minutes); None for the least
    distance of two of its times of day. Raises OSError if the file can't be read, and ValueError for an invalid row, with its number (the header is
    row 1)."""
    found: dict[tuple[int, int], int] = {}
    kind = "day"
    for number, row in table_rows(path, ["from", column]):
        if row.get("queue", "all") != "all":
            continue
        try:
            kind = next((name for name in KINDS if name in row), "day")
            at = _day_number(kind, row.get(kind, "")), _minute("from", row["from"])
            if at in found:
                raise ValueError(f"{day_name(kind, at[0])} {row['from']} is there twice: one row per interval".lstrip())
            if not re.fullmatch(r"\d{1,6}", row[column]):
                raise ValueError(f"{column} {row[column]!r}: expected a number of agents")
            found[at] = int(row[column])
        except ValueError as error:
            raise ValueError(f"{path}: row {number}: {error}") from None
    times = sorted({minute for _, minute in found})
    every = every or min((later - one for one, later in zip(times, times[1:])), default=0)
    if not every:
        raise ValueError(f"{path}: the length of its intervals is unknown: give --every")
    if DAY % every or any(minute % every for minute in times):
        raise ValueError(f"{path}: its times of day aren't those of intervals of {every} minutes")
    return Need(kind, every, {(day * DAY + minute) // every: count for (day, minute), count in sorted(found.items())})


def _day_number(kind: str, text: str) -> int:
    if kind == "day":
        return 0
    if kind == "date":
        return date.fromisoformat(text).toordinal()
    if text.capitalize() not in WEEKDAYS:
        raise ValueError(f"{text!r} isn't a weekday")
    return WEEKDAYS.index(text.capitalize())


def day_name(kind: str, day: int) -> str:
    """Returns the name of a day, by its number as Need counts them: a weekday, a date, or nothing for any day."""
    return WEEKDAYS[day] if kind == "weekday" else date.fromordinal(day).isoformat() if kind == "date" else ""


def clock_text(minute: int) -> str:
    """Returns a time of day, such as "08:30"."""
    return f"{minute // 60:02}:{minute % 60:02}"
