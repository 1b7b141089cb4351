"""Reads columns of times in one format, fast enough for a million rows."""

from __future__ import annotations

import contextlib
import re
from datetime import datetime
from functools import partial
from operator import add, itemgetter, methodcaller
from typing import TYPE_CHECKING

from . import clocks, months
from .formats import is_of_day
from .texts import DAY, HOUR, LONGEST, SECOND, SPREADSHEET, Asks, Cache, Unread, at_utc, clock, excel, gtfs, hmm, hmmss
from .texts import iso_day, iso_rest, nanos, rfc_day, rfc_rest, there

if TYPE_CHECKING:
    from collections.abc import Callable, Sequence
    from typing import Optional, Tuple

    from .zones import Zone

    Parts = Tuple[Callable[[str], Sequence[str]], Callable[[str], int], Callable[[str], Tuple[int, Optional[int]]]]

_MIDNIGHT = nanos(datetime(1900, 1, 1))
# Formats that clock() reads in a twelfth of the time. Unlike strptime it takes times without the seconds or the fraction that a format names.
_PLAIN_CLOCKS = "%H:%M", "%H:%M:%S", "%H:%M:%S.%f", "%I:%M %p", "%I:%M:%S %p"


def _width_of(form: str) -> int | None:
    """Returns the number of digits of a purely numeric format such as %H%M, None for another. strptime accepts fewer: it would read 135 as 13:05."""
    return sum({"Y": 4, "j": 3}.get(item, 2) for item in form[1::2]) if re.fullmatch("(?:%[YyjmdHIMS]){2,}", form) else None


def _read_as(form: str) -> Callable[[str], datetime]:
    """Returns a function that reads a text in a strptime format as a datetime."""
    width = _width_of(form)

    def read(text: str) -> datetime:
        try:
            if width in (None, len(text)):
                return datetime.strptime(text, form)
        except ValueError:
            pass
        raise Unread(f"not of the format {form}")

    return read


def _day_as(form: str) -> Callable[[str], int]:
    read = _read_as(form)
    return lambda text: nanos(read(text))


def _clock_of(form: str, text: str) -> int:
    """Returns the nanoseconds since midnight of a time that has no more than a format from _PLAIN_CLOCKS, and AM or PM if the format has it. Raises
    Unread."""
    has_half = bool(re.search("[AaPp]\\.?\\s?[Mm]", text))
    if "%p" in form and not has_half:
        raise Unread("a time without AM or PM")
    if text.count(":") > form.count(":") or "%f" not in form and re.search(r":\d\d[.,]", text) or has_half and "%p" not in form:
        raise Unread(f"not of the format {form}")
    return clock(text)


def _clock_as(form: str) -> Callable[[str], tuple[int, int | None]]:
    as_given = _read_as(form)
    if form in _PLAIN_CLOCKS:
        return lambda text: (_clock_of(form, text), None)
    return lambda text: (nanos(as_given(text)) - _MIDNIGHT, None)


def _since_midnight(read: Callable[[str], tuple[int, int | None]]) -> Callable[[str], int]:
    """Returns a function that reads a time of day without its offset."""
    return lambda text: read(text)[0]


def _iso_parts(text: str) -> tuple[str, str]:
    text = text.strip()
    at = 10 if text[4:5] == "-" else 8
    return text[:at], text[at:]


def _rfc_parts(text: str) -> tuple[str, str]:
    at = max(text.find(":") - 2, 0)
    return text[:at], text[at:]


def _packed_parts(text: str) -> tuple[str, str]:
    text = text.strip()
    return text[:8], text[8:]


def _parts_of(form: str) -> Parts | None:
    """Returns how to split a text into a day and the rest, and how to read each; None if it can't be split. Both parts repeat often, so they are
    cached. Splitting may give fewer than two parts."""
    if form == "iso":
        return _iso_parts, iso_day, iso_rest
    if form == "rfc":
        return _rfc_parts, rfc_day, rfc_rest
    if form == "months":
        return months.parts, months.day, lambda rest: (clock(rest) if rest else 0, None)
    if form == "%Y%m%d%H%M%S":
        return _packed_parts, _day_as("%Y%m%d"), _clock_as("%H%M%S")
    day, _, rest = form.partition(" ")
    if not rest or is_of_day(day) or not is_of_day(rest) or any(item in form for item in ("%z", "%Z")) or re.search("%[HIMSfp]", day):
        return None
    return methodcaller("split", None, 1), _day_as(day), _clock_as(rest)


class Moments:
    """A column of times in one format, in a Zone.

    `of(text, than, until)` returns the moment of a text (int, nanoseconds since 1970; wall-clock time without a zone or an offset), which isn't
    before `than` nor after `until`, unless they are None. If the format has only a time of day (`is_of_day`), it is nanoseconds since midnight; for
    the format ticks it is a number of ticks. It raises Unread for an invalid text, and Asks. `has_offsets` and `has_none` record what was met;
    for the format clock, `halves` has True for times with AM or PM and False for times that may lack it."""

    halves: set[bool]
    _seen: dict[str, tuple[int, bool]]
    of: Callable[..., int]
    dates: Cache[str, int]

    def __init__(self, form: str, zone: Zone) -> None:
        self.form, self.zone, self.is_of_day = form, zone, is_of_day(form)
        self.has_offsets, self.has_none, self.halves = form in ("unix", "unixms"), False, set()
        self._unit = {"ticks": 1, "unix": SECOND, "unixms": SECOND // 1000}.get(form, 0)
        self._seen, self._parts = {}, _parts_of(form)
        # What may be between the day and hh:mm:ss, if the format is of these two.
        self._marks = "T " if form == "iso" else " " if self._parts and form.endswith(" %H:%M:%S") else ""
        if self._parts:
            self._split, self._read_day, self._read_rest = self._parts
            self._walls, self._rests = Cache(self._read_day), Cache(self._met)
            self._caches: list[tuple[Cache[str, int], Cache[str, int]]] = [
                (Cache(self._begin_of), Cache(partial(self._rest_of, has_offset=False))),
                (self._walls, Cache(partial(self._rest_of, has_offset=True))),
            ]
        self.dates = Cache(self._date)
        if self._unit:
            self.of = self._of_number
        elif self.is_of_day:
            self.make_of_day()
        elif form == "excel":
            self.of = self._of_spreadsheet
        else:
            self.of = self._of_parts if self._parts else self._of_whole

    def make_of_day(self) -> None:
        """Reads spreadsheet numbers as fractions of a day, for times whose day is in another column."""
        self.is_of_day = True
        named = {"clock": self._clock, "gtfs": gtfs, "hmm": hmm, "hmmss": hmmss, "excel": self._part_of_day}
        read = named[self.form] if self.form in named else _since_midnight(_clock_as(self.form))
        cache: Cache[str, int] = Cache(lambda text: read(there(text)))
        self.of = lambda text, than=None, until=None: cache[text]

    def is_one(self, text: str) -> bool:
        """Returns whether a text has the format."""
        try:
            self.of(text)
            return True
        except (ValueError, OverflowError):
            return False

    def _clock(self, text: str) -> int:
        value, has_half = clock(text), text[-1] in "mM."
        if has_half or HOUR <= value < 13 * HOUR:
            self.halves.add(has_half)
        return value

    def _part_of_day(self, text: str) -> int:
        value = excel(text)
        if value >= DAY:
            raise Unread("not a fraction of a day")
        return value

    def _of_number(self, text: str, than: int | None = None, until: int | None = None) -> int:
        text = there(text)
        if text.isdigit() and text.isascii():
            return int(text) * self._unit
        if "E+" in text.upper():
            raise Unread("a rounded number: export the column with all its digits")
        whole, _, rest = text.partition(".")
        if self.form == "ticks" or not (whole.isdigit() and rest.isdigit() and text.isascii()):
            raise Unread("not a whole number" if self.form == "ticks" else "not a number")
        parts: int = 10 ** len(rest)
        return int(whole) * self._unit + int(rest) * self._unit // parts

    def _of_spreadsheet(self, text: str, than: int | None = None, until: int | None = None) -> int:
        self.has_none = True
        return self.zone.utc(excel(there(text)) + SPREADSHEET, self._seen, than, until)

    def _met(self, rest: str) -> tuple[int, int | None]:
        """Reads what follows the day, and records whether it has an offset."""
        since, offset = self._read_rest(rest)
        self.has_none |= offset is None
        self.has_offsets |= offset is not None
        return since, offset

    def _of_parts(self, text: str, than: int | None = None, until: int | None = None) -> int:
        text = there(text)
        try:
            day, rest = self._split(text)
        except ValueError:
            raise Unread(f"not of the format {self.form}") from None
        since, offset = self._rests[rest]
        return self.zone.utc(self._walls[day] + since, self._seen, than, until) if offset is None else self._walls[day] + since - offset

    def many(self, texts: Sequence[str]) -> Sequence[int]:
        """Returns the moments (list or array of int) of texts that need no individual treatment; raises Unread if one may. Those that end in hh:mm:ss
        are read all at once; other texts take two cache look-ups and a sum each."""
        if self._unit:
            return self._many_numbers(texts, self._unit)
        if not self._parts or self.is_of_day:
            raise Unread("one by one")
        if self._marks and (found := clocks.moments(texts, self._caches[False][0].__getitem__, self._marks)):
            self.has_none = True
            return found
        days, rests = self._cut(texts)
        days_of, rest_of = self._caches[self._rests[rests[0]][1] is not None]
        return list(map(add, map(days_of.__getitem__, days), map(rest_of.__getitem__, rests)))

    def _many_numbers(self, texts: Sequence[str], unit: int) -> list[int]:
        """Does what `many` does for whole numbers."""
        digits = "".join(texts)
        if not digits.isdigit() or not digits.isascii() or not all(texts) or max(map(len, texts)) > LONGEST:
            raise Unread("one by one")
        return [int(text) * unit for text in texts]

    def _cut(self, texts: Sequence[str]) -> tuple[Sequence[str], Sequence[str]]:
        """Returns the days and the rests (lists of str) of texts; raises Unread if one has no rest. All are cut at the same place if they can be,
        which is faster than to split them one by one; a day or a rest that is cut at a wrong place can't be read."""
        at, gap = texts[0].find(" "), 1
        if self.form == "iso":
            at, gap = 10 if texts[0][4:5] == "-" else 8, 0
        with contextlib.suppress(IndexError):
            if self.form == "iso" or " " in self.form and at > 0 and set(map(itemgetter(at), texts)) == {" "}:
                return list(map(itemgetter(slice(at)), texts)), list(map(itemgetter(slice(at + gap, None)), texts))
        parts = list(map(self._split, texts))
        if set(map(len, parts)) != {2}:
            raise Unread("one by one")
        days, rests = zip(*parts)
        return days, rests

    def _begin_of(self, day: str) -> int:
        """Returns the moment at which a day begins; raises Unread if clocks change on it."""
        begin = self.zone.whole_day(self._walls[day])
        if begin is None:
            raise Unread("one by one")
        return begin

    def _rest_of(self, rest: str, has_offset: bool) -> int:
        """Returns what to add to the midnight of a day; raises Unread if only some texts have an offset."""
        since, offset = self._rests[rest]
        if (offset is not None) != has_offset:
            raise Unread("one by one")
        return since - (offset or 0)

    def _of_whole(self, text: str, than: int | None = None, until: int | None = None) -> int:
        found = _read_as(self.form)(there(text))
        if found.tzinfo is not None:
            self.has_offsets = True
            return at_utc(found)
        self.has_none = True
        return self.zone.utc(nanos(found), self._seen, than, until)

    def _date(self, text: str) -> int:
        """Returns the wall-clock midnight of a date."""
        text = there(text)
        if self.form == "excel":
            value = excel(text) + SPREADSHEET
        elif self.is_of_day or self._unit:
            raise Asks(f"the format {self.form} has no day: give another --date-format")
        elif self._parts:
            day, *rest = self._split(text)
            value = self._read_day(day) + sum(self._read_rest(item)[0] for item in rest)
        else:
            value = nanos(_read_as(self.form)(text).replace(tzinfo=None))
        if value % DAY:
            raise Unread("a date with a time")
        return value
