"""Reads times and lengths as exports write them, one text at a time. All results are whole nanoseconds; a moment counts them from 1970."""

from __future__ import annotations

import re
from datetime import datetime, timedelta
from typing import TYPE_CHECKING, Dict, TypeVar

if TYPE_CHECKING:
    from collections.abc import Callable

Key = TypeVar("Key")
Value = TypeVar("Value")
SECOND, MINUTE, HOUR, DAY = 10**9, 60 * 10**9, 3600 * 10**9, 86400 * 10**9
UNITS = {"ns": 1, "us": 1000, "ms": 10**6, "s": SECOND, "sec": SECOND, "min": MINUTE, "h": HOUR, "d": DAY}
EPOCH = datetime(1970, 1, 1)
# Day 0 of a spreadsheet, whose count is right from March 1900.
SPREADSHEET = (datetime(1899, 12, 30) - EPOCH).days * DAY


class Unread(ValueError):
    """A field that can't be read. The message is the reason, the same for all rows that fail alike; `column` (int) is the field's index, if known."""

    column: int


# A longer field is no time and no number. Python reads no number of 5,000 digits.
LONGEST = 200


def there(text: str) -> str:
    """Strips a text. Raises Unread if nothing is left, or too much."""
    text = text.strip()
    if not text or len(text) > LONGEST:
        raise Unread("empty" if not text else f"longer than {LONGEST} characters")
    return text


class Asks(ValueError):
    """A field whose meaning can't be known. The message names the option that says it; `column` (int) is the field's index, if known."""

    column: int


class Cache(Dict[Key, Value]):
    """A mapping that computes a value on first use and has a limited size, because the texts of an export repeat."""

    MOST = 1 << 18

    def __init__(self, work: Callable[[Key], Value]) -> None:
        super().__init__()
        self._work = work

    def __missing__(self, key: Key) -> Value:
        value = self._work(key)
        if len(self) < self.MOST:
            self[key] = value
        return value


def length(text: str) -> int:
    """Returns the nanoseconds (int) of a text such as `1s`, `100ms` or `0.5min`. Raises ValueError for an invalid text.

    >>> length("1.5s"), length("100ms")
    (1500000000, 100000000)
    """
    found = re.fullmatch(r"\s*([0-9]+)(?:\.([0-9]+))?\s*([a-z]+)\s*", text)
    if not found or found[3] not in UNITS:
        raise ValueError(f"not a length of time: expected a number and one of {', '.join(UNITS)}")
    rest = found[2] or ""
    parts: int = 10 ** len(rest)
    value, left = divmod(int(found[1] + rest) * UNITS[found[3]], parts)
    if left:
        raise ValueError("not a whole number of nanoseconds")
    return value


def given(option: str, read: Callable[[str], Value], text: str) -> Value:
    """Returns the meaning of an option's value. Raises ValueError with the option's name if it is invalid."""
    try:
        return read(text)
    except ValueError as error:
        raise ValueError(f"{option} {text}: {error}") from None


def nanos(moment: datetime) -> int:
    """Returns the nanoseconds since 1970 of a datetime without an offset."""
    return (moment - EPOCH) // timedelta(microseconds=1) * 1000


def moment(value: int) -> datetime:
    """Returns the datetime, without an offset, of nanoseconds since 1970, rounded down to a microsecond."""
    return EPOCH + timedelta(microseconds=value // 1000)


def at_utc(moment: datetime) -> int:
    """Returns the nanoseconds since 1970 of a datetime with an offset."""
    return nanos(moment.replace(tzinfo=None)) - (moment.utcoffset() or timedelta(0)) // timedelta(microseconds=1) * 1000


CLOCK = re.compile(r"(\d{1,2}):(\d\d)(?::(\d\d)(?:[.,](\d{1,9}))?)?\s*([AaPp]\.?\s?[Mm]\.?)?", re.ASCII)
# Spaces that a line doesn't break at, as some systems write before AM.
_SPACES = str.maketrans("\u00a0\u202f", "  ")


def clock(text: str) -> int:
    """Returns the nanoseconds since midnight of a text such as `8:05`, `08:05:09`, `08:05:09.250` or `1:30 pm`; 24:00 is the midnight at the end of
    the day, and second 60 the first of the next minute. Raises Unread.

    >>> clock("8:05") == clock("08:05:00.000"), clock("1:30 pm") // MINUTE
    (True, 810)
    """
    found = CLOCK.fullmatch(text.translate(_SPACES).strip())
    if not found:
        raise Unread("not h:mm or h:mm:ss")
    hour, minute, second = int(found[1]), int(found[2]), int(found[3] or 0)
    if found[5]:
        if not 1 <= hour <= 12:
            raise Unread("not an hour from 1 to 12 before AM or PM")
        hour = hour % 12 + (12 if found[5][0] in "pP" else 0)
    if minute > 59 or second > 60 or hour > 24 or hour == 24 and (minute or second):
        raise Unread("not a time of day")
    return hour * HOUR + minute * MINUTE + second * SECOND + _fraction(found[4])


def _fraction(digits: str | None) -> int:
    """Returns the nanoseconds of the digits of a fraction of a second, at most nine."""
    return int((digits or "0").ljust(9, "0"))


def _packed(text: str, digits: int, name: str) -> int:
    text = text.strip()
    if not (text.isascii() and text.isdigit() and len(text) <= digits):
        raise Unread(f"not a number of the form {name}")
    text = text.zfill(digits)
    return clock(":".join(text[at : at + 2] for at in range(0, digits, 2)))


def gtfs(text: str) -> int:
    """Returns the nanoseconds since midnight of a text such as `25:10:00`, whose hours go on after midnight, up to 99. Raises Unread."""
    found = re.fullmatch(r"(\d{1,2}):([0-5]\d)(?::([0-5]\d))?", text.strip(), re.ASCII)
    if not found:
        raise Unread("not h:mm:ss")
    return int(found[1]) * HOUR + int(found[2]) * MINUTE + int(found[3] or 0) * SECOND


def hmm(text: str) -> int:
    """Returns the nanoseconds since midnight of a number such as 805 or 1430: hours, and two digits of minutes. Raises Unread."""
    return _packed(text, 4, "hmm")


def hmmss(text: str) -> int:
    """Returns the nanoseconds since midnight of a number such as 80509 or 143005: hours, and two digits each of minutes and seconds. Raises
    Unread."""
    return _packed(text, 6, "hmmss")


def excel(text: str) -> int:
    """Returns the nanoseconds of a spreadsheet's number of days: 46083.25 is six o'clock on a day, 0.25 six o'clock without a day. Raises Unread."""
    found = re.fullmatch(r"\s*([0-9]{1,7})(?:[.,]([0-9]{1,20}))?\s*", text)
    if not found:
        raise Unread("not a number of days")
    # To the millisecond, as the spreadsheet shows it: its numbers have no more digits.
    rest = found[2] or "0"
    parts: int = 10 ** len(rest)
    return int(found[1]) * DAY + (int(rest) * DAY // parts + 500000) // 10**6 * 10**6


ISO_DAY = re.compile(r"(\d{4})-(\d\d)-(\d\d)|(\d{4})(\d\d)(\d\d)", re.ASCII)
# A name of a zone in brackets, as Java writes it, repeats the offset.
ISO_REST = re.compile(r"[T ](\d\d)(?::?(\d\d)(?::?(\d\d)(?:[.,](\d{1,9}))?)?)?\s*(Z|[+-]\d\d(?::?\d\d)?|[A-Z]{3,4})?(?:\[[\w/+-]+\])?", re.ASCII)


# Hours ahead of UTC for names with one meaning.
ZONES = {"Z": 0, "UTC": 0, "GMT": 0, "WET": 0, "WEST": 1, "CET": 1, "CEST": 2, "EET": 2, "EEST": 3}
ZONES.update({"EST": -5, "EDT": -4, "CDT": -5, "MST": -7, "MDT": -6, "PST": -8, "PDT": -7})


def day_of(year: int, month: int, day: int) -> int:
    """Returns the nanoseconds from 1970 to the midnight of a date. Raises Unread if there is no such date."""
    try:
        return nanos(datetime(year, month, day))
    except ValueError:
        raise Unread("not a day of the calendar") from None


def offset_of(text: str) -> int:
    """Returns the nanoseconds by which a clock is ahead of UTC, from `Z`, `+01`, `+0100` or `-05:30`. Raises Unread."""
    if text.isalpha():
        if text not in ZONES:
            raise Unread(f"the zone {text} isn't known: its name may mean several")
        return ZONES[text] * HOUR
    digits = text[1:].replace(":", "").ljust(4, "0")
    if int(digits[:2]) > 23 or int(digits[2:]) > 59:
        raise Unread("not an offset from UTC")
    return (-1 if text[0] == "-" else 1) * (int(digits[:2]) * HOUR + int(digits[2:]) * MINUTE)


def iso_day(text: str) -> int:
    """Returns the midnight of the day of an ISO 8601 time. Raises Unread."""
    found = ISO_DAY.fullmatch(text)
    if not found:
        raise Unread("not an ISO 8601 time")
    return day_of(*map(int, found.group(1, 2, 3) if found[1] else found.group(4, 5, 6)))


def iso_rest(text: str) -> tuple[int, int | None]:
    """Returns, from what follows the day of an ISO 8601 time, the nanoseconds since midnight, and the offset or None. Raises Unread."""
    found = ISO_REST.fullmatch(text) if text else None
    if text and not found:
        raise Unread("not an ISO 8601 time")
    if not found:
        return 0, None
    since = clock(f"{found[1]}:{found[2] or '00'}:{found[3] or '00'}") + _fraction(found[4])
    return since, offset_of(found[5]) if found[5] else None


def iso(text: str) -> tuple[int, int | None]:
    """Returns the wall-clock time of an ISO 8601 time, in nanoseconds since 1970, and its offset in nanoseconds or None. Raises Unread.

    >>> iso("2026-03-02T08:00:17.5+01:00")
    (1772438417500000000, 3600000000000)
    """
    text = text.strip()
    cut = 10 if text[4:5] == "-" else 8
    since, offset = iso_rest(text[cut:])
    return iso_day(text[:cut]) + since, offset


WEEKDAYS = "Monday", "Tuesday", "Wednesday", "Thursday", "Friday", "Saturday", "Sunday"
MONTHS = "Jan", "Feb", "Mar", "Apr", "May", "Jun", "Jul", "Aug", "Sep", "Oct", "Nov", "Dec"
RFC_DAY = re.compile(r"(?:([A-Za-z]{3})\s*,\s*)?(\d{1,2})\s+([A-Za-z]{3})\s+(\d{4})", re.ASCII)
RFC_REST = re.compile(r"(\d\d?):(\d\d)(?::(\d\d))?\s*([+-]\d{4}|[A-Z]+)?\s*(?:\([^()]*\))?", re.ASCII)
# Hours ahead of UTC for the names in RFC 2822. Other names have no known meaning there.
RFC_ZONES = {"UT": 0, "GMT": 0, "EST": -5, "EDT": -4, "CST": -6, "CDT": -5, "MST": -7, "MDT": -6, "PST": -8, "PDT": -7}


def rfc_day(text: str) -> int:
    """Returns the midnight of the day of an RFC 2822 time. Raises Unread."""
    found = RFC_DAY.fullmatch(text.strip())
    if not found or found[3].capitalize() not in MONTHS:
        raise Unread("not an RFC 2822 time")
    day = day_of(int(found[4]), MONTHS.index(found[3].capitalize()) + 1, int(found[2]))
    if found[1] and WEEKDAYS[moment(day).weekday()][:3] != found[1].capitalize():
        raise Unread("the weekday isn't that of the date")
    return day


def rfc_rest(text: str) -> tuple[int, int | None]:
    """Returns, from what follows the day of an RFC 2822 time, the nanoseconds since midnight, and the offset or None. Raises Unread."""
    found = RFC_REST.fullmatch(text.strip())
    if not found:
        raise Unread("not an RFC 2822 time")
    since = clock(f"{found[1]}:{found[2]}:{found[3] or '00'}")
    if not found[4]:
        return since, None
    if found[4][0] in "+-":
        return since, offset_of(found[4])
    if found[4] not in RFC_ZONES:
        raise Unread(f"the zone {found[4]} isn't one of RFC 2822")
    return since, RFC_ZONES[found[4]] * HOUR
