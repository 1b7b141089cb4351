"""The formats of times: detects them where possible, and recognises times among numbers that are read as ticks."""

from __future__ import annotations

import re
from datetime import datetime, timezone
from typing import TYPE_CHECKING

from ..wording import quoted
from . import months
from .texts import CLOCK, ISO_DAY, ISO_REST, RFC_DAY, RFC_REST

if TYPE_CHECKING:
    from collections.abc import Iterable, Sequence

# Plain numbers don't show what they mean.
NUMBERS = "ticks", "unix", "unixms", "hmm", "hmmss", "excel"
NAMES = "iso", "rfc", "months", "clock", "gtfs", *NUMBERS
# What may follow a date: its pattern and its directives.
_CLOCKS = {
    r"": "",
    r"\s\d{1,2}:\d\d": " %H:%M",
    r"\s\d{1,2}:\d\d:\d\d": " %H:%M:%S",
    r"\s\d{1,2}:\d\d:\d\d\.\d{1,6}": " %H:%M:%S.%f",
    r"\s\d{1,2}:\d\d\s?[AaPp]\.?\s?[Mm]\.?": " %I:%M %p",
    r"\s\d{1,2}:\d\d:\d\d\s?[AaPp]\.?\s?[Mm]\.?": " %I:%M:%S %p",
}
_DATE = r"(?:19|20)\d\d(?:0[1-9]|1[0-2])(?:0[1-9]|[12]\d|3[01])"
_HOUR = r"(?:[01]\d|2[0-3])[0-5]\d"
_PACKED = {rf"{_DATE}{_HOUR}[0-5]\d": "%Y%m%d%H%M%S", rf"{_DATE}{_HOUR}": "%Y%m%d%H%M", _DATE: "%Y%m%d"}
_PLAIN = {
    "iso": f"(?:{ISO_DAY.pattern})(?:{ISO_REST.pattern})?",
    "clock": CLOCK.pattern,
    "rfc": rf"{RFC_DAY.pattern}\s+{RFC_REST.pattern}",
}


# Dates with a separator: the separator, the pattern of what follows, and its directives.
_DATES = {
    rf"\d+{re.escape(mark)}\d+{re.escape(mark)}\d+{comma}{pattern}": (mark, comma + pattern, comma + clock)
    for mark in "./-"
    for comma in ("", ",")
    for pattern, clock in _CLOCKS.items()
    if clock or not comma
}


def _matches(pattern: str, texts: Sequence[str]) -> list[re.Match[str]]:
    """Returns the matches of a pattern if at least nine in ten texts match, else an empty list."""
    found = [text for text in map(re.compile(pattern, re.ASCII).fullmatch, texts) if text]
    return found if 10 * len(found) >= 9 * len(texts) else []


def found_format(texts: Sequence[str]) -> str:
    """Returns the format of texts of times: a name from NAMES or a strptime format. Raises ValueError if it can't be detected.

    >>> found_format(["02.03.2026 08:00:17", "02.03.2026 08:00:05"])
    '%d.%m.%Y %H:%M:%S'
    """
    texts = [text.strip().replace("\u202f", " ").replace("\u00a0", " ") for text in texts if text.strip()]
    if not texts:
        raise ValueError("there is no time from which to detect the format")
    some = texts[:1000]
    for pattern, form in _PACKED.items():
        if _matches(pattern, some):
            return form
    if _matches(r"\d+(?:[.,]\d+)?", some):
        raise ValueError(f"{quoted(texts[0])} is a number: the format is one of {', '.join(NUMBERS)}, or a strptime format such as %H.%M")
    for form, pattern in _PLAIN.items():
        if _matches(pattern, some):
            late = next((text for text in texts if re.match(r"(?:2[5-9]|3\d):[0-5]\d", text)), None) if form == "clock" else None
            if late:
                raise ValueError(f"{quoted(late)} has an hour above 24: the format is gtfs, if hours go on after midnight, or clock")
            return form
    for pattern, (mark, rest, clock) in _DATES.items():
        if _matches(pattern, some):
            return _found_date(texts, mark, rest, clock)
    if 10 * sum(map(months.is_one, some)) >= 9 * len(some):
        return "months"
    for pattern in (*_PACKED, *_PLAIN.values(), *_DATES):
        are = [bool(re.fullmatch(pattern, item, re.ASCII)) for item in some]
        if 2 * sum(are) > len(are):
            odd, like = some[are.index(False)], some[are.index(True)]
            raise ValueError(f"{quoted(odd)} isn't written like {quoted(like)}; if you give a format, such rows are left out")
    raise ValueError(f"the format of {quoted(texts[0])} can't be detected")


def _found_date(texts: Sequence[str], mark: str, rest: str, clock: str) -> str:
    """Returns the format of dates with this separator, followed by this pattern, whose format is `clock`."""
    two, four = rf"(\d{{1,2}}){re.escape(mark)}(\d{{1,2}}){re.escape(mark)}", r"(\d{4})"
    if _matches(rf"\d{{4}}{re.escape(mark)}\d{{1,2}}{re.escape(mark)}\d{{1,2}}{rest}", texts):
        return f"%Y{mark}%m{mark}%d{clock}"
    if not (found := _matches(two + four + rest, texts)):
        short = _matches(rf"{two}(\d\d){rest}", texts)
        like = _orders(short, mark, "%y", clock) if short else [f"%d{mark}%m{mark}%y{clock}"]
        raise ValueError(f"{quoted(texts[0])} has a two-digit year: the format may be {' or '.join(map(repr, like))}")
    like = _orders(found, mark, "%Y", clock)
    if len(like) == 1:
        return like[0]
    raise ValueError(f"{quoted(texts[0])} could begin with the day or with the month: the format is {' or '.join(map(repr, like))}")


def _orders(found: Sequence[re.Match[str]], mark: str, year: str, clock: str) -> list[str]:
    """Returns the formats (list of str) that dates may have whose first two numbers were found: with the day first, the month first, or, if both are
    above 12 and the year has two digits, the year."""
    day, month = f"%d{mark}%m{mark}{year}{clock}", f"%m{mark}%d{mark}{year}{clock}"
    first, second = max(int(item[1]) for item in found), max(int(item[2]) for item in found)
    if second <= 12 and (first > 12 or mark == "."):
        return [day]
    if first <= 12 < second:
        return [month]
    if year == "%y" and min(first, second) > 12:
        return [f"%y{mark}%m{mark}%d{clock}"]
    return [day, month]


def judged_format(form: str) -> str:
    """Returns a format that was given. Raises ValueError if it is invalid, or has a day but no year."""
    if form in NAMES:
        return form
    if "%" not in form:
        raise ValueError(f"{form!r} isn't a format: it is one of {', '.join(NAMES)}, or a strptime format such as %d.%m.%Y %H:%M")
    # Recent versions of Python warn when such a format is used.
    if re.search(r"%[djUWbBm]", form) and not re.search(r"%[YyGcx]", form):
        raise ValueError(f"the format {form!r} has a day but no year")
    try:
        text = datetime(2026, 3, 2, 13, 5, 9, tzinfo=timezone.utc).strftime(form)
        datetime.strptime(text, form)
    except ValueError as error:
        raise ValueError(f"{form!r} isn't a valid strptime format: {error}") from None
    return form


def is_of_day(form: str) -> bool:
    """Returns whether a format contains only a time of day."""
    return form in ("clock", "gtfs", "hmm", "hmmss") or "%" in form and not re.search("%[YyjdcxGDF]", form)


def looks_like_clocks(values: Iterable[int]) -> str | None:
    """Returns what whole numbers that are to be ticks look like (str), or None: their values stay within what a calendar or a clock shows.

    >>> looks_like_clocks([20260302080017, 20260302080018])
    'dates with a time, such as 20260302080017'
    """
    values = list(values)
    if not values:
        return None
    if all(re.fullmatch(rf"{_DATE}{_HOUR}(?:[0-5]\d)?", str(value)) for value in values):
        return f"dates with a time, such as {values[0]}"
    for least, greatest, what in (10**9, 4 * 10**9, "seconds"), (10**12, 4 * 10**12, "milliseconds"):
        if all(least <= value < greatest for value in values):
            return f"{what} since 1970, such as {values[0]}"
    # Twenty random numbers hardly ever all end in at most 59.
    if len(values) >= 20 and len({value % 100 for value in values}) > 5 and all(value % 100 < 60 for value in values):
        if 99 < max(values) < 2400:
            return f"times of day, such as {max(values)}"
        if 59999 < max(values) < 240000 and all(value // 100 % 100 < 60 for value in values):
            return f"times of day with seconds, such as {max(values)}"
    return None
