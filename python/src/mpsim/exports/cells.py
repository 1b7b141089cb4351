"""Texts of values that have types, as in spreadsheets and columns: as an export in text would have them, without any doubt how to read them."""

from __future__ import annotations

from datetime import date, datetime, time, timedelta
from decimal import Decimal

from ..times.texts import HOUR, MINUTE, SECOND


def text_of(value: object) -> str:
    """Returns the text of a value; empty for one that is missing. Times are ISO 8601, lengths of time h:mm:ss.

    >>> text_of(datetime(2026, 3, 2, 8, 0, 17)), text_of(timedelta(seconds=3725)), text_of(3.0), text_of(None), text_of(float("nan"))
    ('2026-03-02T08:00:17', '1:02:05', '3', '', '')
    """
    # A missing time or number isn't equal to itself.
    if value is None or value != value:
        return ""
    if isinstance(value, (datetime, date, time)):
        return value.isoformat()
    if isinstance(value, timedelta):
        # Those of pandas have nanoseconds too.
        return span_text(value // timedelta(microseconds=1) * 1000 + int(getattr(value, "nanoseconds", 0)))
    if isinstance(value, float):
        return str(int(value)) if value.is_integer() and abs(value) < 1 << 53 else number_text(repr(value))
    if isinstance(value, Decimal):
        return number_text(format(value, "f"))
    return value.decode(errors="backslashreplace") if isinstance(value, bytes) else str(value)


def span_text(length: int) -> str:
    """Returns the text of a length of time or a time of day, in nanoseconds.

    >>> span_text(3725 * SECOND), span_text(1500), span_text(-SECOND)
    ('1:02:05', '0:00:00.000001500', '-0:00:01')
    """
    sign, length, rest = "-" if length < 0 else "", abs(length), abs(length) % SECOND
    digits = f"{rest:09}" if rest % 1000 else f"{rest // 1000:06}"
    return f"{sign}{length // HOUR}:{length // MINUTE % 60:02}:{length // SECOND % 60:02}" + (f".{digits}" if rest else "")


def number_text(text: str) -> str:
    """Returns the text of a number with a fraction, which can't be mistaken for thousands, nor for a rounded number if it is small.

    >>> number_text("1.125"), number_text("1.5e-05")
    ('1.1250', '0.000015')
    """
    digits, _, power = text.partition("e-")
    if power:
        return f"{float(text):.{len(digits.partition('.')[2]) + int(power)}f}"
    return text + "0" * (text[-4:-3] == ".")
