"""Reads columns of lengths of time: numbers in a unit, with either decimal mark, and h:mm:ss."""

from __future__ import annotations

import re
from fractions import Fraction
from typing import TYPE_CHECKING

from ..limits import GREATEST_VALUE
from ..wording import quoted
from .texts import DAY, HOUR, MINUTE, SECOND, UNITS, Asks, Cache, Unread, excel, there

if TYPE_CHECKING:
    from collections.abc import Iterable

_AMOUNT = r"(\d{1,15}(?:[.,]\d{1,15})?)"
_ISO = re.compile(rf"P(?:{_AMOUNT}W)?(?:{_AMOUNT}D)?(?:T(?:{_AMOUNT}H)?(?:{_AMOUNT}M)?(?:{_AMOUNT}S)?)?", re.ASCII)
_DAYS = re.compile(r"(\d{1,9}) days?,? (\d{1,2}):(\d\d):(\d\d(?:[.,]\d{1,9})?)", re.ASCII)
# The names of units, from the longest unit to the shortest.
_UNITS = (
    ("d|day|days|Tag|Tage|Tagen|jour|jours", DAY),
    ("h|hr|hrs|hour|hours|Std|Stunde|Stunden|heure|heures", HOUR),
    ("m|min|mins|minute|minutes|Min|Minute|Minuten", MINUTE),
    ("s|sec|secs|second|seconds|Sek|Sekunde|Sekunden|seconde|secondes", SECOND),
    ("ms|msec", SECOND // 1000),
    ("us|µs", SECOND // 10**6),
    ("ns", 1),
)
_NAMED = re.compile("".join(rf"(?:{_AMOUNT}\s*(?:{names})\.?(?![^\W\d_])[\s,]*)?" for names, _ in _UNITS))
SPAN = re.compile(r"(\d+):(\d\d)(?::(\d\d)(?:[.,](\d{1,9}))?)?", re.ASCII)
# Separators of thousands, besides the mark that isn't the decimal one.
_GAPS = "\\s\u00a0\u202f'\u2019"


# Numbers that could be thousands or a decimal fraction.
_DOUBTFUL = re.compile(r"[1-9]\d{0,2}[.,]\d{3}", re.ASCII)


def found_decimal(texts: Iterable[str]) -> str | None:
    """Returns the decimal mark of numbers as text, "." or ","; None if none of them has a mark. Raises ValueError if it can't be detected.

    >>> found_decimal(["3,5", "1.210,0"])
    ','
    """
    marks: set[str] = set()
    doubtful: str | None = None
    for text in (amount for text in texts for amount in _amounts(re.sub(f"[{_GAPS}]", "", text))):
        dots, commas = text.count("."), text.count(",")
        if ":" in text or not dots + commas:
            continue
        if dots and commas:
            marks.add("," if text.rindex(",") > text.rindex(".") else ".")
        elif dots > 1 or commas > 1:
            marks.add("," if dots else ".")
        elif _DOUBTFUL.fullmatch(text):
            doubtful = doubtful or text
        else:
            marks.add("," if commas else ".")
    if len(marks) > 1:
        raise ValueError("its numbers use both decimal commas and decimal points")
    if not marks and doubtful is not None:
        raise ValueError(f"{quoted(doubtful)} could be thousands or a decimal fraction")
    return marks.pop() if marks else None


def _amounts(text: str) -> list[str]:
    """Returns the numbers of a text that show its decimal mark: those before its units, or else the text. ISO 8601 allows both marks."""
    if _ISO.fullmatch(text):
        return []
    return re.findall(r"\d+(?:[.,]\d+)+", text) if ":" not in text and re.search(r"[^\W\d_]", text) else [text]


# As a spreadsheet shows a number in a narrow column.
_POWER = re.compile(r"\d(?:[.,]\d{1,15})?[Ee]\+\d{1,2}", re.ASCII)
# Data sent at a rate, such as bytes@10Gbps.
_RATE = re.compile(r"(bits|bytes)@(\d{1,6}(?:\.\d{1,3})?)([kMGT]?)bps", re.ASCII)


def _bits_per_second(unit: str) -> tuple[int, Fraction] | None:
    """Returns how many bits there are in a piece of data of a unit such as bytes@10Gbps, and how many are sent per second; None for another unit."""
    found = _RATE.fullmatch(unit)
    if not found:
        return None
    rate = Fraction(found[2]) * 1000 ** " kMGT".index(found[3] or " ")
    return (8 if found[1] == "bytes" else 1, rate) if rate else None


class Lengths:
    """A column of lengths of time in a unit, with a decimal mark ("." or ",", None if unknown).

    `ticks[text]` is a length rounded to whole ticks (int). It raises Unread for an invalid text, and Asks if an option is needed: `asked` (str) is
    the option and its value, to which a unit is added. `rounded` counts the distinct texts that aren't whole ticks. Raises ValueError for an unknown
    unit."""

    NAMES = *UNITS, "ticks", "h:mm", "m:ss", "h:mm:ss", "excel"

    def __init__(self, unit: str, decimal: str | None, tick: int, asked: str = "") -> None:
        rate = _bits_per_second(unit)
        if unit not in self.NAMES and not rate:
            raise ValueError(f"unknown unit {unit!r}: it is one of {', '.join(self.NAMES)}, or data at a rate such as bytes@10Gbps")
        self.unit, self.decimal, self.tick, self.rounded, self.asked = unit, decimal, tick, 0, asked
        self.per = tick if unit == "ticks" else UNITS.get(unit, SECOND)
        # The lengths of data are fractions of a nanosecond.
        self.parts = 1
        if rate:
            self.per, self.parts = (rate[0] * SECOND / rate[1]).as_integer_ratio()
        # Thousands come in groups of three, so that a decimal point can't be mistaken for a separator.
        gaps = _GAPS + {".": ",", ",": "."}.get(decimal or "", "")
        self._number = re.compile(rf"([0-9]+|[0-9]{{1,3}}(?:[{gaps}][0-9]{{3}})+)(?:{re.escape(decimal or '.')}([0-9]+))?")
        self.ticks = Cache(self._work)

    def _work(self, text: str) -> int:
        length, tick = self.length(text)
        ticks, left = divmod(length, tick)
        ticks += 2 * left >= tick
        if ticks > GREATEST_VALUE:
            raise Unread("above 2^36 ticks")
        self.rounded += left > 0
        return ticks

    def length(self, text: str) -> tuple[int, int]:
        """Returns a length and a tick (int), both in a fraction of a nanosecond in which they are whole. Raises Unread and Asks."""
        text = there(text)
        if text[0] in "-\u2212" or text[-1] in "-\u2212":
            raise Unread("below 0")
        if not text[0].isdigit() or not text[-1].isdigit() or "day" in text:
            if (given := duration(text, self.decimal)) is not None:
                if self.decimal is None and any(map(_DOUBTFUL.fullmatch, _amounts(text))):
                    raise Asks("the mark could be a decimal one: give --decimal")
                return given.numerator, given.denominator * self.tick
        if _POWER.fullmatch(text):
            value = Fraction(text.replace(",", ".")) * self.per / self.parts
            return value.numerator, value.denominator * self.tick
        if ":" in text or self.unit == "h:mm:ss":
            return self._of_span(text)
        if self.unit == "excel":
            return excel(text), self.tick
        if self.decimal is None and re.search("[.,]", text):
            raise Asks("the mark could be a decimal one: give --decimal")
        found = self._number.fullmatch(text)
        if not found:
            raise Unread(f"not a number with a decimal {'comma' if self.decimal == ',' else 'point'}")
        rest = found[2] or ""
        return int(re.sub(r"\D", "", found[1]) + rest) * self.per, 10 ** len(rest) * self.tick * self.parts

    def _of_span(self, text: str) -> tuple[int, int]:
        found = SPAN.fullmatch(text)
        if not found or int(found[2]) > 59 or int(found[3] or 0) > 59:
            raise Unread("not h:mm:ss")
        if found[3] is None and self.unit not in ("h:mm", "m:ss"):
            raise Asks(f"this could be h:mm or m:ss: give the unit, {self.asked}:h:mm or {self.asked}:m:ss")
        first, second = (MINUTE, SECOND) if found[3] is None and self.unit == "m:ss" else (HOUR, MINUTE)
        whole = int(found[1]) * first + int(found[2]) * second + int(found[3] or 0) * SECOND
        return whole + int((found[4] or "0").ljust(9, "0")), self.tick


def duration(text: str, decimal: str | None = None) -> Fraction | None:
    """Returns the nanoseconds (Fraction) of a text with units, or None if it isn't one. In a text that isn't ISO 8601, `1.500` and `1,500` are
    thousands if the other mark is the decimal one.

    >>> [int(duration(text) / SECOND) for text in ("PT3M20S", "3m 20s", "200 s", "0 days 00:03:20", "1 h, 5 min")]
    [200, 200, 200, 200, 3900]
    """
    units, other = [DAY, HOUR, MINUTE, SECOND], ""
    found = _DAYS.fullmatch(text)
    if not found:
        found, units = _ISO.fullmatch(text), [7 * DAY, *units]
    if not found:
        found, units = _NAMED.fullmatch(text), [unit for _, unit in _UNITS]
        other = {".": ",", ",": "."}.get(decimal or "", "")
    parts = [_number(amount, other) * unit for amount, unit in zip(found.groups(), units) if amount] if found else []
    return sum(parts, Fraction(0)) if parts else None


def _number(text: str, other: str) -> Fraction:
    """Returns the number of a text, in which the mark `other`, if not empty, may separate thousands."""
    return Fraction(text.replace(other, "") if other and other in text and _DOUBTFUL.fullmatch(text) else text.replace(",", "."))
