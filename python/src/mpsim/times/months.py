"""Reads days with the name of their month, in English, German, French, Spanish, Italian and Dutch."""

from __future__ import annotations

import re

from .texts import Unread, day_of

_LANGUAGES = (
    "january february march april may june july august september october november december",
    "jan feb mar apr may jun jul aug sep oct nov dec",
    "januar februar märz april mai juni juli august september oktober november dezember",
    "jän feb mär apr mai jun jul aug sep okt nov dez",
    "jänner feber mrz april mai juno julei august sept oktober november dezember",
    "janvier février mars avril mai juin juillet août septembre octobre novembre décembre",
    "janv févr mars avr mai juin juil août sept oct nov déc",
    "enero febrero marzo abril mayo junio julio agosto septiembre octubre noviembre diciembre",
    "ene feb mar abr may jun jul ago sept oct nov dic",
    "gennaio febbraio marzo aprile maggio giugno luglio agosto settembre ottobre novembre dicembre",
    "gen feb mar apr mag giu lug ago set ott nov dic",
    "januari februari maart april mei juni juli augustus september oktober november december",
    "jan feb mrt apr mei jun jul aug sep okt nov dec",
)
MONTHS = {name: number for names in _LANGUAGES for number, name in enumerate(names.split(), 1)}
_WEEKDAY, _NAME = r"(?:[^\W\d_]+\.?,?\s+)?", r"([^\W\d_]+)\.?"
_FIRST = re.compile(rf"{_WEEKDAY}(\d{{1,2}})(?:\.|er|st|nd|rd|th|º)?[\s-]+(?:(?:de|di|of)\s+)?{_NAME},?[\s-]+(?:(?:de|del|di)\s+)?(\d{{4}}),?")
_SECOND = re.compile(rf"{_WEEKDAY}{_NAME}\s+(\d{{1,2}})(?:st|nd|rd|th)?,?\s+(\d{{4}}),?")


def parts(text: str) -> tuple[str, str]:
    """Returns the day of a text, which begins it, and the rest (str)."""
    at = text.find(":")
    at = len(text) if at < 0 else max(at - 2, 0)
    if at and at < len(text) and text[at - 1].isdigit() and not text[at].isdigit():
        at += 1
    return text[:at], text[at:]


def day(text: str) -> int:
    """Returns the midnight (int, nanoseconds since 1970) of a day such as `2. März 2026` or `Mar 2, 2026`. Raises Unread.

    >>> day("2. März 2026") == day("Mar 2, 2026") == day("2 de marzo de 2026")
    True
    """
    text = re.sub(r"\s+(?:at|um|à|a las|alle|om)$", "", text.strip().casefold()).rstrip(",").strip()
    if found := _FIRST.fullmatch(text):
        number, name, year = found.groups()
    elif found := _SECOND.fullmatch(text):
        name, number, year = found.groups()
    if not found or name not in MONTHS:
        raise Unread("not a day with the name of its month")
    return day_of(int(year), MONTHS[name], int(number))


def is_one(text: str) -> bool:
    """Returns whether a text begins with such a day."""
    try:
        day(parts(text)[0])
        return True
    except Unread:
        return False
