"""Reads times and lengths in ticks, or as dates and lengths of time, for which a calendar is needed."""

from __future__ import annotations

from typing import TYPE_CHECKING

from ..limits import GREATEST_TIME
from ..times.texts import length

if TYPE_CHECKING:
    from collections.abc import Callable

    from ..times.calendar import Calendar


def tick_in(text: str, days: Callable[[], Calendar]) -> int:
    """Returns the tick (int) of a text: a number of ticks, or a date with a time, by the Calendar that `days` returns. Raises ValueError for another
    text, for a time before time 0 or above the limit, and for a date outside of working time."""
    if text.isascii() and text.isdigit() and len(text) <= 20:
        tick = int(text)
    else:
        calendar = days()
        tick = calendar.tick_of_date(text)
        if calendar.working and not calendar.working.is_open(calendar.moment_of_date(text)):
            raise ValueError(f"the time {text} is outside of working time, which ticks count: the next opening is {calendar.shown(tick)}")
    if not 0 <= tick <= GREATEST_TIME:
        raise ValueError(f"the time {text} is {'before time 0' if tick < 0 else f'above the limit of {GREATEST_TIME}'}")
    return tick


def ticks_in(text: str, days: Callable[[], Calendar], least: int = 1) -> int:
    """Returns the number of ticks (int) of a text: a number, or a length of time such as 2h, by the Calendar that `days` returns. Raises ValueError
    for another text, for fewer than `least` ticks (int), and for a length that isn't whole ticks."""
    if text.isascii() and text.isdigit() and len(text) <= 20:
        ticks, rest = int(text), 0
    else:
        ticks, rest = divmod(length(text), days().tick)
    if rest or not least <= ticks <= GREATEST_TIME:
        raise ValueError(f"the length {text} isn't a whole number of ticks, {least} or more")
    return ticks
