"""Turns the dates and the lengths of time of a trace into ticks."""

from __future__ import annotations

from datetime import datetime, timedelta
from typing import TYPE_CHECKING, NamedTuple, Optional, Union, cast

from ..model import columns as columns_named, nodes_of
from ..times.calendar import length_text, settings_in, tick_of, working_in
from ..times.texts import HOUR, SECOND, UNITS, at_utc, given, iso, nanos
from .columns import Column, is_missing

if TYPE_CHECKING:
    from collections.abc import Mapping


class Clock(NamedTuple):
    """What a caller says about ticks: the length of one (a text such as "1s" or "100ms", or a timedelta) and the date of time 0 (a datetime, or an
    ISO 8601 text); None for what is to be found."""

    tick: Optional[Union[str, timedelta]] = None
    start: Optional[Union[str, datetime]] = None


def in_ticks(columns: Mapping[str, Column], text: str, clock: Clock) -> dict[str, list[object]]:
    """Returns the values of columns (dict of lists) with dates and lengths of time in ticks: the tick in which a date falls, and the number of ticks
    nearest to a length.

    The length of a tick is the one given, else that in the first lines of the model's text, else a second, if all times are whole seconds. Time 0 is
    the one given, else that of the model, else the beginning of the hour of the first date. Raises ValueError if what isn't given can't be known."""
    kinds = {column.kind for column in columns.values()}
    if kinds <= {"other"}:
        return {name: column.values for name, column in columns.items()}
    if columns["time"].kind == "moment" and (working := working_in(text)):
        use = "make the trace with mpsim.exports.prepare, or give times in ticks"
        raise ValueError(f"the model counts working time ({working}), which dates in 'time' can't be turned into: {use}")
    per = _tick(columns, text, clock)
    zero = _zero(columns["time"], text, clock) if columns["time"].kind == "moment" else 0
    found = {}
    for name, column in columns.items():
        if column.kind == "moment" and name != "time":
            use = "a trace has its arrival times in 'time', and lengths of time in other columns: subtract them"
            raise ValueError(f"column {name!r} has dates: {use}")
        begin = zero if name == "time" else 0
        shift = 0 if name == "time" else per // 2
        if column.kind == "other":
            found[name] = column.values
        else:
            found[name] = [it if is_missing(it) else (cast(int, it) - begin + shift) // per for it in column.values]
    return found


def _known(column: Column) -> list[int]:
    return [cast(int, value) for value in column.values if not is_missing(value)]


def _tick(columns: Mapping[str, Column], text: str, clock: Clock) -> int:
    """Returns the nanoseconds of a tick."""
    if isinstance(clock.tick, timedelta):
        return tick_of(f"{clock.tick // timedelta(microseconds=1)}us")
    if clock.tick is not None:
        return given("tick", tick_of, clock.tick)
    if per := settings_in(text)[0]:
        return per
    mixed = [name for name in ["time", *_demands(text)] if name in columns and columns[name].kind == "other"]
    timed = [name for name, column in columns.items() if column.kind != "other"]
    if mixed:
        raise ValueError(f"column {mixed[0]!r} has numbers of ticks and {timed[0]!r} has times, but the length of a tick is unknown: give tick='1s'")
    for name in timed:
        if any(value % SECOND for value in _known(columns[name])):
            unit = next(it for it in ("ms", "us", "ns") if not any(value % UNITS[it] for other in timed for value in _known(columns[other])))
            raise ValueError(f"column {name!r} has times between two seconds: give tick='1{unit}' to keep them, or tick='1s' to round them")
    return SECOND


def _demands(text: str) -> list[str]:
    """Returns the columns that are lengths of time in a model: all but those by which splits divide."""
    try:
        splits = [it.arguments.split() for it in nodes_of(text) if it.kind == "split"]
        codes = [words[1] if words[0] == "cut" else words[-1] for words in splits if len(words) > 1]
    except ValueError:
        return []
    return [name for name in columns_named(text) if name not in codes]


def _zero(times: Column, text: str, clock: Clock) -> int:
    """Returns the moment of time 0."""
    said = clock.start if clock.start is not None else settings_in(text)[1]
    if said is None:
        return min(_known(times), default=0) // HOUR * HOUR
    if isinstance(said, datetime):
        zero, is_zoned = (nanos(said), False) if said.utcoffset() is None else (at_utc(said), True)
    else:
        wall, offset = given("start", iso, said)
        zero, is_zoned = wall - (offset or 0), offset is not None
    if is_zoned != times.is_zoned:
        has, lacks = ("with", "without") if is_zoned else ("without", "with")
        kinds = f"time 0 is {said}, {has} an offset from UTC, and the times of the trace are {lacks} one"
        raise ValueError(f"{kinds}: give start of the kind of the times")
    first = min(_known(times), default=zero)
    if first < zero:
        raise ValueError(f"the first time is {length_text(zero - first)} before time 0, {said}: give an earlier start")
    return zero
