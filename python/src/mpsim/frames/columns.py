"""The columns of a frame: texts and numbers as they are, moments and lengths of time in nanoseconds."""

from __future__ import annotations

from datetime import datetime, timedelta
from typing import TYPE_CHECKING, List, NamedTuple

from ..times.texts import at_utc, nanos

if TYPE_CHECKING:
    from collections.abc import Iterable

# How numpy writes a missing date or length of time, in any unit.
NO_TIME = -(1 << 63)


class Column(NamedTuple):
    """A column: its kind (str) and its values (list). Moments ("moment") are nanoseconds since 1970, of UTC if they have a zone or an offset
    (`is_zoned`, bool), else of the wall clock; lengths of time ("length") are nanoseconds; everything else ("other") is as it was. A missing value is
    as it was too."""

    kind: str
    values: List[object]
    is_zoned: bool = False


def moments(values: Iterable[int], per: int, is_zoned: bool = False) -> Column:
    """Returns a column of moments from numbers of units of this many nanoseconds, in which numpy's missing value becomes None."""
    return Column("moment", [None if value == NO_TIME else value * per for value in values], is_zoned)


def lengths(values: Iterable[int], per: int) -> Column:
    """Returns a column of lengths of time from numbers of units of this many nanoseconds, in which numpy's missing value becomes None."""
    return Column("length", [None if value == NO_TIME else value * per for value in values])


def column_of(name: str, values: object) -> Column:
    """Returns the column with these values: a list, a numpy array, or a column of a data frame. Raises TypeError for anything else, and ValueError if
    only some of the values are dates, lengths of time, or dates with an offset.

    >>> column_of("time", [datetime(1970, 1, 1, 0, 1), None])
    Column(kind='moment', values=[60000000000, None], is_zoned=False)
    """
    kind = getattr(getattr(values, "dtype", None), "kind", None)
    if kind in ("M", "m") and hasattr(values, "astype") and not hasattr(values, "array"):
        # A numpy array, which gives numbers instead of times of a unit shorter than a microsecond.
        numbers = values.astype(f"{kind}8[ns]").astype("i8").tolist()
        return moments(numbers, 1) if kind == "M" else lengths(numbers, 1)
    for method in "tolist", "to_list":
        if hasattr(values, method):
            return _from_list(name, getattr(values, method)())
    if isinstance(values, (str, bytes)) or not hasattr(values, "__iter__"):
        raise TypeError(f"column {name!r} is {type(values).__name__}, not a list of values")
    return _from_list(name, list(values))


def is_missing(value: object) -> bool:
    """Returns whether a value is None, a NaN, or pandas' NaT or NA."""
    return value is None or type(value).__name__ in ("NaTType", "NAType") or isinstance(value, float) and value != value


def _from_list(name: str, values: list[object]) -> Column:
    first = next((value for value in values if not is_missing(value)), None)
    if not isinstance(first, (datetime, timedelta)):
        return Column("other", values)
    kind = datetime if isinstance(first, datetime) else timedelta
    is_zoned = isinstance(first, datetime) and first.utcoffset() is not None
    found: list[object] = []
    for number, value in enumerate(values, 1):
        if is_missing(value):
            found.append(value)
        elif isinstance(value, datetime) and kind is datetime and (value.utcoffset() is not None) == is_zoned:
            # The times of pandas are those of Python with nanoseconds.
            found.append(getattr(value, "value", None) if hasattr(value, "value") else at_utc(value) if is_zoned else nanos(value))
        elif isinstance(value, timedelta) and kind is timedelta:
            found.append(getattr(value, "value", None) if hasattr(value, "value") else value // timedelta(microseconds=1) * 1000)
        else:
            raise ValueError(f"trace record {number}, column {name!r}: {value!r} isn't of the same kind as {first!r}")
    return Column("moment" if kind is datetime else "length", found, is_zoned)
