"""Reads many times that end in hh:mm:ss at once: their digits are columns of bytes, and sums of columns are sums of long numbers."""

from __future__ import annotations

from array import array
from operator import itemgetter
from typing import TYPE_CHECKING

from .texts import SECOND

if TYPE_CHECKING:
    from collections.abc import Callable, Sequence

# The characters of hh:mm:ss, the bytes of a moment, and the greatest hour, minute and second.
_CLOCK, _LANE, _GREATEST = 8, 8, (23, 59, 59)
# A later moment may not fit.
_LAST = 9 * 10**18
_DIGITS = bytes(max(value - 48, 0) for value in range(256))
_UP_TO = {greatest: bytes(range(greatest + 1)) for greatest in _GREATEST}


def moments(texts: Sequence[str], begin_of: Callable[[str], int], marks: str) -> array[int] | None:
    """Returns the moments (array of int, nanoseconds since 1970) of texts that are equally long and consist of a day, one of the characters `marks`,
    the same in all of them, and hh:mm:ss. `begin_of` returns the moment at which a day, given as a text, begins. Returns None if a text isn't of this
    form, or if a day is before 1970 or after 2255.

    >>> found = moments(["1970-01-01 00:00:02", "1970-01-02 01:00:00"], {"1970-01-01": 0, "1970-01-02": 86400 * SECOND}.__getitem__, " T")
    >>> [moment // SECOND for moment in found]
    [2, 90000]
    """
    width, count, joined = len(texts[0]), len(texts), "".join(texts)
    at = width - _CLOCK
    if at < 2 or texts[0][at - 1] not in marks or set(map(len, texts)) != {width} or not joined.isascii():
        return None
    data = joined.encode()
    if any(data[place::width].count(mark) != count for place, mark in ((at - 1, data[at - 1]), (at + 2, 58), (at + 5, 58))):
        return None
    seconds = _seconds(data, width, at)
    if seconds is None:
        return None
    is_one_day = all(data[place::width].count(data[place]) == count for place in range(at - 1))
    begins = list(map(begin_of, map(itemgetter(slice(at - 1)), texts[:1] if is_one_day else texts)))
    if min(begins) < 0 or max(begins) > _LAST:
        return None
    days = array("q", begins * count if is_one_day else begins)
    return _array(_number(days.tobytes()) + seconds * SECOND, count)


def _seconds(data: bytes, width: int, at: int) -> int | None:
    """Returns the seconds since midnight as one long number, with a lane of eight bytes for each text. Returns None if one isn't a time of day."""
    total, count = 0, len(data) // width
    for place, greatest in zip((at, at + 3, at + 6), _GREATEST):
        tens, ones = data[place::width], data[place + 1 :: width]
        if not (tens + ones).isdigit():
            return None
        pairs = (10 * _number(tens.translate(_DIGITS)) + _number(ones.translate(_DIGITS))).to_bytes(count, "little")
        if pairs.translate(None, _UP_TO[greatest]):
            return None
        lanes = bytearray(_LANE * count)
        lanes[::_LANE] = pairs
        total = 60 * total + _number(lanes)
    return total


def _number(lanes: bytes | bytearray) -> int:
    return int.from_bytes(lanes, "little")


def _array(number: int, count: int) -> array[int]:
    made: array[int] = array("q")
    made.frombytes(number.to_bytes(_LANE * count, "little"))
    return made
