"""Reads a trace of any length, a window of records at a time."""

from __future__ import annotations

import contextlib
import csv
from array import array
from typing import TYPE_CHECKING

from ..inputs import records_of
from ..limits import GREATEST_TIME, RECORDS, TRACE_BYTES
from .trace import fields_up_to

if TYPE_CHECKING:
    from collections.abc import Iterable, Iterator


class Unread(ValueError):
    """A record of a trace can't be read, or isn't in order. The message has its number."""


class Windows:
    """The records of a trace in order, of which a window is in memory. `header` (bytes) is the text of its header, `before` (int) the number of
    records that were taken from it, and `times` (array of int) the times of those in memory: a window of at most `most` records and `size` bytes, and
    the record after it. Raises Unread if a time is before that of the record before it.

    >>> from mpsim.traces.windows import Windows
    >>> windows = Windows(["source,time\\n", "door,1\\n", "door,2\\n", "door,4\\n"], most=2)
    >>> windows.fill(), list(windows.times), windows.take(1), windows.fill(), windows.is_last(2)
    (2, [1, 2, 4], b'source,time\\ndoor,1\\n', 2, True)
    """

    def __init__(self, lines: Iterable[str], most: int = RECORDS, size: int = TRACE_BYTES) -> None:
        self._most, self._size = most, size
        self._records = records_of(_without_mark(lines))
        self._text, self._ends, self.times, self.before = bytearray(), array("q"), array("q"), 0
        # Whether the trace was read to its end, or to a record that the program has to judge.
        self._is_read, self.is_odd = False, False
        with self._reading():
            self.header = next(self._records, ("", []))[0].encode(errors="surrogateescape")

    @contextlib.contextmanager
    def _reading(self) -> Iterator[None]:
        """Names the record that Python's CSV reader can't read."""
        try:
            with fields_up_to():
                yield
        except csv.Error as error:
            raise Unread(f"record {self.before + len(self.times) + 1}: {error}") from None

    def fill(self) -> int:
        """Reads on until the window is full, and returns the number of its records (int), 0 at the end of the trace."""
        with self._reading():
            while len(self.times) <= self._most and len(self._text) <= self._size and not self._is_read:
                found = next(self._records, None)
                if found is None:
                    self._is_read = True
                else:
                    self._add(*found)
        count = min(len(self.times), self._most)
        while count > 1 and len(self.header) + self._ends[count - 1] > self._size:
            count -= 1
        return count

    def _add(self, text: str, fields: list[str]) -> None:
        word = fields[1] if len(fields) > 1 else ""
        last = self.times[-1] if self.times else 0
        if not (word.isascii() and word.isdigit() and len(word) <= 20 and int(word) <= GREATEST_TIME):
            # The program says what is wrong, once all records before this one are done.
            self._is_read = self.is_odd = True
            word = str(GREATEST_TIME)
        if int(word) < last:
            number, why = self.before + len(self.times) + 1, f"its time {int(word)} is before that of the record before it, {last}"
            raise Unread(f"record {number}: {why} (to run a trace in pieces, sort its records by time)")
        self._text += text.encode(errors="surrogateescape")
        self._ends.append(len(self._text))
        self.times.append(int(word))

    def is_last(self, count: int) -> bool:
        """Returns whether no record follows these in the trace."""
        return self._is_read and count == len(self.times)

    def text(self, count: int) -> bytes:
        """Returns the header and the first records of the window (bytes)."""
        return self.header + bytes(memoryview(self._text)[: self._ends[count - 1] if count else 0])

    def take(self, count: int) -> bytes:
        """Removes the first records from the window, and returns the header and these (bytes)."""
        text, end = self.text(count), self._ends[count - 1] if count else 0
        del self._text[:end], self.times[:count]
        self._ends = array("q", (place - end for place in self._ends[count:]))
        self.before += count
        return text


def _without_mark(lines: Iterable[str]) -> Iterator[str]:
    """Yields lines without a byte order mark."""
    every = iter(lines)
    yield next(every, "").removeprefix("\ufeff")
    yield from every
