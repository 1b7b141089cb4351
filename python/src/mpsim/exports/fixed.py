"""Reads exports whose columns have fixed widths, as mainframes and old ERP systems write them."""

from __future__ import annotations

from itertools import accumulate
from typing import TYPE_CHECKING

from ..wording import quoted
from .delimited import Export
from .table import Table

if TYPE_CHECKING:
    from collections.abc import Iterable, Sequence

    from .streams import Stream

# The most characters of a line.
WIDTH = 1 << 16


def widths_in(text: str) -> list[int]:
    """Returns the widths of columns from a text such as `8,20,6`. Raises ValueError.

    >>> widths_in("8, 20,6")
    [8, 20, 6]
    """
    parts = [part.strip() for part in text.split(",")]
    if not all(part.isascii() and part.isdigit() and len(part) < 6 and int(part) for part in parts) or sum(map(int, parts)) > WIDTH:
        raise ValueError("expected the widths of all columns in characters, e.g. 8,20,6")
    return list(map(int, parts))


class Fixed(Export):
    """An export with columns of fixed `widths` (list of int, in characters). Fields have no spaces around them; those that a short line lacks are
    empty, and text after the last column makes a field too many. Raises ValueError as Export does, and if the header goes on after the last column.

    >>> table = Fixed(b"when    who  \\n 8:00:00Ann  \\n 9:00:00\\n", [8, 5])
    >>> table.header, list(table.rows()[0])
    (['when', 'who'], [['8:00:00', 'Ann'], ['9:00:00', '']])
    """

    def __init__(
        self, data: bytes | bytearray | Stream, widths: Sequence[int], encoding: str | None = None, skip: int = 0, header: str | None = None
    ) -> None:
        self._ends = list(accumulate(widths))
        # The delimiter isn't used.
        super().__init__(data, encoding, " ", skip, header)
        if len(self.header) > len(widths):
            more = "--header names more columns" if header is not None else f"the header goes on: {quoted(self.header[-1])}"
            raise ValueError(f"--fixed has {len(widths)} columns of {self._ends[-1]} characters, but {more}")

    # Its rows aren't split at a delimiter.
    chunks = Table.chunks

    def _reader(self, lines: Iterable[str]) -> _Fields:
        return _Fields(lines, self._ends)


class _Fields:
    """Cuts lines into fields that end at these places, and counts the lines as a CSV reader does."""

    def __init__(self, lines: Iterable[str], ends: Sequence[int]) -> None:
        self._lines, self._cuts, self._end, self.line_num = iter(lines), list(zip([0, *ends], ends)), ends[-1], 0

    def __iter__(self) -> _Fields:
        return self

    def __next__(self) -> list[str]:
        line = next(self._lines)
        self.line_num += 1
        if not line.strip():
            return []
        fields = [line[begin:end].strip() for begin, end in self._cuts]
        rest = line[self._end :].strip()
        return [*fields, rest] if rest else fields
