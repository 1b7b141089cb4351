"""Reads exports that are spreadsheets (.xlsx), with the Python package openpyxl."""

from __future__ import annotations

import contextlib
from datetime import datetime
from itertools import islice
from typing import TYPE_CHECKING

from .cells import text_of
from .table import Counted, Table

if TYPE_CHECKING:
    from collections.abc import Iterator
    from typing import Any

    from ..shapes import Reader
    from .streams import Stream

# The number of rows examined to detect formats; cells have types, so few are enough.
SAMPLE = 1 << 11
# Some versions of openpyxl read a length of more than a day as a date of January or February 1900.
DAY_0, MARCH = datetime(1899, 12, 31), datetime(1900, 3, 1)


class Workbook(Table):
    """An export that is a spreadsheet, from a Stream; `sheet` (str) is the name of the sheet to read, by default the only one. Its cells become
    texts: dates and times in ISO 8601, a length of time in h:mm:ss. Raises ValueError as Export does, and if openpyxl is missing."""

    def __init__(self, stream: Stream, sheet: str | None = None, skip: int = 0, header: str | None = None) -> None:
        try:
            import openpyxl
        except ImportError:
            install = "save it as CSV UTF-8, or install the Python package openpyxl (pip install openpyxl, or the package python3-openpyxl)"
            raise ValueError(f"this is a spreadsheet (.xlsx): {install}") from None
        try:
            with _unsized():
                self._book = openpyxl.load_workbook(stream.book(), read_only=True, data_only=True)
        except Exception as error:
            raise ValueError(f"damaged spreadsheet: {type(error).__name__}: {error}"[:300]) from None
        names = [item.title for item in self._book.worksheets]
        if sheet is None and len(names) != 1:
            raise ValueError(f"the spreadsheet has {len(names)} sheets: give --sheet {' or '.join(map(repr, names[:10]))}")
        if sheet is not None and sheet not in names:
            raise ValueError(f"no sheet {sheet!r}; it has {', '.join(map(repr, names[:10]))} (--sheet)")
        self._sheet = self._book[sheet or names[0]]
        # The size that the file claims may be wrong.
        self._sheet.reset_dimensions()
        super().__init__(skip, header, stream.notes)
        self.notes.append(f"the sheet is {self._sheet.title!r}")
        self.header = self._named(next(self._all(), []), header)
        self.sample = [row for row in islice(self.rows()[0], SAMPLE) if len(row) >= len(self.header)]

    def _all(self) -> Iterator[list[str]]:
        """Yields the rows after those to skip as texts, without empty cells at their end beyond the header."""
        for row in self._sheet.iter_rows(min_row=self._skip + 1, values_only=True):
            yield list(map(_text_of, row))

    @property
    def size(self) -> int:
        """The number of rows; 0 if it isn't known."""
        return self._sheet.max_row or 0

    def rows(self) -> tuple[Reader, int]:
        """Returns a reader of the rows after the header, and the number of the first row, counted as in the spreadsheet."""
        rows, width = self._all(), len(self.header)
        if self.has_header:
            next(rows, None)
        return Counted(_fitted(row, width) for row in rows), self._skip + 1 + self.has_header


@contextlib.contextmanager
def _unsized() -> Iterator[None]:
    """Keeps openpyxl, within the block, from reading each sheet that doesn't begin with its size to its end: the size isn't used."""
    from openpyxl.worksheet._read_only import ReadOnlyWorksheet

    # Type stubs of openpyxl don't have this method.
    sheets: Any = ReadOnlyWorksheet
    before = sheets._get_size
    sheets._get_size = lambda _: None
    try:
        yield
    finally:
        sheets._get_size = before


def _fitted(row: list[str], width: int) -> list[str]:
    """Returns a row with the width of the header: empty cells at its end don't count. An empty row has no fields."""
    while row and not row[-1]:
        row.pop()
    return row + [""] * (width - len(row)) if row else row


def _text_of(value: object) -> str:
    """Returns the text of a cell."""
    return text_of(value - DAY_0 if isinstance(value, datetime) and value < MARCH else value)
