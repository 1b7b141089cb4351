"""What exports of all forms have in common."""

from __future__ import annotations

import itertools
import re
from typing import TYPE_CHECKING

from ..wording import listed, quoted

if TYPE_CHECKING:
    from collections.abc import Iterable, Iterator, Sequence

    from ..shapes import Reader


class Table:
    """What exports of all forms have: a `header` (list of str), `rows()`, their number or that of the lines (`size`), a `sample` of them, and `notes`
    (list of str). `has_header` says whether the names are the file's own."""

    header: list[str]
    sample: list[list[str]]
    # The character between fields, if the form has one.
    delimiter = ","

    def __init__(self, skip: int, header: str | None, notes: Iterable[str]) -> None:
        if skip < 0:
            raise ValueError(f"--skip {skip}: expected a number of lines, 0 or more")
        self.notes, self._skip, self.has_header = list(notes), skip, header is None

    @property
    def size(self) -> int:
        """The number of rows or lines; 0 if it isn't known."""
        raise NotImplementedError

    def rows(self) -> tuple[Reader, int]:
        """Returns a reader of the rows after the header, and the number of the first row, counted as in a spreadsheet."""
        raise NotImplementedError

    def chunks(self, size: int) -> Iterator[tuple[int, list[list[str]], int]]:
        """Yields the rows after the header, about this many at a time: the number of the first, the rows, and how many lines they take."""
        rows, number = self.rows()
        lines = rows.line_num
        while some := list(itertools.islice(rows, size)):
            yield number, some, rows.line_num - lines
            number, lines = number + len(some), rows.line_num

    def _named(self, first: Sequence[str], header: str | None) -> list[str]:
        """Returns the names of the columns: those given, separated by commas, or those in the first row."""
        if header is None and not any(item.strip() for item in first):
            raise ValueError("it begins with an empty line: give the number of lines before its header with --skip")
        return [item.strip() for item in (first if header is None else header.split(","))]

    def column(self, name: str) -> int:
        """Returns the index of a column by its name. Raises ValueError unless exactly one column has it."""
        numbers = [f"#{at}" for at, item in enumerate(self.header, 1) if item == name]
        if len(numbers) > 1:
            raise ValueError(f"two columns are called {name!r}: write {' or '.join(numbers)}")
        if numbers and name:
            return self.header.index(name)
        if re.fullmatch(r"#[1-9]\d{0,4}", name) and int(name[1:]) <= len(self.header):
            return int(name[1:]) - 1
        raise ValueError(f"no column {quoted(name)}; it has {listed(self.header)}{self._hint(name)}")

    def _hint(self, name: str) -> str:
        """Returns a hint (str) at the row that looks like the header, if the first rows are those of a report."""
        rows, number = self.rows()
        for at, row in enumerate(itertools.islice(rows, 50), number):
            if name and name in map(str.strip, row):
                return f"; row {at} looks like the header: --skip {at - 1}"
        return ""

    def parse(self, word: str, has_unit: bool = False) -> tuple[int, str | None, str | None]:
        """Splits COLUMN[=NAME][:UNIT] into the column's index, its name in the trace or None, and the unit or None. A column's name may contain these
        characters too. Raises ValueError as `column` does."""
        numbers = re.match(r"#[1-9]\d{0,4}", word)
        for column in [*sorted(self.header, key=len, reverse=True), *([numbers[0]] if numbers else [])]:
            found = re.fullmatch(r"(?:=(\w+))?" + (r"(?::([\w:@.]+))?" if has_unit else "()"), word[len(column) :])
            if column and word.startswith(column) and found:
                return self.column(column), found[1], found[2] or None
        name = re.split("[=:]", word)[0]
        raise ValueError(f"no column {quoted(name)}; it has {listed(self.header)}{self._hint(name)}")


class Counted:
    """An iterator of rows that counts them, as a CSV reader counts lines."""

    def __init__(self, rows: Iterator[list[str]]) -> None:
        self._rows, self.line_num = rows, 0

    def __iter__(self) -> Counted:
        return self

    def __next__(self) -> list[str]:
        row = next(self._rows)
        self.line_num += 1
        return row
