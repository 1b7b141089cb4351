"""Writes tables in the forms that spreadsheets, programs and documents read."""

from __future__ import annotations

import csv
import io
import json
import re
from typing import TYPE_CHECKING

from ..files import written

if TYPE_CHECKING:
    from collections.abc import Iterable, Iterator, Sequence
    from typing import TextIO

    from ..shapes import Path

# The separator of fields and the decimal mark.
STYLES = {"plain": (",", "."), "excel-de": (";", ",")}
_NUMBER = re.compile(r"-?\d+(?:\.\d+)?", re.ASCII)
# A spreadsheet takes a text that begins with one of these for a formula.
_FORMULA = re.compile(r"[=+\-@\t\r]")


def safe(value: object) -> object:
    """Returns a value for a spreadsheet: a text that would be a formula there gets an apostrophe before it.

    >>> safe("=1+1"), safe("-1.5"), safe(-1)
    ("'=1+1", '-1.5', -1)
    """
    return f"'{value}" if isinstance(value, str) and _FORMULA.match(value) and not _NUMBER.fullmatch(value) else value


class Writer:
    """Writes rows as CSV in one of STYLES to an open file, one by one or several at once."""

    def __init__(self, file: TextIO, style: str = "plain") -> None:
        separator, self._mark = STYLES[style]
        self._writer = csv.writer(file, delimiter=separator, lineterminator="\n")
        if style == "excel-de":
            # Without it spreadsheets read another encoding.
            file.write("\ufeff")

    def writerow(self, row: Iterable[object]) -> None:
        """Writes a row (iterable of values)."""
        self._writer.writerow(list(map(self._cell, row)))

    def writerows(self, rows: Iterable[Iterable[object]]) -> None:
        """Writes several rows (iterable of iterables)."""
        # Most values are numbers, which need no care.
        self._writer.writerows([value if type(value) is int else self._cell(value) for value in row] for row in rows)

    def _cell(self, value: object) -> object:
        if isinstance(value, str) and value.isalpha():
            return value
        if self._mark != "." and (isinstance(value, float) or isinstance(value, str) and _NUMBER.fullmatch(value)):
            return str(value).replace(".", self._mark)
        return safe(value)


def write_table(rows: Iterable[Sequence[object]], form: str = "csv", style: str = "plain", path: Path | None = None) -> None:
    """Writes a table (iterable of lists, the first of which is the header) to a file or standard output. Raises ValueError if openpyxl is missing.

    >>> from mpsim.tables.sheets import write_table
    >>> write_table([["node", "wait"], ["desk", 1.5]], form="md")
    | node | wait |
    |---|---|
    | desk | 1.5 |
    """
    if style != "plain" and form != "csv":
        raise ValueError(f"--csv-style {style}: it can't be used with --format {form}")
    content = _xlsx(rows) if form == "xlsx" else None
    with written(path) as file:
        if form == "csv":
            Writer(file, style).writerows(rows)
        elif form == "xlsx":
            file.flush()
            file.buffer.write(content or b"")
        else:
            file.writelines((_json if form == "json" else _markdown)(iter(rows)))


def _typed(value: object) -> object:
    """Returns a number written as a text as a number."""
    return (float(value) if "." in value else int(value)) if isinstance(value, str) and _NUMBER.fullmatch(value) else value


def _json(rows: Iterator[Sequence[object]]) -> Iterator[str]:
    header, mark = next(rows, []), "[\n"
    for row in rows:
        yield mark + json.dumps(dict(zip(header, map(_typed, row))), ensure_ascii=False)
        mark = ",\n"
    yield "[]\n" if mark == "[\n" else "\n]\n"


def _markdown(rows: Iterator[Sequence[object]]) -> Iterator[str]:
    for at, row in enumerate(rows):
        yield "| " + " | ".join(_piece(value) for value in row) + " |\n"
        if at == 0:
            yield "|" + "---|" * len(row) + "\n"


def _piece(value: object) -> str:
    return "" if value is None else re.sub(r"([\\|`*_<>\[\]])", r"\\\1", str(value)).replace("\n", " ")


def _xlsx(rows: Iterable[Sequence[object]]) -> bytes:
    """Returns the bytes of a spreadsheet. Texts are never formulas."""
    try:
        from openpyxl import Workbook
        from openpyxl.cell import WriteOnlyCell
    except ImportError:
        raise ValueError("--format xlsx requires the Python package openpyxl (pip install openpyxl, or the package python3-openpyxl)") from None
    book = Workbook(write_only=True)
    sheet = book.create_sheet("mpsim")
    for row in rows:
        cells = []
        for value in row:
            cells.append(WriteOnlyCell(sheet, _typed(value)))
            if isinstance(value, str) and not _NUMBER.fullmatch(value):
                cells[-1].data_type = "s"
        sheet.append(cells)
    made = io.BytesIO()
    book.save(made)
    return made.getvalue()
