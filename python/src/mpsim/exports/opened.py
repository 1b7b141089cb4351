"""Opens the table in a file, by what the file is."""

from __future__ import annotations

from typing import TYPE_CHECKING

from ..times.texts import given
from .columnar import Columnar
from .delimited import Export
from .fixed import Fixed, widths_in
from .workbook import Workbook

if TYPE_CHECKING:
    from .streams import Stream
    from .table import Table


def table_in(
    stream: Stream,
    encoding: str | None = None,
    delimiter: str | None = None,
    skip: int = 0,
    header: str | None = None,
    sheet: str | None = None,
    fixed: str | None = None,
) -> Table:
    """Returns the table that a file contains (Export, Fixed, Workbook or Columnar). The texts are options of `mpplan prepare`. Raises ValueError."""
    if stream.form in ("parquet", "arrow"):
        if encoding or delimiter or fixed or sheet is not None or skip or header is not None:
            raise ValueError("--encoding, --delimiter, --fixed, --sheet, --skip and --header can't be used with a Parquet or Arrow file")
        return Columnar(stream)
    if stream.form == "text":
        if sheet is not None:
            raise ValueError(f"--sheet {sheet}: this isn't a spreadsheet")
        if fixed is None:
            return Export(stream, encoding, delimiter, skip, header)
        if delimiter:
            raise ValueError("--fixed and --delimiter exclude each other: give one of them")
        return Fixed(stream, given("--fixed", widths_in, fixed), encoding, skip, header)
    if encoding or delimiter or fixed:
        raise ValueError("--encoding, --delimiter and --fixed can't be used with a spreadsheet")
    return Workbook(stream, sheet, skip, header)
