"""Reads the columns of a frame through the interchange protocol of data frames (`__dataframe__`)."""

from __future__ import annotations

import ctypes
from typing import TYPE_CHECKING

from .arrow import bits_at, numbers_at, of_format

if TYPE_CHECKING:
    from collections.abc import Sequence
    from typing import Any

    from .columns import Column

# The protocol's kinds of types, and of missing values.
INT, UINT, FLOAT, BOOL, STRING, DATETIME, CATEGORICAL = 0, 1, 2, 20, 21, 22, 23
NAN, SENTINEL, BITS, BYTES = 1, 2, 3, 4
CODES = {(INT, 8): "b", (INT, 16): "h", (INT, 32): "i", (INT, 64): "q", (UINT, 8): "B", (UINT, 16): "H", (UINT, 32): "I", (UINT, 64): "Q"}
CODES.update({(FLOAT, 32): "f", (FLOAT, 64): "d", (BOOL, 8): "B", (DATETIME, 64): "q"})


def columns_of_interchange(frame: Any, names: Sequence[str] | None) -> dict[str, Column]:
    """Returns the columns (dict of Column) of an object with `__dataframe__`; only those of these names, if given. Raises ValueError for one whose
    type is neither a text, a number nor a time."""
    table = frame.__dataframe__()
    wanted = [name for name in table.column_names() if names is None or name in names]
    forms: dict[str, str] = {}
    parts: dict[str, list[Any]] = {name: [] for name in wanted}
    for chunk in table.get_chunks():
        for name in wanted:
            column = chunk.get_column_by_name(name)
            forms[name] = column.dtype[2] if column.dtype[0] == DATETIME else ""
            parts[name] += _values(name, column)
    return {name: of_format(name, forms.get(name, ""), parts[name]) for name in wanted}


def _values(name: str, column: Any) -> list[Any]:
    """Returns the values of a column (list), None for missing ones."""
    kind, bits = column.dtype[:2]
    count = column.size() if callable(column.size) else column.size
    buffers, begin = column.get_buffers(), column.offset
    data, of_data = buffers["data"]
    values: list[Any]
    if kind == STRING:
        offsets, of_offsets = buffers["offsets"]
        text, ends = ctypes.string_at(data.ptr, data.bufsize), numbers_at(offsets.ptr, CODES[INT, of_offsets[1]], begin, count + 1)
        values = [text[first:last].decode() for first, last in zip(ends, ends[1:])]
    elif kind == BOOL and bits == 1:
        values = list(map(int, bits_at(data.ptr, begin, count)))
    elif kind == CATEGORICAL:
        values = list(numbers_at(data.ptr, CODES[of_data[0], of_data[1]], begin, count))
    elif (kind, bits) in CODES and (kind != DATETIME or column.dtype[2].startswith("ts")):
        values = list(numbers_at(data.ptr, CODES[kind, bits], begin, count))
    else:
        raise ValueError(f"column {name!r} has the type {column.dtype}, which is neither a text, a number nor a time")
    values = _with_gaps(values, column, buffers["validity"], begin)
    if kind == CATEGORICAL:
        texts = _values(name, column.describe_categorical["categories"])
        return [None if code is None else texts[code] for code in values]
    return values


def _with_gaps(values: list[Any], column: Any, validity: Any, begin: int) -> list[Any]:
    null, sign = column.describe_null
    if null == SENTINEL:
        return [None if value == sign else value for value in values]
    if null in (BITS, BYTES) and validity is not None:
        pointer, count = validity[0].ptr, len(values)
        marks = bits_at(pointer, begin, count) if null == BITS else numbers_at(pointer, "B", begin, count)
        return [None if mark == sign else value for value, mark in zip(values, marks)]
    return values
