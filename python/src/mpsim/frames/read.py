"""Recognises data frames, arrays and dicts of columns, and reads their columns."""

from __future__ import annotations

from collections.abc import Mapping
from typing import TYPE_CHECKING

from .arrow import columns_of_stream
from .columns import Column, column_of
from .interchange import columns_of_interchange

if TYPE_CHECKING:
    from collections.abc import Sequence
    from typing import Any


def is_of_columns(value: Any) -> bool:
    """Returns whether a value is a table by columns: a data frame, a numpy array with named fields, or a dict of columns.

    >>> is_of_columns({"source": ["door"], "time": [0]}), is_of_columns([("door", 0)])
    (True, False)
    """
    if isinstance(value, Mapping) or hasattr(value, "columns"):
        return True
    if getattr(getattr(value, "dtype", None), "names", None) is not None:
        return True
    return hasattr(value, "__arrow_c_stream__") or hasattr(value, "__dataframe__")


def columns_of(value: Any, names: Sequence[str] | None = None) -> dict[str, Column]:
    """Returns the columns (dict of Column) of such a value; only those of these names, if given. Raises TypeError or ValueError for columns that
    can't be read."""
    if not hasattr(value, "iloc") and hasattr(value, "__arrow_c_stream__"):
        # pandas needs Arrow's library for it.
        return columns_of_stream(value, names)
    if isinstance(value, Mapping):
        every = list(value)
    elif hasattr(value, "dtype") and getattr(value.dtype, "names", None):
        every = list(value.dtype.names)
    elif hasattr(value, "columns"):
        every = list(value.columns)
    else:
        return columns_of_interchange(value, names)
    found = {name: column_of(name, value[name]) for name in every if names is None or name in names}
    sizes = {name: len(column.values) for name, column in found.items()}
    if len(set(sizes.values())) > 1:
        raise ValueError(f"the columns differ in length: {sizes}")
    return found
