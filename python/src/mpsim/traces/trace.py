"""Reads a trace whose records are to be written again in another form."""

from __future__ import annotations

import contextlib
import csv
import io
import itertools
import os
from typing import TYPE_CHECKING

from ..errors import Error
from ..files import bytes_of
from ..inputs import records_of, row_writer
from ..times.formats import looks_like_clocks
from ..wording import table_of

if TYPE_CHECKING:
    from collections.abc import Iterable, Iterator, Sequence

    from ..shapes import Path

# The most bytes of a trace, and so of a field.
LONGEST = 1 << 27
# The number of records whose times are examined.
LOOKED_AT = 1000


@contextlib.contextmanager
def fields_up_to(most: int = LONGEST) -> Iterator[None]:
    """Sets the limit of Python's CSV reader to this many characters per field (int) within the block; it is one limit for the whole process."""
    before = csv.field_size_limit(most)
    try:
        yield
    finally:
        csv.field_size_limit(before)


def is_utf8(text: str) -> bool:
    """Returns whether a text read with surrogateescape has only valid UTF-8.

    >>> from mpsim.traces.trace import is_utf8
    >>> is_utf8("Büro"), is_utf8(b"B\\xfcro".decode("utf-8", "surrogateescape"))
    (True, False)
    """
    try:
        text.encode()
    except UnicodeEncodeError:
        return False
    return True


class Trace:
    """A trace: its `path` (str), its `header` (list of str), and its `rows` (list of lists of str, all of the header's length), in the order of the
    file, without empty lines. Bytes that aren't UTF-8 are kept as in Python's surrogateescape.

    >>> from mpsim.traces import Trace
    >>> trace = Trace("calls.csv", ["source", "time", "talk"], [["door", "0", "4"], ["door", "9", "1"]])
    >>> trace.sources(), trace.times(), trace.numbers("talk")
    (['door', 'door'], [0, 9], [4, 1])
    """

    def __init__(self, path: str, header: list[str], rows: list[list[str]]) -> None:
        self.path, self.header, self.rows = path, header, rows

    def __repr__(self) -> str:
        return f"<Trace of {len(self.rows)} records, columns {', '.join(self.header)}>"

    def _repr_html_(self) -> str:
        return table_of(self.header, self.rows, len(self.rows))

    @classmethod
    def read(cls, path: Path, texts: list[str] | None = None) -> Trace:
        """Returns the trace in a file (str or PathLike). `texts` (a list), if given, gets the exact text of the header and of each record, with its
        line end and the header's byte order mark. Raises OSError if the file can't be read, and ValueError, with the record's number, if it isn't a
        trace."""
        path = os.fsdecode(path)
        rows: list[list[str]] = []
        text = bytes_of(path).decode("utf-8", "surrogateescape")
        lines = io.StringIO(text.removeprefix("\ufeff"), newline="")
        try:
            with fields_up_to():
                if texts is None:
                    rows.extend(filter(None, csv.reader(lines)))
                else:
                    for record, fields in records_of(lines):
                        texts.append(record if rows or not text.startswith("\ufeff") else "\ufeff" + record)
                        rows.append(fields)
        except csv.Error as error:
            raise ValueError(f"{path}: record {len(rows)}: {error}") from None
        header, rows = (rows[0], rows[1:]) if rows else ([], [])
        if header[:2] != ["source", "time"]:
            raise ValueError(f"{path}: a trace begins with source,time, not with {','.join(header[:2])!r}")
        for number, row in enumerate(rows, 1):
            if len(row) != len(header):
                raise ValueError(f"{path}: record {number}: {len(row)} fields, but the header has {len(header)}: {','.join(row)!r}")
        return cls(path, header, rows)

    def times(self) -> list[int]:
        """Returns the times (list of int, ticks). Raises ValueError if one isn't a whole number."""
        return self._numbers(1)

    def numbers(self, name: str) -> list[int]:
        """Returns a column after the times (list of int). Raises ValueError for an unknown name, and if a field isn't a whole number."""
        if name not in self.header[2:]:
            raise ValueError(f"{self.path}: no column {name!r}; it has {', '.join(self.header[2:]) or 'none'}")
        return self._numbers(self.header.index(name, 2))

    def _numbers(self, at: int) -> list[int]:
        texts = [row[at] for row in self.rows]
        if not all(map(str.isdigit, texts)) or not all(map(str.isascii, texts)):
            number, text = next((number, it) for number, it in enumerate(texts, 1) if not (it.isascii() and it.isdigit()))
            raise ValueError(f"{self.path}: record {number}, column {self.header[at]}: {text!r} is not a whole number")
        return list(map(int, texts))

    def sources(self) -> list[str]:
        """Returns the source of each record (list of str)."""
        return [row[0] for row in self.rows]

    def with_columns(self, **columns: Iterable[int]) -> Trace:
        """Returns the trace with further columns (lists of int) at the end. Raises ValueError if it already has one of them."""
        for name in columns:
            if name in self.header:
                raise ValueError(f"{self.path}: it already has a column {name!r}")
        more = zip(*[map(str, column) for column in columns.values()])
        return Trace(self.path, [*self.header, *columns], [[*row, *it] for row, it in zip(self.rows, more)])

    def with_values(self, **columns: Iterable[int]) -> Trace:
        """Returns the trace with these values (lists of int) in the columns of these names after the times, as far as it has them."""
        places = {self.header.index(name, 2): values for name, values in columns.items() if name in self.header[2:]}
        rows = [list(row) for row in self.rows]
        for place, values in places.items():
            for row, value in zip(rows, values):
                row[place] = str(value)
        return Trace(self.path, self.header, rows)

    def lines(self) -> Iterator[list[str]]:
        """Yields the header and the rows: a trace for `mpsim.run`."""
        yield self.header
        yield from self.rows

    def texts(self) -> Iterator[str]:
        """Returns the header and the rows as texts (str), each with its line feed."""
        line_of = row_writer()
        return (f"{line_of(line)}\n" for line in self.lines())


def pool_warning(path: str, header: Sequence[str]) -> str | None:
    """Returns a warning (str) about a trace made by `mpplan pool`, given by its path and header, that will be run in another way; None for any other
    trace.

    >>> from mpsim.traces.trace import pool_warning
    >>> pool_warning("calls.csv", ["source", "time", "desk_agent", "desk_wait"]).split(": ")[1]
    'calls.csv was made for a pool at desk'
    >>> pool_warning("calls.csv", ["source", "time", "desk_wait"])
    """
    names = [item[: -len("_agent")] for item in header[2:] if item.endswith("_agent")]
    pools = " and ".join(name for name in names if f"{name}_wait" in header[2:])
    why = "its waits hold only for this trace and this number of agents; scale or edit first, then pool"
    return f"warning: {path} was made for a pool at {pools}: {why}" if pools else None


def header_of(path: Path) -> list[str]:
    """Returns the header (list of str) of the trace in a file that can be read twice; an empty list for any other.

    >>> header_of("absent.csv")
    []
    """
    if not os.path.isfile(path):
        return []
    with open(path, encoding="utf-8-sig", errors="surrogateescape", newline="") as file:
        try:
            return next(csv.reader(file), [])
        except csv.Error:
            return []


def looks_of(path: Path) -> str | None:
    """Returns what the times of a trace's first records look like (str) if they look like those of a clock or a calendar rather than ticks; None
    otherwise, and for a trace that can't be read twice."""
    if not os.path.isfile(path):
        return None
    with open(path, encoding="utf-8-sig", errors="replace", newline="") as file:
        try:
            times = [row[1] for row in itertools.islice(csv.reader(file), 1, LOOKED_AT + 1) if len(row) > 1]
        except csv.Error:
            return None
    return looks_like_clocks(map(int, times)) if all(time.isascii() and time.isdigit() for time in times) else None


@contextlib.contextmanager
def locating_errors(trace: Trace, records: Sequence[int] | None = None, model: Path | None = None) -> Iterator[None]:
    """Corrects an Error raised in the block about a trace that was passed as rows: it gets the path of this trace (Trace) and the record's number in
    it. `records` (list of int, from 0) maps the rows passed to the trace's records, if they aren't all of them. An Error about the model gets the
    path of the model, if given."""
    try:
        yield
    except Error as error:
        if error.why.startswith("model") and model is not None:
            error.file = os.fsdecode(model)
        elif error.why.startswith("trace "):
            error.file = trace.path
            if records is not None and error.record is not None:
                number = records[error.record - 1] + 1
                error.why = error.why.replace(f"record {error.record}:", f"record {number}:", 1)
                error.record = number
        raise
