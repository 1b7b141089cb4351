"""Passes inputs to a program: files by their paths, everything else through memory, which has a name under /proc."""

from __future__ import annotations

import contextlib
import csv
import io
import itertools
import os
import re
from collections.abc import Iterable, Mapping
from datetime import datetime, timedelta
from typing import TYPE_CHECKING, NamedTuple, Tuple, cast

from .builder import Model
from .files import in_memory
from .frames.columns import column_of
from .frames.ticks import Clock, in_ticks
from .model import columns

if TYPE_CHECKING:
    from collections.abc import Callable, Iterator, Sequence
    from typing import IO, BinaryIO

    from .frames.columns import Column
    from .shapes import EditsInput, ModelInput, Record, ReportInput, TraceInput


class Set(NamedTuple):
    """An edit that replaces record `record` (int, from 1 after the header) by one with this source (str), time (int, ticks) and values (tuple of int,
    in the order in which the model first names the columns).

    >>> import mpsim
    >>> str(mpsim.Set(10, "web", 20, (1, 1, 4)))
    'set 10 web 20 1 1 4'
    """

    record: int
    source: str
    time: int
    values: Tuple[int, ...] = ()

    def __str__(self) -> str:
        return " ".join(map(str, ("set", _whole(self.record), *_row_of(self))))


class Add(NamedTuple):
    """An edit that appends a record with this source (str), time (int, ticks) and values (tuple of int, in the order in which the model first names
    the columns).

    >>> import mpsim
    >>> str(mpsim.Add("src", 3, (2,)))
    'add src 3 2'
    """

    source: str
    time: int
    values: Tuple[int, ...] = ()

    def __str__(self) -> str:
        return " ".join(map(str, ("add", *_row_of(self))))


def _row_of(edit: Set | Add) -> list[object]:
    """Returns the words of an edit's row: the source, the time and the values."""
    if isinstance(edit.values, (str, bytes, Mapping)) or not isinstance(edit.values, Iterable):
        raise TypeError(f"the values of an edit are numbers, in the order of the model's columns, not {type(edit.values).__name__}: {edit!r}")
    return [edit.source, _whole(edit.time), *map(_whole, edit.values)]


def records_of(lines: Iterable[str]) -> Iterator[tuple[str, list[str]]]:
    """Yields pairs of a record's text (str), including line ends, and its fields (list of str), from the lines of a trace, starting with the header.
    Empty lines are skipped, as in the program. Raises csv.Error if Python's reader can't parse a field."""
    kept = []

    def each() -> Iterator[str]:
        for line in lines:
            kept.append(line)
            yield line

    for fields in csv.reader(each()):
        if fields:
            yield "".join(kept), fields
        kept.clear()


class _Line:
    """Replaces the file of a CSV writer, which then returns the text of a row."""

    def write(self, text: str) -> str:
        return text


def row_writer() -> Callable[[Iterable[object]], str]:
    """Returns a function that makes the text of a CSV row, without its line end. The line end that is cut off makes every version of Python quote
    carriage returns too."""
    write = csv.writer(_Line(), lineterminator="\r\n").writerow
    return lambda row: str(write(row))[:-2]


class Input:
    """A file for a program: a given path, or what `write` puts into a file in memory, which lasts until `close`."""

    _memory: int | None

    def __init__(self, path: str | None = None, write: Callable[[BinaryIO], object] | None = None) -> None:
        self.path, self._memory = path, None
        if write is not None:
            self._memory = in_memory("mpsim")
            try:
                with open(self._memory, "wb", closefd=False) as file:
                    write(file)
            except BaseException:
                self.close()
                raise

    @property
    def word(self) -> str:
        """The name to give to the program. A leading dash would make it an option."""
        if self._memory is not None:
            return f"/proc/self/fd/{self._memory}"
        path = self.path or ""
        return f"./{path}" if path.startswith("-") else path

    @property
    def handles(self) -> list[int]:
        """The open files that the program must inherit: the memory, or the one named by a path such as /dev/fd/63, which a shell makes for
        <(command)."""
        if self._memory is not None:
            return [self._memory]
        found = re.fullmatch(r"/(?:dev|proc/self)/fd/(\d{1,9})", self.path or "")
        return [int(found[1])] if found and int(found[1]) > 2 else []

    def text(self) -> str | None:
        """Returns the text (str) if the file can be read again, unlike a pipe; else None. Bytes that aren't UTF-8 are kept (surrogateescape)."""
        with contextlib.suppress(OSError, ValueError):
            if os.path.isfile(self.word):
                with open(self.word, encoding="utf-8", errors="surrogateescape", newline="\n") as file:
                    return file.read().removeprefix("\ufeff")
        return None

    def line(self, number: int) -> str | None:
        """Returns a line of a model or of edits, from 1, or None."""
        text = self.text()
        lines = text.split("\n") if text else []
        return lines[number - 1].removesuffix("\r") if 0 < number <= len(lines) else None

    def _records(self) -> Iterator[tuple[str, list[str]]]:
        """Yields pairs of a record's text and its fields, if the file can be read again."""
        if os.path.isfile(self.word):
            with open(self.word, encoding="utf-8-sig", errors="surrogateescape", newline="") as file:
                for text, fields in records_of(file):
                    yield text.strip("\r\n"), fields

    def _record(self, number: int) -> tuple[str, list[str]] | None:
        with contextlib.suppress(OSError, ValueError, csv.Error):
            return next(itertools.islice(self._records(), number, None), None)
        return None

    def record(self, number: int) -> str | None:
        """Returns the text of a record of a trace (from 1, the header is 0), or None."""
        found = self._record(number)
        return found and found[0]

    def column(self, field: int) -> str | None:
        """Returns the name of a column of a trace, from 1, or None."""
        found = self._record(0)
        return found[1][field - 1] if found and field <= len(found[1]) else None

    def close(self) -> None:
        """Frees the memory."""
        if self._memory is not None:
            os.close(self._memory)
            self._memory = None


def _given(value: str | bytes | bytearray | os.PathLike[str]) -> Input:
    """Returns the input for a text, bytes or a path. Texts of models, traces and edits contain a line feed, and paths hardly ever do."""
    if isinstance(value, str) and "\n" in value:
        value = value.encode(errors="surrogateescape")
    if isinstance(value, (bytes, bytearray)):
        text = bytes(value)
        return Input(write=lambda file: file.write(text))
    return Input(os.fsdecode(os.fspath(value)))


def model_input(value: ModelInput) -> Input:
    """Returns the input for a model: a Model, a text (str with a line feed, or bytes), or a path."""
    return _given(str(value) if isinstance(value, Model) else value)


def model_text(value: ModelInput) -> str:
    """Returns the text (str) of a Model, a text, bytes, or a file's path. Raises OSError if the file can't be read."""
    with contextlib.closing(model_input(value)) as given:
        if given.path is not None:
            with open(given.path, encoding="utf-8", errors="surrogateescape", newline="\n") as file:
                return file.read().removeprefix("\ufeff")
        return given.text() or ""


def trace_input(value: TraceInput, model: Input, clock: Clock = Clock()) -> Input:
    """Returns the input for a trace: a path, a text, a trace made by `prepare`, a data frame, columns, or rows; `model` is an input too, and `clock`
    says what a tick is, if the trace has dates or lengths of time. Raises TypeError or ValueError for anything else."""
    if isinstance(value, (str, bytes, bytearray, os.PathLike)):
        return _given(value)
    rows = _rows_of(value, model, clock)
    return Input(write=lambda file: _write_rows(file, rows))


def edits_input(value: EditsInput) -> Input:
    """Returns the input for edits: a path, a text, which may be empty, or a list of Set, Add and lines. Raises TypeError for anything else."""
    if isinstance(value, str) and not value:
        return Input(write=lambda file: None)
    if isinstance(value, (str, bytes, bytearray, os.PathLike)):
        return _given(value)
    if isinstance(value, (Set, Add)) or not isinstance(value, Iterable):
        raise TypeError(f"edits are a path, a text, or a list of Set and Add, not {type(value).__name__}")
    edits = [_known_edit(item) for item in value]
    return Input(write=lambda file: file.writelines(f"{item}\n".encode() for item in edits))


def _known_edit(edit: object) -> Set | Add | str:
    if not isinstance(edit, (Set, Add, str)):
        raise TypeError(f"an edit is a Set, an Add or a line, not {type(edit).__name__}: {edit!r}")
    return edit


def _first(names: Iterable[str]) -> list[str]:
    """Returns names of columns in the order that the program requires."""
    return ["source", "time"] + [name for name in names if name not in ("source", "time")]


def _rows_of(value: object, model: Input, clock: Clock) -> Iterable[Sequence[object]]:
    """Returns the header and the rows of a trace that isn't a text or a path."""
    if hasattr(value, "header") and hasattr(value, "rows"):
        # A Trace, or a Prepared.
        rows = value.rows() if callable(value.rows) else value.rows
        return itertools.chain([value.header], cast("Iterable[Sequence[object]]", rows))
    # Most calls have no frame.
    from .frames.read import columns_of, is_of_columns

    if is_of_columns(value):
        text = model.text()
        # Columns that the model doesn't use may be anything.
        found = columns_of(value, None if text is None else ["source", "time", *columns(text)])
        return _rows_of_columns(found, text or "", clock)
    if hasattr(value, "dtype") and hasattr(value, "tolist"):
        # The rows of a numpy array.
        value = value.tolist()
    if not isinstance(value, Iterable):
        raise TypeError(f"a trace is a path, a text, a data frame, columns or rows, not {type(value).__name__}")
    return _rows(iter(cast("Iterable[Record]", value)), model, clock)


def _rows_of_columns(found: Mapping[str, Column], text: str, clock: Clock) -> Iterable[Sequence[object]]:
    """Returns the header and the rows of columns by name."""
    for name in "source", "time":
        if name not in found:
            raise ValueError(f"the trace has no column {name!r}: {list(found)}")
    names = _first(found)
    values = in_ticks(found, text, clock)
    return itertools.chain([names], zip(*(values[name] for name in names)))


def _rows(rows: Iterator[Record], model: Input, clock: Clock) -> Iterable[Sequence[object]]:
    """Returns the header and the rows of mappings, named tuples, or sequences, whose first may be the header."""
    first = next(rows, None)
    if isinstance(first, Mapping):
        names = _first(first)
        every = cast("Iterator[Mapping[str, object]]", itertools.chain([first], rows))
        return _timed(names, (_of_mapping(it, names, number) for number, it in enumerate(every, 1)), model, clock)
    header: Sequence[str] | None = getattr(first, "_fields", None)
    left = cast("Iterator[Sequence[object]]", itertools.chain([] if first is None else [first], rows))
    if header is None and first is not None and not isinstance(first, str) and list(first[:2]) == ["source", "time"]:
        header = cast("Sequence[str]", next(left))
    return _timed(["source", "time", *columns(model.text() or "")] if header is None else header, left, model, clock)


def _timed(header: Sequence[str], rows: Iterator[Sequence[object]], model: Input, clock: Clock) -> Iterable[Sequence[object]]:
    """Returns a header and rows; all at once if the first row has a date or a length of time, since all rows say what a tick is."""
    first = next(rows, None)
    every = itertools.chain([] if first is None else [first], rows)
    if first is None or isinstance(first, (str, bytes)) or not any(isinstance(item, (datetime, timedelta)) for item in first):
        return itertools.chain([header], every)
    whole = list(every)
    for number, row in enumerate(whole, 1):
        if len(row) != len(header):
            raise ValueError(f"trace record {number} has {len(row)} values, but there are {len(header)} columns: {', '.join(header)}")
    return _rows_of_columns({name: column_of(name, list(values)) for name, values in zip(header, zip(*whole))}, model.text() or "", clock)


def _of_mapping(row: Mapping[str, object], header: Sequence[str], number: int) -> list[object]:
    if set(row) != set(header):
        raise ValueError(f"trace record {number} has the columns {list(row)}, but those before it have {header}")
    return [row[name] for name in header]


def _whole(value: object) -> object:
    """Converts whole floats to int: one missing value turns a whole column into floats. The program rejects all other floats."""
    return int(value) if isinstance(value, float) and value.is_integer() else value


def _write_rows(file: BinaryIO, rows: Iterable[Sequence[object]]) -> None:
    text, line_of = _Text(file), row_writer()
    for number, row in enumerate(rows):
        if isinstance(row, (str, bytes)):
            raise TypeError(f"trace record {number} is a text, not a row: {row!r}")
        text.write(line_of([_whole(item) for item in row]) + "\n")
    text.flush()


class _Text:
    """Collects the texts of rows and writes them in batches."""

    texts: list[str]

    def __init__(self, file: BinaryIO) -> None:
        self.file, self.texts = file, []

    def write(self, text: str) -> None:
        self.texts.append(text)
        if len(self.texts) == 4096:
            self.flush()

    def flush(self) -> None:
        self.file.write("".join(self.texts).encode(errors="surrogateescape"))
        self.texts.clear()


def stream_of(text: ReportInput) -> IO[bytes]:
    """Returns a text, bytes or an open file of bytes as an open file of bytes."""
    if isinstance(text, str):
        text = text.encode(errors="surrogateescape")
    return io.BytesIO(text) if isinstance(text, (bytes, bytearray, memoryview)) else text
