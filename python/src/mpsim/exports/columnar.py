"""Reads exports in Parquet, with the Python package pyarrow or fastparquet, and in Arrow (also called Feather), with pyarrow."""

from __future__ import annotations

from itertools import islice
from typing import TYPE_CHECKING

from ..times.texts import DAY, SECOND
from ..times.zones import Zone
from .cells import span_text, text_of
from .table import Counted, Table

if TYPE_CHECKING:
    from collections.abc import Callable, Iterator
    from typing import Any

    from ..shapes import Reader
    from .streams import Stream

# The number of rows examined to detect formats; columns have types, so few are enough.
SAMPLE = 1 << 11
# The number of rows that are texts at one time.
PIECE = 1 << 13
_UNITS = {"s": SECOND, "ms": SECOND // 1000, "us": 1000, "ns": 1}
_ADVICE = {
    "parquet": (
        "a Parquet file",
        "duckdb -c \"COPY 'FILE' TO 'export.csv'\"",
        "install the Python package pyarrow (pip install 'mpsim[arrow]') or fastparquet",
    ),
    "arrow": ("an Arrow file", "polars or duckdb", "install the Python package pyarrow (pip install 'mpsim[arrow]')"),
}


class Columnar(Table):
    """An export in Parquet or Arrow, from a Stream whose `form` is "parquet" or "arrow". Fields become texts: times in ISO 8601, with their offset
    from UTC if they have a zone; lengths of time in h:mm:ss; empty ones are empty. Raises ValueError as Export does, and if no package reads it."""

    _names: Callable[[], list[str]]
    # Yields the columns of some rows at a time, as lists of texts.
    _pieces: Callable[[], Iterator[list[list[str]]]]

    def __init__(self, stream: Stream) -> None:
        super().__init__(0, None, stream.notes)
        what, self._size = _ADVICE[stream.form][0], 0
        try:
            opened = self._by_arrow(stream) or stream.form == "parquet" and self._by_fastparquet(stream)
        except Exception as error:
            raise _damaged(what, error) from None
        if not opened:
            what, how, install = _ADVICE[stream.form]
            raise ValueError(f"this is {what}: convert it to CSV, e.g. with {how}, or {install}")
        self._what = what
        self.sample = list(islice(self.rows()[0], SAMPLE))

    def _by_arrow(self, stream: Stream) -> bool:
        """Sets how to read the file with pyarrow. Returns False if that isn't installed."""
        try:
            import pyarrow
            import pyarrow.ipc
            import pyarrow.parquet
        except ImportError:
            return False
        reader = _arrow_reader(pyarrow, stream)
        schema = reader.schema_arrow if stream.form == "parquet" else reader.schema
        self.header = [str(name).strip() for name in schema.names]
        if stream.form == "parquet":
            self._size = int(reader.metadata.num_rows)
        # A stream can be read once, so each time it is opened again.
        self._pieces = lambda: _pieces_of(pyarrow, _arrow_reader(pyarrow, stream))
        return True

    def _by_fastparquet(self, stream: Stream) -> bool:
        """Sets how to read a Parquet file with fastparquet. Returns False if that isn't installed."""
        try:
            import fastparquet
        except ImportError:
            return False
        file = fastparquet.ParquetFile(stream.name())
        names = list(file.columns)
        self.header, self._size = [str(name).strip() for name in names], sum(int(group.num_rows) for group in file.row_groups)
        self._pieces = lambda: _pieces_of_frames(file, names)
        return True

    @property
    def size(self) -> int:
        """The number of rows; 0 if it isn't known."""
        return self._size

    def rows(self) -> tuple[Reader, int]:
        """Returns a reader of the rows, and the number of the first row, which is 1: the names of the columns are no row."""
        return Counted(self._all()), 1

    def _all(self) -> Iterator[list[str]]:
        try:
            for columns in self._pieces():
                yield from map(list, zip(*columns))
        except Exception as error:
            raise _damaged(self._what, error) from None


def _damaged(what: str, error: Exception) -> ValueError:
    return ValueError(f"{what} that can't be read: {type(error).__name__}: {' '.join(str(error).split())}"[:300])


def _arrow_reader(pyarrow: Any, stream: Stream) -> Any:
    """Opens a Parquet or an Arrow file, or an Arrow stream, with pyarrow."""
    if stream.form == "parquet":
        return pyarrow.parquet.ParquetFile(stream.book())
    file = stream.book()
    is_file = file.read(6) == b"ARROW1"
    file.seek(0)
    return pyarrow.ipc.open_file(file) if is_file else pyarrow.ipc.open_stream(file)


def _pieces_of(pyarrow: Any, reader: Any) -> Iterator[list[list[str]]]:
    """Yields the columns of some rows at a time, as texts."""
    if hasattr(reader, "iter_batches"):
        batches = reader.iter_batches(batch_size=PIECE)
    elif hasattr(reader, "num_record_batches"):
        batches = map(reader.get_batch, range(reader.num_record_batches))
    else:
        batches = reader
    for batch in batches:
        for at in range(0, batch.num_rows, PIECE):
            yield [_arrow_texts(pyarrow, column) for column in batch.slice(at, PIECE).columns]


def _arrow_texts(pyarrow: Any, column: Any) -> list[str]:
    """Returns the texts of an array of pyarrow. Times and lengths are read as numbers, since Python's own have no nanoseconds."""
    kind, types = column.type, pyarrow.types
    if types.is_timestamp(kind) or types.is_duration(kind) or types.is_time(kind):
        per = _UNITS[kind.unit]
        numbers = column.cast(pyarrow.int32() if types.is_time32(kind) else pyarrow.int64()).to_pylist()
        if not types.is_timestamp(kind):
            return ["" if value is None else span_text(value * per) for value in numbers]
        # Those of a zone are moments in UTC.
        shown, offset = Zone().shown, "" if kind.tz is None else "+00:00"
        return ["" if value is None else shown(value * per) + offset for value in numbers]
    return list(map(text_of, column.to_pylist()))


def _pieces_of_frames(file: Any, names: list[str]) -> Iterator[list[list[str]]]:
    """Yields the columns of some rows at a time, as texts, of a file opened by fastparquet, which reads data frames of pandas."""
    for frame in file.iter_row_groups(index=False):
        for at in range(0, len(frame), PIECE):
            yield [list(map(text_of, frame[name].iloc[at : at + PIECE].tolist())) for name in names]
