"""The types that the signatures of several modules share. Nothing is imported from here when a program runs."""

from __future__ import annotations

import os
from typing import IO, TYPE_CHECKING, Hashable, Iterable, Iterator, List, Mapping, Protocol, Sequence, Union

if TYPE_CHECKING:
    from .builder import Model
    from .exports.result import Prepared
    from .inputs import Add, Set
    from .traces.trace import Trace

# A file's name.
Path = Union[str, "os.PathLike[str]"]
# What a call takes as a model, a record of a trace, a trace, edits, many models, and a report.
ModelInput = Union["Model", str, bytes, bytearray, "os.PathLike[str]"]
Record = Union[Mapping[str, object], Sequence[object]]
Table = Union["Frame", "ArrowFrame", "InterchangeFrame", Mapping[str, Iterable[object]]]
TraceInput = Union[str, bytes, bytearray, "os.PathLike[str]", "Prepared", "Trace", "Table", Iterable[Record]]
EditsInput = Union[str, bytes, bytearray, "os.PathLike[str]", Iterable[Union["Set", "Add", str]]]
Models = Union[Mapping[Hashable, ModelInput], Iterable[ModelInput]]
ReportInput = Union[str, bytes, IO[bytes]]
# A row of a table: texts, numbers, None for a missing figure, and labels.
Row = List[object]


class Frame(Protocol):
    """A data frame, such as one of pandas or polars."""

    @property
    def columns(self) -> Iterable[str]:
        """The names of the columns."""

    def __getitem__(self, name: str, /) -> FrameColumn: ...


class FrameColumn(Protocol):
    """A column of a data frame: pandas calls its values `tolist`, polars `to_list`."""

    def to_list(self) -> List[object]:
        """Returns the values."""


class ArrowFrame(Protocol):
    """A table that gives its columns as Arrow's C stream."""

    def __arrow_c_stream__(self, requested_schema: object = None) -> object: ...


class InterchangeFrame(Protocol):
    """A table that gives its columns by the interchange protocol of data frames."""

    def __dataframe__(self, nan_as_null: bool = False, allow_copy: bool = True) -> object: ...


class Reader(Protocol):
    """An iterator of rows that counts lines, such as a CSV reader."""

    @property
    def line_num(self) -> int:
        """The number of lines read."""

    def __iter__(self) -> Iterator[List[str]]: ...

    def __next__(self) -> List[str]: ...


class _HasKind(Protocol):
    @property
    def kind(self) -> str: ...


class Nodes(Protocol):
    """Nodes by name: those of a report, or of a model."""

    def __getitem__(self, name: str, /) -> _HasKind: ...

    def __contains__(self, name: object, /) -> bool: ...
