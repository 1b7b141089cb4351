"""Cuts an export into parts, such as months, in one pass: records wait in a temporary file until all rows are read."""

from __future__ import annotations

from array import array
from typing import TYPE_CHECKING

from ..files import temporary
from ..limits import RECORDS
from ..times.texts import DAY, Cache, moment
from .arrivals import Span, judge_far_spans
from .rows import Rows

if TYPE_CHECKING:
    from collections.abc import Iterable, Iterator, Sequence
    from typing import IO, Any, TextIO

    from .plan import Plan

# The kinds of parts, the longest first.
KINDS = "month", "week", "day"
# The number of records that wait in memory.
WAITING = 1 << 17
# A trace has at most this many parts.
PARTS = 1 << 12


class Part(Rows):
    """The records of one part: its `label` (str), and where they wait in the temporary file (`blocks`, a list of places and counts)."""

    span: Span
    blocks: list[tuple[int, int]]

    def __init__(self, plan: Plan, label: str) -> None:
        super().__init__(plan)
        self.label, self.blocks = label, []

    def put(self, place: int, stamps: Sequence[int], numbers: Sequence[int]) -> None:
        """Notes a block of records with these moments and numbers of rows at a place of the file."""
        (first, first_row), (last, last_row), size = min(zip(stamps, numbers)), max(zip(stamps, numbers)), len(stamps)
        if self.blocks:
            (first, first_row), (last, last_row) = min((first, first_row), self.span[:2]), max((last, last_row), self.span[2:4])
            size += self.span.size
        self.span = Span(first, first_row, last, last_row, size)
        self.blocks.append((place, len(stamps)))

    def load(self, file: IO[bytes], names: Sequence[str]) -> None:
        """Reads the records of this part back; `names` are those of the sources, by their numbers."""
        for place, count in self.blocks:
            file.seek(place)
            numbers, sources, *columns = (_read(file, kind, count) for kind in "q" + "B" + "q" * (2 + len(self.values)))
            for at, number in enumerate(numbers, len(self.stamps)):
                if not self._runs or number - at != self._runs[-1][1] - self._runs[-1][0]:
                    self._runs.append((at, number))
            self.sources.extend(map(names.__getitem__, sources))
            for column, more in zip((self.stamps, self._hashes, *self.values), columns):
                column.extend(more)


def _read(file: IO[bytes], kind: str, count: int) -> array[int]:
    found: array[int] = array(kind)
    found.frombytes(file.read(count * found.itemsize))
    return found


class Parts(Rows):
    """The records of an export, cut into parts of a kind (see KINDS) by the days on which they arrive. Raises ValueError if its times have no day."""

    _parts: dict[str, Part]
    _names: dict[str, int]

    def __init__(self, plan: Plan, by: str, left_out: TextIO | None = None) -> None:
        super().__init__(plan, left_out, 1 << 62)
        if not plan.has_day or plan.is_ticks:
            raise ValueError(f"--split-by {by}: the times have no day")
        self._by, self._parts, self._names = by, {}, {}
        self._labels = Cache(self._label)
        self._file = temporary()

    def _label(self, day: int) -> str:
        """Returns the name of the part that a day (from 1970) belongs to."""
        date = moment(day * DAY).date()
        if self._by == "week":
            return "{}-W{:02}".format(*date.isocalendar()[:2])
        return str(date)[: 7 if self._by == "month" else 10]

    def __enter__(self) -> Parts:
        return self

    def __exit__(self, *_: object) -> None:
        self._file.close()

    def _add(self, numbers: Sequence[int], rows: Sequence[Sequence[str]], columns: Iterable[Iterable[Any]]) -> None:
        super()._add(numbers, rows, columns)
        if len(self.stamps) >= WAITING:
            self._put_down()

    def _put_down(self) -> None:
        """Moves the records that wait in memory to the file, part by part."""
        wall = self.plan.place.wall
        found: dict[str, list[int]] = {}
        for at, stamp in enumerate(self.stamps):
            found.setdefault(self._labels[wall(stamp) // DAY], []).append(at)
        ends = [at for at, _ in self._runs[1:]] + [len(self.stamps)]
        numbers = array("q", (number + at - begin for (begin, number), end in zip(self._runs, ends) for at in range(begin, end)))
        sources = array("B", (self._names.setdefault(name, len(self._names)) for name in self.sources))
        for label, records in found.items():
            part = self._parts.get(label) or self._parts.setdefault(label, Part(self.plan, label))
            place = self._file.tell()
            for column in numbers, sources, self.stamps, self._hashes, *self.values:
                self._file.write(array(column.typecode, map(column.__getitem__, records)).tobytes())
            part.put(place, [self.stamps[at] for at in records], [numbers[at] for at in records])
        if len(self._parts) > PARTS:
            raise ValueError(f"more than {PARTS:,} parts: choose longer ones, or an earlier --until")
        del self.stamps[:], self._hashes[:], self.sources[:], self._runs[:]
        for column in self.values:
            del column[:]

    def judge(self, most: float, far: bool) -> None:
        """Raises ValueError if too many rows are left out, if a part has too many records, or if some lie far from the rest."""
        if self.stamps:
            self._put_down()
        self.judge_left(most, sum(part.span.size for part in self._parts.values()))
        parts = sorted(self._parts.values(), key=lambda part: part.span)
        if not far:
            judge_far_spans(self.plan, [part.span for part in parts])
        for part in parts:
            if part.span.size > RECORDS:
                shorter = KINDS[KINDS.index(self._by) + 1 :]
                how = f"--split-by {shorter[0]}" if shorter else "choose some with --where"
                raise ValueError(f"{part.label} has {part.span.size:,} records, but a trace has at most {RECORDS:,}: {how}")

    def parts(self) -> Iterator[Part]:
        """Yields the parts in order of time, each with its records. The first has the account of rows that are left out or excluded."""
        names, labels = list(self._names), sorted(self._parts, key=lambda label: self._parts[label].span)
        for label in labels:
            part = self._parts.pop(label)
            part.load(self._file, names)
            if label == labels[0]:
                part.left, part.unwanted, part.long = self.left, self.unwanted, self.long
            yield part
