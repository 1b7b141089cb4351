"""Runs a trace of any length in pieces, cut where the whole network is empty."""

from __future__ import annotations

import contextlib
import os
from itertools import accumulate
from typing import TYPE_CHECKING, NamedTuple

from ..errors import BoundError, Error, TraceError, VisitsError
from ..leaving import leaving
from ..limits import RECORDS
from ..model import turned, without_bound
from ..runs import run, visits
from ..traces.windows import Unread, Windows
from .whole import Whole

if TYPE_CHECKING:
    from collections.abc import Callable, Iterable, Iterator, Sequence

    from ..report import Report
    from ..shapes import Path


class Piece(NamedTuple):
    """A piece of a trace: its first record (from 1), its number of records, the moment of its last event (int, ticks), and the number of its jobs
    that are still in the network when the next piece begins, which is 0 unless it was cut anyway."""

    first: int
    records: int
    span: int
    inside: int


class NeverEmpty(ValueError):
    """The network is never empty within a window of records, so the trace can't be cut there."""

    status = 14


def pieces(
    model: str,
    lines: Iterable[str],
    most: int = RECORDS,
    anyway: bool = False,
    tell: Callable[[int], object] = lambda done: None,
) -> tuple[Report, list[Piece]]:
    """Returns the report (Report, without visits) of a trace of any length, and its pieces (list of Piece). The trace is given by its lines (iterable
    of str, with their ends); its records must be in order of time.

    Of each `most` records (int), the longest piece is taken after which the network is empty: all jobs have left before the next record's time,
    except for parts that a join holds for good. If there is none, NeverEmpty is raised, or with `anyway` (bool) the piece ends where the fewest jobs
    are inside; the next one then begins in a network without them, and the report isn't exact. Otherwise the report is that of one run. `tell` is
    called with the number of records done. Raises what `mpsim.run` does, with the numbers of records and positions of the whole trace, and ValueError
    for records that aren't in order.

    >>> from mpsim.sweeps.pieces import pieces
    >>> trace = ["source,time\\n", "door,0\\n", "door,1\\n", "door,9\\n", "door,30\\n"]
    >>> report, found = pieces("model 1\\nsource door\\nserver desk =4 from door\\n", trace, most=3)
    >>> found
    [Piece(first=1, records=3, span=13, inside=0), Piece(first=4, records=1, span=34, inside=0)]
    >>> report["desk"].wait, report["desk"].util
    (3, 0.4705)
    """
    windows = Windows(lines, most)
    base = run(_bytes(model), windows.header)
    running = _Running(model, windows, Whole(base), most, anyway)
    found: list[Piece] = []
    while (piece := running.next(not found)) is not None:
        found.append(piece)
        tell(windows.before)
    if running.late:
        # As in one run, the node of the lowest rank counts, and there the first visit.
        raise min(running.late, key=lambda error: running.whole.rank(error.node or ""))
    return running.whole.report(), found


@contextlib.contextmanager
def naming(model: Path, trace: Path) -> Iterator[None]:
    """Adds the path of the model or of the trace to an error raised in the block, which `pieces` leaves out."""
    try:
        yield
    except (NeverEmpty, Unread) as error:
        error.args = (f"{os.fsdecode(trace)}: {error}",)
        raise
    except Error as error:
        error.file = os.fsdecode(model) if error.why.startswith("model") else os.fsdecode(trace) if error.why.startswith("trace ") else error.file
        raise


def _bytes(text: str) -> bytes:
    return text.encode(errors="surrogateescape")


class _Running:
    """The state between two pieces. `late` (list of BoundError) are the refusals of pieces with a departure past the bound."""

    def __init__(self, model: str, windows: Windows, whole: Whole, most: int, anyway: bool) -> None:
        self._model, self._windows, self.whole, self._most, self._anyway = model, windows, whole, most, anyway
        self.late: list[BoundError] = []

    def _models(self) -> tuple[bytes, bytes]:
        """Returns the model for the next piece, and the same without its bound, so that departures past it can be seen."""
        text = turned(self._model, self.whole.places)
        return _bytes(text), _bytes(without_bound(text))

    def next(self, is_first: bool) -> Piece | None:
        """Runs the next piece and adds it to the whole; returns None at the end of the trace, unless the trace is empty."""
        count, inside = min(self._windows.fill(), self._most), 0
        if not count and not is_first:
            return None
        while True:
            try:
                if not self._windows.is_last(count):
                    count, inside = self._cut(count)
                first, span = self._windows.before + 1, self._run(count)
                break
            except VisitsError:
                # Forks may make more visits than records.
                if count < 2:
                    raise
                count //= 2
        self._windows.take(count)
        return Piece(first, count, span, inside)

    def _cut(self, count: int) -> tuple[int, int]:
        """Returns how many of this many records the next piece has, and how many of its jobs are in the network when the next one begins."""
        with self._located(), visits(self._models()[1], self._windows.text(count)) as reading:
            gone = list(map(int, leaving(reading).gone[1:]))
        times = self._windows.times
        latest: list[int] = list(accumulate(gone, max))
        for end in range(count, 0, -1):
            if latest[end - 1] < times[end]:
                return end, 0
        if self._anyway:
            return fewest_inside(times[: count + 1], gone)
        first, last = self._windows.before + 1, self._windows.before + count
        why = "so the trace can't be cut there (--cut-anyway cuts where the fewest jobs are inside; the report is then not exact)"
        raise NeverEmpty(f"the network is never empty from record {first:,} to {last:,}, {why}")

    def _run(self, count: int) -> int:
        """Runs a piece of this many records and returns its span."""
        text, (model, free) = self._windows.text(count), self._models()
        try:
            with self._located(), visits(model, text) as reading:
                self.whole.add(reading)
        except BoundError as error:
            self.late.append(error)
            with self._located(), visits(free, text) as reading:
                self.whole.add(reading)
        if self._windows.is_odd and self._windows.is_last(count):
            raise Unread(f"record {self._windows.before + count}: its time isn't a number of ticks")
        return reading.span

    @contextlib.contextmanager
    def _located(self) -> Iterator[None]:
        """Corrects an Error raised in the block: it gets the number of the record in the trace, or the position among all visits to the node."""
        try:
            yield
        except (TraceError, BoundError) as error:
            for name, before in ("record", self._windows.before), ("position", self.whole.count(error.node) if error.node else 0):
                number = getattr(error, name)
                if number is not None:
                    setattr(error, name, number + before)
                    for text in "why", "told":
                        setattr(error, text, getattr(error, text).replace(f"{name} {number}", f"{name} {number + before}", 1))
            raise


def fewest_inside(times: Sequence[int], gone: Sequence[int]) -> tuple[int, int]:
    """Returns after how many records (int) to cut so that the fewest jobs are in the network when the next one comes, in the second half of records
    with these moments of leaving (list of int), and that number of jobs; `times` (list of int) has the time of one record more.

    >>> from mpsim.sweeps.pieces import fewest_inside
    >>> fewest_inside([0, 1, 2, 9, 10], [5, 9, 10, 14])
    (4, 2)
    """
    ordered, count, left = sorted(gone), len(gone), 0
    best = count, count
    for end in range(1, count + 1):
        while left < count and ordered[left] < times[end]:
            left += 1
        if 2 * end > count and end - left <= best[1]:
            best = end, end - left
    return best
