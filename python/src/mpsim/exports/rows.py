"""Reads the rows of an export into records, and keeps account of the rows that are left out, that no one asked for, or that occur twice."""

from __future__ import annotations

import contextlib
import csv
from array import array
from bisect import bisect_left, bisect_right
from itertools import compress, islice
from operator import eq, gt, or_
from typing import TYPE_CHECKING

from ..limits import RECORDS
from ..progress import Progress, uncollected
from ..tables.sheets import Writer
from ..times.texts import Asks
from ..wording import counted, quoted
from .delimited import EMPTY, LINES, empty_lines
from .expressions import Expression
from .records import Left, Unwanted
from .result import CHUNK

if TYPE_CHECKING:
    from collections.abc import Callable, Iterable, Sequence
    from typing import Any, TextIO

    from .events import Made
    from .plan import Column, Plan

# Rows as they can be hashed.
_FIELDS: Callable[[Sequence[str]], tuple[str, ...]] = tuple


class TooManyLeft(ValueError):
    """More rows of an export can't be read than is allowed."""

    status = 13


def _service_columns(plan: Plan) -> set[int]:
    """Returns the indices (set) of the columns that an abandoned call leaves empty."""
    parts = [part for it in plan.columns if it.is_service for part in getattr(it, "parts", [it])]
    terms = [term for part in parts for term in getattr(part, "lengths", [])]
    times = [times for part in parts if isinstance(part, Expression) for _, times in part.times]
    return {*(item.column for item in (*plan.answered, *parts, *times)), *(column for _, column, _ in terms)}


class Rows:
    """The records of an export, in its order: `sources` (list of str), `stamps` (array, their moments) and `values` (list of arrays). `left` has, by
    reason, the number of rows left out and the first of them, `unwanted` the number that conditions excluded, and `long` the number of the first row
    with a field of many lines, or 0. `columns` are those of the trace, in the order of `values`. Rows that are left out are written to a file, if
    given. Raises ValueError for more than `most` records, by default those of a trace."""

    left: dict[str, tuple[int, str]]
    sources: list[str]
    stamps: array[int]
    values: list[array[int]]
    columns: Sequence[Column | Made]
    _empty: dict[str, int]
    _hashes: array[int]
    _runs: list[tuple[int, int]]
    # What is counted in messages.
    what = "row"

    def __init__(self, plan: Plan, left_out: TextIO | None = None, most: int | None = None) -> None:
        self.plan, self.left, self.unwanted, self.long, self._most = plan, {}, 0, 0, most or RECORDS
        self._blank = 0
        self.sources, self.stamps, self.columns, self.values = [], array("q"), plan.columns, [array("q") for _ in plan.columns]
        self._empty, self._services = {}, _service_columns(plan)
        self._hashes, self._runs = array("q"), []
        self._writer = Writer(left_out) if left_out is not None else None

    def read(self, most: float = 100) -> None:
        """Reads all rows. Raises ValueError if the export is too long or needs another option, and TooManyLeft as soon as more rows are left out than
        a trace has records, if that is more than this percentage however many records follow."""
        if self._writer:
            self._writer.writerow(["row", "reason", *self.plan.export.header])
        with uncollected(), Progress(self.plan.export.size, "rows") as progress:
            try:
                for number, some, lines in self.plan.export.chunks(CHUNK):
                    self._read_some(some, number)
                    if lines > len(some):
                        self._judge_lines(some, number)
                    self._judge_unused(most)
                    progress(number + len(some))
            except csv.Error as error:
                raise ValueError(f"row {self._unread()}: {error}: is a closing quote missing?") from None

    def _judge_unused(self, most: float) -> None:
        """Raises ValueError if too many of the rows so far are empty and hardly any has fields, or TooManyLeft as `read` does."""
        left = sum(count for count, _ in self.left.values())
        if self._blank > max(EMPTY, 10 * (left + self.unwanted + len(self.stamps))):
            raise ValueError(empty_lines())
        if left > self._most and 100 * left > most * (left + self._most):
            rows = f"{left:,} of the first {counted(left + len(self.stamps), 'row')}"
            raise TooManyLeft("; ".join([f"{rows} would be left out: to read on, give --left-out-most 100%", *self.reasons()[:3], *self.hints()]))

    def _unread(self) -> int:
        """Returns the number of the row that the reader of rows can't read."""
        rows, number = self.plan.export.rows()
        with contextlib.suppress(csv.Error):
            for _ in rows:
                number += 1
        return number

    def _judge_lines(self, rows: Sequence[list[str]], first: int) -> None:
        """Raises ValueError if a field of these rows has lines that are rows themselves, as after a quote that isn't closed."""
        plan = self.plan
        for number, row in enumerate(rows, first):
            for lines in (item.splitlines() for item in row if "\n" in item or "\r" in item):
                inner = csv.reader(lines[1:], delimiter=plan.export.delimiter)
                found = sum(len(item) == len(plan.export.header) and plan.time.how.is_one(item[plan.time.column]) for item in inner)
                if found:
                    raise ValueError(f"row {number}: a field contains {counted(found, 'row')} of the table: is a closing quote missing?")
                if len(lines) > LINES and not self.long:
                    self.long = number

    def _read_some(self, rows: Sequence[list[str]], first: int) -> None:
        """Reads some rows, the first of which has this number."""
        plan = self.plan
        if plan.is_ragged:
            width = len(plan.export.header)
            rows = [row and row[:width] + [""] * (width - len(row)) for row in rows]
        with contextlib.suppress(ValueError, OverflowError):
            # If one of them needs individual treatment, all are read one by one.
            return self._read_met(rows, range(first, first + len(rows)))
        numbers, kept, records = [], [], []
        for number, row in enumerate(rows, first):
            if not row:
                # An empty line counts as a row, as in a spreadsheet, but isn't a record.
                self._blank += 1
                continue
            try:
                records.append(plan.records.of(row))
                numbers.append(number)
                kept.append(row)
            except Unwanted:
                self.unwanted += 1
                if plan.log:
                    plan.log.excluded(row)
            except Left as error:
                self._leave(number, error, row)
                if plan.log:
                    plan.log.leave(row)
            except Asks as error:
                raise ValueError(f"row {number}, column {plan.export.header[error.column]!r}: {quoted(row[error.column])}: {error}") from None
        self._add(numbers, kept, zip(*records))

    def _read_met(self, rows: Sequence[list[str]], numbers: Sequence[int]) -> None:
        """Reads some rows with these numbers at once, after excluding those that don't meet all conditions. Raises ValueError if one of them may need
        individual treatment; nothing has changed then."""
        conditions, records = self.plan.records.conditions, self.plan.records
        excluded: list[list[str]] = []
        if conditions:
            records.judge_widths(rows)
            met = [all(condition.holds(row) for condition in conditions) for row in rows]
            if not all(met):
                excluded = [row for row, is_met in zip(rows, met) if not is_met]
                rows, numbers = list(compress(rows, met)), list(compress(numbers, met))
        columns = records.many(rows) if rows else []
        self.unwanted += len(excluded)
        if self.plan.log:
            for row in excluded:
                self.plan.log.excluded(row)
        self._add(numbers, rows, columns)

    def _add(self, numbers: Sequence[int], rows: Sequence[Sequence[str]], columns: Iterable[Iterable[Any]]) -> None:
        """Adds records, given as columns: sources, moments, and each of the values; with the numbers and the fields of their rows."""
        for at, number in enumerate(numbers, len(self.stamps)):
            if not self._runs or number - at != self._runs[-1][1] - self._runs[-1][0]:
                self._runs.append((at, number))
            if isinstance(numbers, range):
                break
        lists: list[Any] = [self.sources, self.stamps, *self.values]
        for column, more in zip(lists, columns):
            column.extend(more)
        self._hashes.extend(map(hash, map(_FIELDS, rows)))
        if len(self.stamps) > self._most:
            what, cut = ("records, the limit of a trace", ", or cut it with --split-by month") if self.plan.log is None else ("events", "")
            raise ValueError(f"more than {self._most:,} {what}: choose a part with --from, --until or --where{cut}")

    def _leave(self, number: int, error: Left, row: Sequence[str]) -> None:
        """Counts a row that is left out."""
        why, first = error.why, f"row {number}"
        if error.column is not None:
            name = self.plan.export.header[error.column]
            why = f"{name} is empty" if why == "empty" else f"{name}: {why}"
            first += f", {quoted(row[error.column])}" if row[error.column].strip() else ""
            if error.why == "empty" and error.column in self._services:
                self._empty[name] = self._empty.get(name, 0) + 1
        self._count_left(why, first)
        if self._writer:
            self._writer.writerow([number, why, *row])

    def _count_left(self, why: str, where: str) -> None:
        """Counts what is left out for a reason; `where` names its place, if it is the first."""
        count, first = self.left.get(why, (0, where))
        self.left[why] = count + 1, first

    def row_of(self, at: int) -> int:
        """Returns the number of the row of a record, by its index."""
        begin, number = self._runs[bisect_right(self._runs, (at, float("inf"))) - 1]
        return number + at - begin

    def reasons(self) -> list[str]:
        """Returns a text for each reason to leave rows out, the commonest first."""
        ordered = sorted(self.left.items(), key=lambda item: -item[1][0])
        where = {why: f" ({first})" if count == 1 else f"; the first is {first}" for why, (count, first) in ordered}
        return [f"{counted(count, self.what)}: {why}{where[why]}" for why, (count, _) in ordered]

    def hints(self) -> list[str]:
        """Returns a note on rows that may be abandoned calls; no note if there are none."""
        if not self._empty or self.plan.gone or self.plan.log:
            return []
        name = max(self._empty, key=self._empty.__getitem__)
        return [f"if an empty {name!r} means an abandoned call: --abandoned '{name}=' keeps it as such, --where '{name}!=' excludes it"]

    def judge_left(self, most: float, kept: int | None = None) -> None:
        """Raises ValueError if no row is left, and TooManyLeft if more than this percentage of the rows is left out; `kept` is the number of records,
        by default of those in memory."""
        left = sum(count for count, _ in self.left.values())
        kept = len(self.stamps) if kept is None else kept
        if not kept:
            unwanted = [f"{counted(self.unwanted, 'row')} excluded by --where, --from or --until"] if self.unwanted else []
            raise ValueError("; ".join([f"no {self.what}s are left", *unwanted, *self.reasons()[:3]]))
        if 100 * left > most * (left + kept):
            rows = f"{left:,} of {counted(left + kept, self.what)}"
            allow = f"more than {most:g} percent: to allow it, give --left-out-most {-(-100 * left // (left + kept))}%"
            raise TooManyLeft("; ".join([f"{rows} would be left out, {allow}", *self.reasons()[:3], *self.hints()]))

    def repeated(self) -> list[int]:
        """Returns the indices (list of int) of records whose rows repeat an earlier one, field by field."""
        hashes: Sequence[int] = self._hashes
        if not any(map(gt, self.stamps, islice(self.stamps, 1, None))):
            # Rows that repeat one another have the same moment, so they follow one another.
            same = bytes(map(eq, self.stamps, islice(self.stamps, 1, None)))
            hashes = list(compress(hashes, map(or_, same + b"\0", b"\0" + same)))
        if len(set(hashes)) == len(hashes):
            return []
        first: dict[int, int] = {}
        found = []
        for at, value in enumerate(self._hashes):
            if self._record(first.setdefault(value, at)) == self._record(at) and first[value] != at:
                found.append(at)
        return found

    def _record(self, at: int) -> tuple[object, ...]:
        return self.sources[at], self.stamps[at], *(column[at] for column in self.values)

    def drop(self, indices: Sequence[int]) -> None:
        """Removes the records with these indices (in rising order)."""
        keep = bytearray(b"\1") * len(self.stamps)
        numbers = [self.row_of(at) for at in indices]
        for at in indices:
            keep[at] = 0
        runs = [(at + 1, number + 1) for at, number in zip(indices, numbers)]
        # Each record after a removed one begins a run; its index falls by the number of those removed before it.
        begins = sorted({*self._runs, *runs})
        self._runs = [(at - bisect_left(indices, at), number) for at, number in begins if at < len(keep) and keep[at]]
        self.sources = list(compress(self.sources, keep))
        self.stamps, *self.values = (array("q", compress(column, keep)) for column in (self.stamps, *self.values))
