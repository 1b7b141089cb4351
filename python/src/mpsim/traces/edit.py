"""Changes the records of a trace, from a table of column names and values or from edits for mpedit."""

from __future__ import annotations

import csv
import io
import re
from typing import TYPE_CHECKING

from ..files import bytes_of
from ..inputs import row_writer
from ..limits import GREATEST_TIME, GREATEST_VALUE, RECORDS
from ..model import columns, in_braces, sources
from ..names import is_name
from ..runs import judged_text
from ..wording import counted
from .changes import EXPECTED, Change, by_edits, by_names, decoded, recoded
from .trace import Trace, fields_up_to, is_utf8

if TYPE_CHECKING:
    from collections.abc import Iterator

    from ..shapes import Path

# The most bytes of edits that mpedit accepts.
BYTES = 1 << 24
# A change that computes a number from the old one.
STEP = re.compile(r"([+-])(\d{1,20})|\*(\d{1,20}(?:[.,]\d{1,20})?)|([+-])(\d{1,20}(?:[.,]\d{1,20})?)\s?%", re.ASCII)
# A factor that is a fraction in one country and thousands in another.
DOUBTFUL = re.compile(r"([*+-])([1-9]\d{0,2})[.,](\d{3})(\s?%)?", re.ASCII)
# The greatest number of 20 digits, the most that a number may have.
MOST = 10**20 - 1
_line_of = row_writer()


def _is_number(text: str) -> bool:
    """Returns whether mpsim would read a text as a number."""
    return text.isdigit() and text.isascii() and len(text) <= 20


def _is_code(text: str) -> bool:
    """Returns whether a number (str) is more likely a code or a telephone number: quantities have no leading 0."""
    return text[0] == "0" and len(text) > 1


def _parts(sign: str, by: str, is_percent: bool = False) -> tuple[int, int, int]:
    """Returns the numbers (int) times, more and over of a step, which turns a number into (old * times + more) // over."""
    if is_percent:
        _, half, over = _parts("*", by)
        return 200 * half + int(f"{sign}{by.replace(',', '.').replace('.', '')}") * 2, 100 * half, 200 * half
    if sign == "*":
        whole, _, part = by.replace(",", ".").partition(".")
        # In units of half of the last digit.
        return 2 * int(whole + part), 10 ** len(part), 2 * 10 ** len(part)
    return 1, int(sign + by), 1


def _why_no_number(text: str, may_step: bool) -> str:
    """Returns why a text (str) is neither a number nor, if allowed, a form that computes one from another."""
    if re.fullmatch(r"[+*-]?\d*[.,]?\d*", text, re.ASCII) and re.search(r"\d{21}", text, re.ASCII):
        return "has more than 20 digits in a row"
    if may_step and "," in text and STEP.fullmatch(text):
        return f"is not a valid {'+N%' if text.endswith('%') else '*N'}: in a comma-separated file, write a decimal point"
    return "is not a number" + (", +N, -N, *N or +N%" if may_step else "")


def _why_doubtful(sign: str, whole: str, part: str, percent: str | None) -> str:
    """Returns why digits (str) before and after a mark, with a sign and perhaps a percent sign, could mean two numbers, and how to write each
    unambiguously."""
    fraction, end = f"{whole}.{part}".rstrip("0").rstrip("."), percent or ""
    clear = f"{sign}{fraction}{'0' * (part[-1] != '0')}{end}"
    return f"could mean {fraction} or {whole}{part}: write {clear} or {sign}{whole}{part}{end}"


def stepped(old: int, sign: str, by: str, is_percent: bool = False) -> int:
    """Returns the result (int) of applying `+`, `-` or `*` (str) and a decimal number (str) to a number; with `is_percent`, that many percent are
    added or subtracted. Products are exact and rounded half up.

    >>> from mpsim.traces.edit import stepped
    >>> stepped(5, "*", "1.1"), stepped(4, "*", "1.1"), stepped(3, "-", "5"), stepped(50, "+", "12.5", is_percent=True)
    (6, 4, -2, 56)
    """
    times, more, over = _parts(sign, by, is_percent)
    return (old * times + more) // over


class Edited:
    """The trace in a file (a path), to which changes are applied one after another.

    `trace` (Trace) is the original, `rows` (list of lists of str) the current state. Records keep their numbers, from 1. `changed` (set of int) holds
    the file's changed records, `out` (dict) the removed ones with the row that removed them, `told` (list of str) what to report. With a model (a
    path), values are checked against its sources and columns. Raises what `Trace.read` and `mpsim.run` do, and ValueError if the trace lacks a column
    of the model."""

    _texts: list[str]
    changed: set[int]
    out: dict[int, str]
    told: list[str]
    _limits: dict[int, int | None]
    _is_noted: set[int]
    _changed_places: set[int]

    def __init__(self, path: Path, model: Path | None = None) -> None:
        self._texts = []
        self.trace = Trace.read(path, self._texts)
        self.rows, self.changed, self.out, self.told = list(self.trace.rows), set(), {}, []
        self.model, text = model, judged_text(model, self.told.append) if model else ""
        self.columns, self._braces, header = columns(text), in_braces(text), self.trace.header
        for name in self.columns:
            if name not in header[2:]:
                raise ValueError(f"{path}: no column {name!r}, which {model} names; it has {', '.join(header[2:]) or 'none'}")
        # The indices of an edit's source, time and values.
        self.places = [0, 1, *(header.index(name, 2) for name in self.columns)]
        self._sources = set(sources(text) if model else self.trace.sources())
        self._limits = {**dict.fromkeys(self.places, GREATEST_VALUE), 0: None, 1: GREATEST_TIME}
        # The text columns already reported, and the columns that have changes.
        self._is_noted, self._changed_places = set(), set()

    def make(self, change: Change) -> None:
        """Applies a change. Raises ValueError with its row, the text and the reason if it isn't allowed."""
        self._changed_places.update(change.values)
        if change.records is None:
            return self._add(change)
        numbers, is_open = self._numbers(change), change.records.endswith(("*", "-"))
        if not is_open and self.out and (number := next(filter(self.out.__contains__, numbers), None)):
            raise ValueError(f"{change.where}: record {number} is already removed ({self.out[number]})")
        if change.out:
            self.out = {**dict.fromkeys(numbers, change.where), **self.out}
            self.changed.difference_update(numbers)
        elif change.values:
            rows = self._own(numbers)
            for place, text in change.values.items():
                self._put(change, numbers.start, rows, place, text)
            # Those of `*` and `5-` that are removed stay so.
            self.changed.update(number for number in range(numbers.start, min(numbers.stop, len(self._texts))) if number not in self.out)

    def _own(self, numbers: range) -> list[list[str]]:
        """Returns the rows with these numbers (range), copied so that the original trace stays unchanged."""
        rows = self.rows[numbers.start - 1 : numbers.stop - 1]
        if not self.changed.issuperset(numbers):
            rows = self.rows[numbers.start - 1 : numbers.stop - 1] = [list(row) for row in rows]
        return rows

    def _numbers(self, change: Change) -> range:
        """Returns the numbers (range) of the records that a change names."""
        if change.records == "*" and not change.is_edit:
            return range(1, len(self.rows) + 1)
        found = re.fullmatch(r"(\d{1,20})(?:(-)(\d{1,20})?)?", change.records or "", re.ASCII)
        first, last = (int(found[1]), int(found[3] or (len(self.rows) if found[2] else found[1]))) if found else (0, 0)
        if not 1 <= first <= last <= len(self.rows) or change.is_edit and found and found[2]:
            forms = "" if change.is_edit else ", a range as 100-109 or 100-, *" if change.out else ", a range as 100-109 or 100-, *, or +"
            raise ValueError(f'{change.where}: record "{change.records}": expected a number from 1 to {len(self.rows)}{forms}')
        return range(first, last + 1)

    def _add(self, change: Change) -> None:
        """Adds a record. Fields that the change leaves out are empty."""
        if len(self.rows) - len(self.out) >= RECORDS:
            raise ValueError(f"{change.where}: one record above the limit of {RECORDS}")
        number, places = len(self.rows) + 1, range(len(self.trace.header))
        self.rows.append([self._judged(change, number, place, change.values.get(place, "")) for place in places])

    def _put(self, change: Change, first: int, rows: list[list[str]], place: int, text: str) -> None:
        """Applies one text of a change to a column of `rows`, the first of which has the number `first`."""
        step, limit = None if change.is_edit else STEP.fullmatch(text), self._limit(place)
        if step and limit is None and place:
            self._note_text(change, first, rows, place, text)
        if not step or limit is None or "," in text and not change.has_commas:
            text = self._judged(change, first, place, text)
            for row in rows:
                row[place] = text
            return
        if change.has_commas and (found := DOUBTFUL.fullmatch(text)):
            raise self._refusal(change, first, place, text, _why_doubtful(*found.groups()))
        times, more, over = _parts(step[1] or step[4] or "*", step[2] or step[3] or step[5], bool(step[4]))
        for number, row in enumerate(rows, first):
            old = row[place]
            if not _is_number(old):
                raise self._refusal(change, number, place, text, f'needs a number to change, but the record has "{old}"')
            made = (int(old) * times + more) // over
            if not 0 <= made <= limit:
                why = f"turns {old} into {made}, which is {f'above {limit}' if made > 0 else 'below 0'}"
                raise self._refusal(change, number, place, text, why)
            row[place] = str(made)

    def _note_text(self, change: Change, first: int, rows: list[list[str]], place: int, text: str) -> None:
        """Reports, once per column, that a value is stored as text where it could have computed a number from another."""
        if place in self._is_noted:
            return
        number = next((number for number, row in enumerate(rows, first) if row[place].isdigit()), None)
        if number is not None:
            self._is_noted.add(place)
            where = f'{change.where}: "{self.trace.header[place]}" of record {number}'
            self.told.append(f'{where}: "{text}" is stored as text, because {self._why_text(place)}')

    def _why_text(self, place: int) -> str:
        """Returns why a column is text (str)."""
        if self.model:
            return "the model doesn't name this column"
        fields = [row[place] for row in self.trace.rows]
        if not all(map(_is_number, fields)):
            return "not all values of this column are numbers"
        code = next(filter(_is_code, fields), None)
        return f'this column has "{code}", with a leading 0' if code else "the trace has no records"

    def _judged(self, change: Change, number: int, place: int, text: str) -> str:
        """Returns a text of a change (str) that goes into a record as it is. Raises ValueError if it isn't allowed there."""
        limit = self._limit(place)
        if not text and (limit is not None or not place):
            where = f'{change.where}: "{self.trace.header[place]}" of record {number}'
            raise ValueError(f"{where} is empty: a record needs a source, a time and a number in each numeric column")
        if not place and text not in self._sources and (self.model or not is_name(text)):
            raise self._refusal(change, number, place, text, f"is not a source of {self.model}" if self.model else "is not a valid name of a source")
        if limit is not None and not _is_number(text):
            raise self._refusal(change, number, place, text, _why_no_number(text, change.records is not None and not change.is_edit))
        if limit is not None and int(text) > limit:
            raise self._refusal(change, number, place, text, f"is above {limit}")
        return text

    def _refusal(self, change: Change, number: int, place: int, text: str, why: str) -> ValueError:
        return ValueError(f'{change.where}: "{self.trace.header[place]}" of record {number}: "{text}" {why}')

    def is_utf8(self) -> bool:
        """Returns whether all bytes of the trace are valid UTF-8."""
        return all(map(is_utf8, self._texts))

    def _limit(self, place: int) -> int | None:
        """Returns the greatest number (int) allowed in a numeric column, None for a text column. Numeric columns are the time, those that the model
        names and, without a model, those that hold only numbers without a leading 0. Numbers too large for any model lift the limit."""
        if place not in self._limits:
            fields = set() if self.model else {row[place] for row in self.trace.rows}
            is_of_numbers = bool(fields) and all(map(_is_number, fields)) and not any(map(_is_code, fields))
            self._limits[place] = (GREATEST_VALUE if max(map(int, fields)) <= GREATEST_VALUE else MOST) if is_of_numbers else None
        return self._limits[place]

    def lines(self) -> Iterator[str]:
        """Yields the header and the records (str): unchanged ones as in the file, others with their old end of line or the header's."""
        kept = [number for number in range(len(self.rows) + 1) if number not in self.out]
        end = _end(self._texts[0]) or "\n"
        for number, behind in zip(kept, [*kept[1:], None]):
            text = self._text(number, end, is_last=behind is None)
            yield text if behind is None or _end(text) else text + end

    def _text(self, number: int, end: str, is_last: bool) -> str:
        """Returns the text of a record, or of the header (0). A quote may stay open at the end of the file, after which nothing can follow."""
        text = self._texts[number] if number < len(self._texts) else ""
        if text and number not in self.changed and (is_last or number < len(self._texts) - 1 or _is_closed(text)):
            return text
        return _line_of(self.rows[number - 1] if number else self.trace.header) + (_end(text) or end)

    def edits(self) -> list[str]:
        """Returns the changes as edits for mpedit (list of str), one per changed or added record. Raises ValueError if a record is removed, if a
        value isn't allowed in an edit, or if the model contains names in braces, whose values may be columns."""
        if self._braces:
            raise ValueError(f"--edits: {self.model} contains {self._braces[0]}, but mpedit takes no model with names in braces")
        for number, where in self.out.items():
            raise ValueError(f"--edits: record {number} is removed ({where}), and mpedit has no edit for that")
        lines, as_edit = [], Change("--edits", None, {}, is_edit=True)
        for number in [*sorted(self.changed), *range(len(self._texts), len(self.rows) + 1)]:
            source, time, *values = [self._judged(as_edit, number, place, self.rows[number - 1][place]) for place in self.places]
            front = ["set", str(number)] if number < len(self._texts) else ["add"]
            lines.append(f"{' '.join([*front, source, time, *values])}\n")
        if (size := sum(map(len, lines))) > BYTES:
            raise ValueError(f"--edits: {size} bytes; the limit of mpedit is {BYTES}")
        return lines

    def unnamed(self) -> list[str]:
        """Returns the names (list of str, `""` for an empty name) of the columns with changes that no edit for mpedit can contain, because the model
        doesn't name them."""
        return [self.trace.header[place] or '""' for place in sorted(self._changed_places.difference(self.places))]

    def counts(self) -> str:
        """Returns the number of records, and of those changed, added and removed (str)."""
        before, now, out = len(self.trace.rows), len(self.rows) - len(self.out), sum(item < len(self._texts) for item in self.out)
        return f"{counted(now, 'record')} (from {before:,}): {len(self.changed):,} changed, {now - before + out:,} added, {out:,} removed"


def _end(text: str) -> str:
    """Returns the end of line (str) of a record's text; it may be empty at the end of the file."""
    if text.endswith("\n"):
        return "\r\n" if text.endswith("\r\n") else "\n"
    return "\r" if text.endswith("\r") else ""


def _is_closed(text: str) -> bool:
    """Returns whether text written after this one starts a new record."""
    with fields_up_to():
        return len(list(csv.reader(io.StringIO((text if _end(text) else text + "\n") + "x", newline="")))) > 1


def edited(path: Path, changes: Path, model: Path | None = None) -> Edited:
    """Returns the trace of a file after the changes in another (Edited). All arguments are paths; edits for mpedit use the columns of the model.
    Raises OSError if a file can't be read, ValueError if one is invalid.

    >>> import os, tempfile
    >>> from mpsim.traces.edit import edited
    >>> with tempfile.TemporaryDirectory() as folder:
    ...     trace, changes = os.path.join(folder, "trace.csv"), os.path.join(folder, "changes.csv")
    ...     with open(trace, "w") as file:
    ...         _ = file.write("source,time,talk\\ndoor,0,9\\ndoor,8,4\\n")
    ...     with open(changes, "w") as file:
    ...         _ = file.write("record,talk\\n2,+3\\n")
    ...     list(edited(trace, changes).lines())
    ['source,time,talk\\n', 'door,0,9\\n', 'door,8,7\\n']
    """
    made, data = Edited(path, model), bytes_of(changes)
    text = decoded(changes, data)
    if text.split(None, 1)[:1] not in ([], ["set"], ["add"]):
        if not is_utf8(text) and made.is_utf8():
            text = recoded(changes, data)
            made.told.append(f"{changes} is read as Windows-1252")
        found = by_names(changes, text, made.trace.header)
    elif model is None:
        why = "these are edits for mpedit: give --model for the order of their values" if text.strip() else f"it is empty: {EXPECTED}"
        raise ValueError(f"{changes}: {why}")
    elif len(data) > BYTES:
        raise ValueError(f"{changes}: {len(data)} bytes; the limit of mpedit is {BYTES}")
    else:
        found = by_edits(changes, text, made.columns, made.places)
    with fields_up_to():
        for change in found:
            made.make(change)
    return made
