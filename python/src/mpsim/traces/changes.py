"""Reads changes to the records of a trace: rows that name columns, or edits for mpedit."""

from __future__ import annotations

import codecs
import csv
import io
import re
from typing import TYPE_CHECKING, Dict, NamedTuple, Optional

from ..wording import counted

if TYPE_CHECKING:
    from collections.abc import Iterator, Sequence

    from ..shapes import Path

EXPECTED = "expected record followed by column names or, with --model, set or add"
# Names with a meaning of their own in the header of changes; `empty` loses it if the trace has a column of that name.
WORDS = "record", "out", "empty"


class Change(NamedTuple):
    """A row of changes: its place in the file (str, for messages); its records (str), such as `12` or `100-109`, or None for a new one; the new texts
    (str) by the index of their column (int), "" to empty a field; whether the records are removed; whether it is an edit for mpedit, whose values are
    taken literally; and whether a decimal mark may be a comma."""

    where: str
    records: Optional[str]
    values: Dict[int, str]
    out: bool = False
    is_edit: bool = False
    has_commas: bool = False


def decoded(path: Path, data: bytes) -> str:
    """Decodes changes (bytes): UTF-16 if they have its byte order mark, else UTF-8, in which invalid bytes are kept (surrogateescape). Raises
    ValueError if they are neither."""
    is_wide = data.startswith((codecs.BOM_UTF16_LE, codecs.BOM_UTF16_BE))
    try:
        text = data.decode("utf-16" if is_wide else "utf-8-sig", "strict" if is_wide else "surrogateescape")
    except UnicodeDecodeError:
        raise ValueError(f"{path}: not valid UTF-16, although it has a UTF-16 byte order mark") from None
    if "\0" in text[:2]:
        raise ValueError(f"{path}: row 1: it begins with NUL bytes: is it UTF-16 without a byte order mark? Without one it is read as UTF-8")
    return text


def recoded(path: Path, data: bytes) -> str:
    """Decodes changes (bytes) that aren't UTF-8, although the trace is, as Windows-1252; `prepare` reads exports the same way. Raises ValueError with
    the line if that fails, or if the file has a UTF-8 byte order mark."""
    encoding, why = "cp1252", "neither UTF-8 nor Windows-1252"
    if data.startswith(codecs.BOM_UTF8):
        encoding, why = "utf-8", "not valid UTF-8, although the file has a UTF-8 byte order mark"
    try:
        return data.decode(encoding)
    except UnicodeDecodeError as error:
        line = data.count(b"\n", 0, error.start) + 1
        raise ValueError(f"{path}: line {line}: the byte {data[error.start]:02x} is {why}") from None


def _parted(text: str) -> tuple[str, int]:
    """Returns the delimiter of a CSV text and the number of rows before its header. The delimiter is taken from a spreadsheet's `sep=;` line, or else
    from the character after the word record."""
    if mark := re.match(r"sep=([;\t,|])\r?\n", text):
        return mark[1], 1
    found = re.match(r'\s*("?) *record *\1 *([;\t,|])', text, re.IGNORECASE)
    return found[2] if found else ",", 0


def by_names(path: Path, text: str, header: Sequence[str]) -> Iterator[Change]:
    """Yields the changes (Change) in a CSV text for a trace with this header. Raises ValueError with the row if one is invalid."""
    delimiter, before = _parted(text)
    names: list[str] | None = None
    number, reader = 0, csv.reader(io.StringIO(text, newline=""), delimiter=delimiter)
    try:
        for number, fields in enumerate(reader, 1):
            where = f"{path}: row {number}"
            if names is None and fields:
                names = _judged_names(where, fields, header) if number > before else None
            elif names is not None and any(fields):
                # Empty fields at the end may be omitted. A multi-line row that ends early more likely has an unclosed quote.
                if any(fields[len(names) :]) or len(fields) < len(names) and re.search(r"[\r\n]", fields[-1]):
                    raise ValueError(f"{where}: {counted(len(fields), 'field')}, but the header has {len(names)}")
                yield _by_names(where, dict(zip(names, fields)), header, delimiter != ",")
    except csv.Error as error:
        raise ValueError(f"{path}: row {number + 1}: {error}") from None
    if names is None:
        raise ValueError(f"{path}: it is empty: {EXPECTED}")


def _by_names(where: str, fields: dict[str, str], header: Sequence[str], has_commas: bool) -> Change:
    """Returns the change in a row, given its fields by name (dict of str)."""
    record, out, emptied = fields.pop("record"), fields.pop("out", ""), "" if "empty" in header else fields.pop("empty", "")
    given = {name: it for name, it in fields.items() if it}
    if out and out.casefold() != "yes":
        raise ValueError(f'{where}: "out" of record {record}: "{out}" is neither yes nor empty')
    if emptied and emptied in given:
        raise ValueError(f'{where}: "{emptied}" of record {record}: it is both emptied and given a value')
    if emptied:
        _judge_name(f'{where}: "empty" of record {record}', emptied, header)
        given[emptied] = ""
    if out and given:
        raise ValueError(f'{where}: "{next(iter(given))}" of record {record}: the record is removed, so it takes no value')
    values = {header.index(name): it for name, it in given.items()}
    return Change(where, None if record == "+" and not out else record, values, bool(out), has_commas=has_commas)


def _judge_name(where: str, name: str, header: Sequence[str]) -> None:
    """Raises ValueError unless exactly one column has this name."""
    if name not in header:
        raise ValueError(f'{where}: "{name}" is not a column of the trace; it has {", ".join(header)}')
    if header.count(name) > 1:
        raise ValueError(f'{where}: "{name}" appears twice in the header of the trace')


def _judged_names(where: str, fields: Sequence[str], header: Sequence[str]) -> list[str]:
    """Returns the column names (list of str) in the header of changes. Empty names at its end are dropped unless the trace has one; the case of names
    that aren't the trace's doesn't matter. Raises ValueError for an unknown or ambiguous name."""
    words = [word for word in WORDS if word != "empty" or word not in header]
    names = [field if field in header else field.strip() for field in fields]
    names = [name.casefold() if name not in header and name.casefold() in words else name for name in names]
    names[0] = names[0].casefold() if names[0].casefold() == "record" else names[0]
    while len(names) > 1 and not names[-1] and "" not in header:
        names.pop()
    if names[0] != "record":
        raise ValueError(f'{where}: "{names[0]}": {EXPECTED}')
    for name in names:
        if names.count(name) > 1:
            raise ValueError(f'{where}: "{name}" appears twice')
        if name == "out" and name in header:
            raise ValueError(f'{where}: "out" removes records, but the trace has a column of that name: rename that column')
        if name not in words:
            _judge_name(where, name, header)
    return names


def by_edits(path: Path, text: str, names: Sequence[str], places: Sequence[int]) -> Iterator[Change]:
    """Yields the changes (Change) in edits for mpedit (str), for a model that names these columns; `places` are the indices of the source, the time
    and these columns. Raises ValueError with the line if one is invalid."""
    for number, line in enumerate(text.split("\n"), 1):
        found = re.findall(r"[^ \t]+", line.removesuffix("\r"))
        if not found:
            continue
        where, front = f"{path}: line {number}", {"set": ["set", "R"], "add": ["add"]}.get(found[0])
        if front is None:
            raise ValueError(f'{where}: "{found[0]}" is neither set nor add')
        wanted = [*front, "source", "time", *names]
        if len(found) != len(wanted):
            raise ValueError(f"{where}: {counted(len(found), 'word')}, but {found[0]} takes {len(wanted)}: {' '.join(wanted)}")
        yield Change(where, found[1] if front[1:] else None, dict(zip(places, found[len(front) :])), is_edit=True)
