"""Reads exports: text tables with a header, any delimiter and any encoding."""

from __future__ import annotations

import codecs
import csv
import io
import itertools
import re
from collections import Counter
from typing import TYPE_CHECKING

from ..wording import counted
from .streams import LINE, Stream, judge_text
from .table import Table

if TYPE_CHECKING:
    from collections.abc import Iterable, Iterator

    from ..shapes import Reader

DELIMITERS = ";\t,|"
# The number of rows, and of their characters, examined to detect formats and decimal marks.
SAMPLE, CHARACTERS = 1 << 15, 1 << 23
# About the characters of a row.
_ROW = 64
# A field with more lines is reported: an unclosed quote makes one field of the rest.
LINES = 20
# More lines in succession without a field aren't those of a table: the largest sheet of a spreadsheet has a sixteenth of them.
EMPTY = 1 << 24
_FIELD = re.compile(r'[^\s",;|]')


def found_encoding(data: bytes | Stream) -> tuple[str, str | None]:
    """Returns the encoding (str) of bytes (or of a Stream) and a note about it (str or None). Raises ValueError if it can't be detected.

    >>> found_encoding("Büro\\n".encode("latin-1"))
    ('cp1252', "line 1 has the byte fc, which isn't UTF-8: the file is read as Windows-1252, a superset of printable Latin-1")
    """
    stream = data if isinstance(data, Stream) else Stream(data)
    begin = next(stream.pieces(), b"")
    if begin[:2] in (codecs.BOM_UTF16_LE, codecs.BOM_UTF16_BE):
        return "utf-16", "the encoding is UTF-16"
    judge_text(begin)
    has_mark = begin.startswith(codecs.BOM_UTF8)
    found = _undecodable(stream, "utf-8")
    if found is None:
        return "utf-8-sig", "the encoding is UTF-8 with a byte order mark" if has_mark else None
    if has_mark:
        raise _undecoded(*found, "UTF-8, although the file has a UTF-8 byte order mark")
    what = f"line {found[0]} has the byte {found[1]:02x}, which isn't UTF-8"
    if found := _undecodable(stream, "cp1252"):
        raise _undecoded(*found, "UTF-8 or Windows-1252")
    return "cp1252", f"{what}: the file is read as Windows-1252, a superset of printable Latin-1"


def _undecodable(stream: Stream, encoding: str) -> tuple[int, int] | None:
    """Returns the line and the first byte (int) that an encoding can't decode; None if there is none. Then the stream's number of lines is known.
    Raises ValueError if a line is too long, or if too many lines in succession have no field."""
    decoder, lines, kept, long, empty = codecs.getincrementaldecoder(encoding)(), 1, b"", 0, 0
    for piece in itertools.chain(stream.pieces(), [None]):
        try:
            text = decoder.decode(piece or b"", final=piece is None)
        except UnicodeDecodeError as error:
            return lines + error.object.count(b"\n", 0, error.start) - kept.count(b"\n"), error.object[error.start]
        # What the decoder keeps of a character at the end of a piece.
        kept = decoder.getstate()[0]
        lines += (piece or b"").count(b"\n")
        long = 0 if piece is None or b"\n" in piece or b"\r" in piece else long + len(piece)
        if long > LINE:
            raise ValueError(f"line {lines} is longer than {LINE:,} bytes")
        empty = 0 if _FIELD.search(text) else empty + max(text.count("\n"), text.count("\r"))
        if empty > EMPTY:
            raise ValueError(empty_lines())
    stream.count = lines - 1
    return None


def empty_lines() -> str:
    """Returns why an export with too many empty lines isn't read to its end."""
    return f"more than {EMPTY:,} lines are empty: remove them first, e.g. with grep '[[:alnum:]]'"


def _undecoded(line: int, byte: int, encoding: str) -> ValueError:
    return ValueError(f"line {line}: the byte {byte:02x} isn't valid {encoding} (--encoding)")


def _given_encoding(stream: Stream, name: str) -> str:
    """Returns the codec for an encoding given by name; a byte order mark isn't part of the text. Raises ValueError for an unknown encoding and for
    bytes that it can't decode."""
    try:
        name = codecs.lookup(name).name
        b"a".decode(name, errors="replace")
        found = _undecodable(stream, name)
    except (LookupError, TypeError, UnicodeError):
        raise ValueError(f"unknown encoding {name!r} (--encoding)") from None
    if found:
        raise _undecoded(*found, name)
    marks = {"utf-8": codecs.BOM_UTF8, "utf-16-le": codecs.BOM_UTF16_LE, "utf-16-be": codecs.BOM_UTF16_BE}
    if next(stream.pieces(), b"").startswith(marks.get(name, b"\n")):
        return "utf-8-sig" if name == "utf-8" else "utf-16"
    return name


def found_delimiter(lines: Iterable[str]) -> str:
    """Returns the delimiter of lines: among those with which nine rows in ten have as many fields as the header, the one that gives the most fields.
    Raises ValueError for a tie.

    >>> found_delimiter(["a;b;c\\n", "1,0;2,5;x\\n"])
    ';'
    """
    scores = []
    for mark in DELIMITERS:
        try:
            counts = [len(row) for row in csv.reader(lines, delimiter=mark) if row]
        except csv.Error:
            continue
        if counts and counts[0] > 1:
            share = Counter(counts)[counts[0]] / len(counts)
            scores.append((share >= 0.9, counts[0], share, mark))
    scores.sort(reverse=True)
    if len(scores) > 1 and scores[0][:3] == scores[1][:3]:
        raise ValueError(f"the delimiter could be {scores[0][3]!r} or {scores[1][3]!r} (--delimiter)")
    return scores[0][3] if scores else ","


class Export(Table):
    """An export: its `header` (list of str), its `rows()`, a `sample` of them, and `notes`, the notes on what was detected (lists of str).

    `data` is the bytes of the file, or a Stream; arguments that aren't given are detected. `header` (str) lists the column names, separated by
    commas, if the export has none. Raises ValueError if the export is empty or needs another option."""

    def __init__(
        self, data: bytes | bytearray | Stream, encoding: str | None = None, delimiter: str | None = None, skip: int = 0, header: str | None = None
    ) -> None:
        self._stream = data if isinstance(data, Stream) else Stream(data)
        super().__init__(skip, header, self._stream.notes)
        if encoding:
            self._encoding = _given_encoding(self._stream, encoding)
        else:
            self._encoding, says = found_encoding(self._stream)
            self.notes += [says] if says else []
        first = next(self._lines(), "")
        if found := re.fullmatch(r"sep=(.)\r?\n?", first):
            # A spreadsheet's own line that names its delimiter.
            delimiter, self._skip = delimiter or found[1], self._skip + 1
        self.delimiter = self._found_delimiter() if delimiter is None else delimiter.replace("\\t", "\t")
        if len(self.delimiter) != 1 or self.delimiter in '"\r\n':
            raise ValueError(f"{delimiter!r} isn't a delimiter, which is one character (--delimiter)")
        self.header = self._header(skip)
        if header is not None:
            self.header = [part.strip() for part in header.split(",")]
        self.sample = self._sample()

    def _lines(self, skip: int | None = None) -> Iterator[str]:
        """Returns an iterator over the lines after `skip` lines (by default those before the header), with their line ends."""
        return itertools.islice(self._stream.text(self._encoding), self._skip if skip is None else skip, None)

    def _found_delimiter(self) -> str:
        found = found_delimiter(list(itertools.islice(self._lines(), 200)))
        self.notes.append(f"the delimiter is {found!r}")
        return found

    def _header(self, skip: int) -> list[str]:
        try:
            header: list[str] = next(self._reader(self._lines()), [])
        except csv.Error as error:
            raise ValueError(f"row {self._skip + 1}: {error}: is a closing quote missing?") from None
        if not any(item.strip() for item in header):
            raise ValueError(self._no_header(skip))
        return [item.strip() for item in header]

    def _no_header(self, skip: int) -> str:
        """Returns why there is no header."""
        if any(line.strip() for line in self._lines()):
            return "it begins with an empty line: give the number of lines before its header with --skip"
        lines = list(self._lines(0))
        is_empty = skip == 0 or not any(line.strip() for line in lines)
        return "the file is empty" if is_empty else f"--skip {skip}: the file has {counted(len(lines), 'line')}, so no header is left"

    def _reader(self, lines: Iterable[str]) -> Reader:
        return csv.reader(lines, delimiter=self.delimiter)

    def rows(self) -> tuple[Reader, int]:
        """Returns a reader of the rows after the header, which counts lines, and the number of the first row, counted as in a spreadsheet."""
        reader = self._reader(self._lines())
        if self.has_header:
            next(reader)
        return reader, self._skip + 1 + self.has_header

    def chunks(self, size: int) -> Iterator[tuple[int, list[list[str]], int]]:
        """Does what Table.chunks does. Text in which nothing is quoted is split at its delimiters, which takes half the time of a CSV reader."""
        text = self._stream.text(self._encoding)
        for _ in itertools.islice(text, self._skip):
            pass
        reader, number = self._reader(text), self._skip + 1 + self.has_header
        if self.has_header:
            next(reader)
        while block := text.read(_ROW * size):
            block += text.readline()
            plain = block.replace("\r\n", "\n")
            if len(plain) > csv.field_size_limit() or any(mark in plain for mark in '"\r\0'):
                # A field may go on in the next lines.
                reader = self._reader(itertools.chain(io.StringIO(block, newline=""), text))
                break
            lines = plain.removesuffix("\n").split("\n")
            for at in range(0, len(lines), size):
                rows = [line.split(self.delimiter) if line else [] for line in lines[at : at + size]]
                yield number, rows, len(rows)
                number += len(rows)
        taken = reader.line_num
        while some := list(itertools.islice(reader, size)):
            yield number, some, reader.line_num - taken
            number, taken = number + len(some), reader.line_num

    @property
    def size(self) -> int:
        """The number of lines."""
        if self._stream.count is None:
            self._stream.count = sum(piece.count(b"\n") for piece in self._stream.pieces())
        return self._stream.count

    def _sample(self) -> list[list[str]]:
        """Returns rows from the beginning and some from the end, since days above 12 may come late."""
        (reader, first), size = self.rows(), 0
        parts, rows = [itertools.islice(reader, SAMPLE)], []
        if not self._encoding.startswith("utf-16"):
            tail = self._stream.tail(1 << 16).decode(self._encoding, errors="replace")
            parts.append(itertools.islice(self._reader(tail.splitlines(keepends=True)), 1, None))
        for part in parts:
            try:
                for row in part:
                    rows.append(row)
                    size += sum(map(len, row))
                    if size > CHARACTERS:
                        break
            except csv.Error as error:
                if part is parts[0]:
                    raise ValueError(f"row {first + len(rows)}: {error}: is a closing quote missing?") from None
        tall = next((at for at, row in enumerate(rows) if any(item.count("\n") > LINES for item in row)), None)
        if tall is not None and len(rows[tall]) < len(self.header):
            raise ValueError(f"row {first + tall}: a field has more than {LINES} lines: is a closing quote missing?")
        return [row for row in rows if len(row) >= len(self.header)]
