"""Opens exports as streams of bytes, compressed or not, so that no file is ever whole in memory."""

from __future__ import annotations

import bz2
import contextlib
import gzip
import io
import lzma
import os
import shutil
import stat
import tempfile
import zipfile
import zlib
from typing import TYPE_CHECKING, cast

from ..files import named, temporary

if TYPE_CHECKING:
    from collections.abc import Callable, Iterator
    from typing import IO, TextIO

    from _typeshed import WriteableBuffer

    from ..shapes import Path

PIECE = 1 << 20
# A longer line isn't one of a table.
LINE = 1 << 24
# The most bytes of an export that comes through a pipe, which are kept in a temporary file.
PIPE = 1 << 32
_PACKED: dict[bytes, Callable[..., object]] = {b"\x1f\x8b": gzip.open, b"BZh": bz2.open, b"\xfd7zXZ\x00": lzma.open}
# What reading a damaged one raises.
_DAMAGED = EOFError, zlib.error, lzma.LZMAError, zipfile.BadZipFile, OSError, RuntimeError
# What files of columns begin with: Parquet, Arrow, and an Arrow stream.
_COLUMNAR = {b"PAR1": "parquet", b"ARROW1": "arrow", b"\xff\xff\xff\xff": "arrow"}
# What files begin with that aren't text, and how to get text from them.
_OTHERS = {
    b"\xd0\xcf\x11\xe0": "an old spreadsheet (.xls): save it as CSV UTF-8",
    b"%PDF": "a PDF document: ask for the table as CSV",
    b"\xd4\xc3\xb2\xa1": "a packet capture: convert it with tshark -T fields -E header=y -E separator=,",
    b"\n\r\r\n": "a packet capture: convert it with tshark -T fields -E header=y -E separator=,",
    b"SQLite format 3": "an SQLite database: export its table, e.g. sqlite3 -csv -header",
    b"{": "JSON: convert it to CSV, e.g. with jq -r and @csv",
    b"FEA1": "a Feather file of version 1: write it as version 2, with the Python package pyarrow",
    b"PARE": "an encrypted Parquet file: convert it to CSV",
    b"\x28\xb5\x2f\xfd": "compressed by zstd: unpack it with zstd -d",
}


class Stream:
    """The bytes of an export: bytes, or a file by its path ("-" is standard input). `form` (str) says what it is: "text", "workbook" (.xlsx),
    "parquet" or "arrow". `notes` (list of str) say how it was unpacked, and `count` (int or None) is the number of lines of a text, once it is known.
    A pipe is copied to a temporary file. Raises OSError, and ValueError for a file that isn't a table."""

    notes: list[str]
    count: int | None
    _open: Callable[[], IO[bytes]] | None
    _path: str | None
    _plain: Callable[[], IO[bytes]]

    def __init__(self, export: Path | bytes | bytearray) -> None:
        self.notes, self.form, self.count, self._open, self._files = [], "text", None, None, contextlib.ExitStack()
        with contextlib.ExitStack() as files:
            # Closed at once if this isn't a table.
            files.enter_context(self._files)
            self._begin(export)
            files.pop_all()

    def _begin(self, export: Path | bytes | bytearray) -> None:
        """Decides by the first bytes how to open the file."""
        if isinstance(export, (bytes, bytearray)):
            data = bytes(export)
            self._path, self._plain = None, lambda: io.BytesIO(data)
        else:
            path = "/dev/stdin" if os.fspath(export) == "-" else os.fspath(export)
            self._path, self._plain = path, lambda: open(path, "rb")
            if self._is_pipe(path):
                self._plain = self._copied(path)
        with self.open() as file:
            head = file.read(16)
        if head[:4] == b"PK\3\4":
            self._unzip()
        elif packed := next((how for mark, how in _PACKED.items() if head.startswith(mark)), None):
            unpack = packed
            self._open = lambda: cast("IO[bytes]", unpack(self._kept(), "rb"))
            self.notes.append(f"the file is unpacked ({packed.__module__})")
            self._judge_inside()
        elif form := next((form for mark, form in _COLUMNAR.items() if head.startswith(mark)), None):
            self.form = form
        elif what := next((what for mark, what in _OTHERS.items() if head.startswith(mark)), None):
            raise ValueError(f"this is {what}")

    def _kept(self) -> IO[bytes]:
        """Opens the file for a reader that doesn't close it; it is closed with the stream."""
        return self._files.enter_context(self._plain())

    @staticmethod
    def _is_pipe(path: str) -> bool:
        with named(path):
            return not stat.S_ISREG(os.stat(path).st_mode) and not os.path.isdir(path)

    def _copied(self, path: str) -> Callable[[], IO[bytes]]:
        """Copies a pipe to a temporary file and returns how to open that."""
        kept = self._files.enter_context(temporary())
        is_text, long = True, 0
        with named(path), open(path, "rb", buffering=0) as file:
            while piece := file.read(PIECE):
                if not kept.tell():
                    judge_text(piece)
                    is_text = not piece.startswith((b"PK", *_PACKED, *_COLUMNAR, *_OTHERS))
                kept.write(piece)
                long = 0 if b"\n" in piece or b"\r" in piece else long + len(piece)
                if is_text and long > LINE:
                    raise ValueError(f"a line is longer than {LINE:,} bytes")
                if kept.tell() > PIPE:
                    raise ValueError(f"more than {PIPE:,} bytes through a pipe: give a file")
        return lambda: cast("IO[bytes]", _Reading(cast("io.BufferedRandom", kept)))

    def _unzip(self) -> None:
        """Chooses the file in a zip archive, of which there must be one."""
        try:
            with zipfile.ZipFile(self._kept()) as archive:
                names = [item.filename for item in archive.infolist() if not item.is_dir()]
        except (zipfile.BadZipFile, NotImplementedError) as error:
            raise ValueError(f"damaged zip archive: {error}") from None
        if "xl/workbook.xml" in names:
            self.form = "workbook"
        elif len(names) != 1:
            listed = ", ".join(names[:5]) + (", .." if names[5:] else "")
            raise ValueError(f"the zip archive has {len(names)} files, but must have one: {listed}"[:300])
        else:
            self._open = lambda: zipfile.ZipFile(self._kept()).open(names[0])
            self.notes.append(f"the file is unpacked (zip): {names[0]}")
            self._judge_inside()

    def _judge_inside(self) -> None:
        """Raises ValueError if what is packed isn't text."""
        head = b""
        # What can't be unpacked is an error when it is read.
        with contextlib.suppress(*_DAMAGED), self.open() as file:
            head = file.read(16)
        marks = {b"PK\3\4": "a spreadsheet or an archive", **_COLUMNAR, **dict.fromkeys(_PACKED, "packed again")}
        what = next((what for mark, what in {**_OTHERS, **marks}.items() if head.startswith(mark)), None)
        if what:
            raise ValueError(f"what is packed isn't text, but {what.partition(':')[0]}: unpack it first")

    def __enter__(self) -> Stream:
        return self

    def __exit__(self, *_: object) -> None:
        self._files.close()

    def open(self) -> IO[bytes]:
        """Opens the bytes (binary file) from their beginning, unpacked."""
        with named(self._path):
            return (self._open or self._plain)()

    def book(self) -> IO[bytes]:
        """Opens a file that isn't text (binary file), which is closed with the stream."""
        return self._kept()

    def name(self) -> str:
        """Returns the path of a file that isn't text; of bytes and of a pipe, that of a copy, which is removed with the stream."""
        if self._path is not None and not self._is_pipe(self._path):
            return self._path
        copy = self._files.enter_context(tempfile.NamedTemporaryFile())
        with self._plain() as file, named(tempfile.gettempdir()):
            shutil.copyfileobj(file, copy)
            copy.flush()
        return copy.name

    def text(self, encoding: str) -> TextIO:
        """Opens the text (file) from its beginning, with its own ends of lines. It is closed with the stream."""
        lines = io.TextIOWrapper(io.BufferedReader(cast("io.RawIOBase", self.open()), PIECE), encoding, errors="replace", newline="")
        return self._files.enter_context(lines)

    def pieces(self) -> Iterator[bytes]:
        """Yields the bytes in pieces. Raises ValueError if a packed file is damaged."""
        with self._unpacking(), self.open() as file:
            while piece := file.read(PIECE):
                yield piece

    def lines(self) -> Iterator[str]:
        """Yields the lines of a text with their own ends. Bytes that aren't UTF-8 are kept (surrogateescape). Raises what `pieces` does."""
        with self._unpacking(), self.open() as file:
            raw = io.BufferedReader(cast("io.RawIOBase", file), PIECE)
            with io.TextIOWrapper(raw, "utf-8", "surrogateescape", newline="") as text:
                yield from text

    @contextlib.contextmanager
    def _unpacking(self) -> Iterator[None]:
        try:
            with named(self._path):
                yield
        except _DAMAGED as error:
            # The system's own errors have a number.
            if getattr(error, "errno", None) is not None:
                raise
            raise ValueError(f"it can't be unpacked: {type(error).__name__}") from None

    def tail(self, size: int) -> bytes:
        """Returns the last bytes of a long file; none if it is packed."""
        with self.open() as file:
            if self._open or file.seek(0, os.SEEK_END) <= PIECE:
                return b""
            file.seek(-size, os.SEEK_END)
            return file.read()


class _Reading(io.RawIOBase):
    """Reads an open temporary file from its beginning and leaves it open."""

    def __init__(self, file: io.BufferedRandom) -> None:
        self._file, self._at = file, 0

    def readable(self) -> bool:
        return True

    def seekable(self) -> bool:
        return True

    def seek(self, to: int, whence: int = os.SEEK_SET) -> int:
        begin = {os.SEEK_SET: 0, os.SEEK_CUR: self._at}.get(whence)
        self._at = (self._file.seek(0, os.SEEK_END) if begin is None else begin) + to
        return self._at

    def tell(self) -> int:
        return self._at

    def readinto(self, buffer: WriteableBuffer) -> int:
        self._file.seek(self._at)
        count = self._file.readinto(buffer)
        self._at += count
        return count


def judge_text(begin: bytes) -> None:
    """Raises ValueError if bytes at the beginning of a file show that it isn't text."""
    if b"\0" in begin[:1024] and begin[:4] != b"PK\3\4" and not begin.startswith((b"\xff\xfe", b"\xfe\xff", *_PACKED, *_COLUMNAR, *_OTHERS)):
        raise ValueError("it has NUL bytes: is it UTF-16 without a byte order mark? Give --encoding, e.g. utf-16-le")
