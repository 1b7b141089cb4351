"""Reads and writes whole files, and prints messages on stderr."""

from __future__ import annotations

import contextlib
import csv
import io
import os
import re
import secrets
import stat
import sys
import tempfile
from typing import TYPE_CHECKING, Any

if TYPE_CHECKING:
    from collections.abc import Iterable, Iterator, Mapping, Sequence
    from typing import IO, TextIO

    from .shapes import Path


@contextlib.contextmanager
def named(path: Path | None) -> Iterator[None]:
    """Adds a file's name to errors raised in the block, which reading and writing leave out."""
    try:
        yield
    except BrokenPipeError:
        raise
    except OSError as error:
        if error.filename is None:
            error.filename = str(path)
        raise


class Named(io.FileIO):
    """A file whose errors carry a name (path), not that of whatever is written beside it."""

    def __init__(self, file: Path | int, mode: str, path: Path) -> None:
        super().__init__(file if isinstance(file, int) else os.fspath(file), mode)
        self._path = path

    def write(self, data: Any, /) -> int:
        """Writes bytes, and returns their number (int)."""
        with named(self._path):
            return super().write(data)


def temporary() -> IO[bytes]:
    """Opens a temporary file (binary), which is gone once it is closed. Errors while it is written name the directory."""
    with tempfile.TemporaryFile(buffering=0) as made:
        return io.BufferedRandom(Named(os.dup(made.fileno()), "rb+", tempfile.gettempdir()))


def in_memory(name: str) -> int:
    """Makes a file in memory, and returns its descriptor (int)."""
    with named("a file in memory"):
        return os.memfd_create(name)


def bytes_of(path: Path) -> bytes:
    """Returns the bytes of a file or a pipe. Raises OSError with its name."""
    with named(path), open(path, "rb") as file:
        return file.read()


def text_of(path: Path) -> str:
    """Returns the text of a model. Bytes in comments that aren't UTF-8 are kept (surrogateescape). Raises OSError with the name, and ValueError for
    invalid bytes elsewhere."""
    text = bytes_of(path).decode("utf-8-sig", "surrogateescape")
    for number, line in enumerate(text.split("\n"), 1):
        if not line.lstrip(" \t").startswith("#") and (found := re.search("[\udc80-\udcff]", line)):
            raise ValueError(f"{path}: line {number}: the byte {ord(found[0]) - 0xDC00:02x} isn't valid UTF-8")
    return text


def table_rows(path: Path, wanted: Sequence[str]) -> Iterator[tuple[int, dict[str, str]]]:
    """Yields the number and the fields of each row of a CSV file that has these columns; the header is row 1. Fields are separated by commas, or by
    semicolons if the header's are. Raises OSError if the file can't be read, and ValueError, with its name, for a missing column and for a row of
    another width."""
    lines = bytes_of(path).decode("utf-8-sig", "surrogateescape").splitlines()
    mark = ";" if lines and ";" in lines[0] else ","
    (_, head), *rows = [(number, row) for number, row in enumerate(csv.reader(lines, delimiter=mark), 1) if row] or [(1, [])]
    names = [name.strip() for name in head]
    if missing := [name for name in wanted if name not in names]:
        raise ValueError(f"{path}: no column {missing[0]!r}; its columns are {', '.join(names)}")
    for number, row in rows:
        if len(row) != len(names):
            raise ValueError(f"{path}: row {number}: {len(row)} fields instead of {len(names)}")
        yield number, dict(zip(names, (field.strip() for field in row)))


def _is_whole(path: Path) -> bool:
    """Returns whether a path is a regular file, existing or not. Pipes, devices and open descriptors are written directly."""
    is_open = os.path.abspath(path).startswith(("/dev/std", "/dev/fd/", "/proc/"))
    return not is_open and (os.path.isfile(path) or not os.path.exists(path))


def judge_outputs(outputs: Sequence[str | None], inputs: Mapping[str, Iterable[str | None]]) -> None:
    """Checks the paths of outputs (None if unused) before anything is read or written. `inputs` maps what a file is to its paths (list of str or
    None). Raises ValueError if two outputs go to one file, if an output would overwrite an input under any name, or if a name is empty."""
    if "" in outputs:
        raise ValueError("the name of an output file is empty")
    paths = [path for path in outputs if path]
    if len({os.path.realpath(path) for path in paths}) < len(paths):
        raise ValueError(f"{', '.join(paths)}: two outputs can't go to one file")
    for path in filter(os.path.isfile, paths):
        for what, read in inputs.items():
            if any(it and os.path.isfile(it) and os.path.samefile(path, it) for it in read):
                raise ValueError(f"{path}: this is the {what}, which is never overwritten")


@contextlib.contextmanager
def all_written(*paths: str | None) -> Iterator[list[TextIO | None]]:
    """Opens a file for each of these paths, as `written` does; None for None. The files appear under their names once all are complete."""
    with contextlib.ExitStack() as stack:
        files = [stack.enter_context(written(path)) if path else None for path in paths]
        yield files
        for path, file in zip(paths, files):
            if file:
                with named(path):
                    file.flush()


@contextlib.contextmanager
def written(path: Path | None = None) -> Iterator[TextIO]:
    """Opens a text file that appears under its name once it is complete. If the block raises an exception, a file of that name stays as it was and
    nothing else is left behind. Without a path it is standard output. Bytes that weren't UTF-8 when read (surrogateescape) are written unchanged."""
    if path is None:
        if isinstance(sys.stdout, io.TextIOWrapper):
            sys.stdout.reconfigure(errors="surrogateescape", newline="")
        with named("standard output"):
            yield sys.stdout
            sys.stdout.flush()
    elif not _is_whole(path):
        # Append, so that a redirected /dev/stdout keeps what is already there.
        with _text_file(Named(path, "ab", path)) as appended:
            yield appended
    else:
        # A link is kept; its target is written.
        target = os.path.realpath(path)
        part = f"{target}.{secrets.token_hex(4)}.part"
        file: TextIO | None = None
        try:
            file = _begun(part, target, path)
            yield file
            with named(path):
                file.close()
            os.replace(part, target)
        except BaseException as error:
            # The file is thrown away, so a failing write doesn't matter.
            with contextlib.suppress(OSError):
                if file is not None:
                    file.close()
            # A file that couldn't be made may be another's. Ctrl-C can come when it is made and not yet returned.
            if file is not None or not isinstance(error, OSError):
                with contextlib.suppress(OSError):
                    os.unlink(part)
            raise


def _begun(part: str, target: str, path: Path) -> TextIO:
    """Opens a new file with the permissions of the file that it will replace, and the name by which that was given."""
    try:
        file = _text_file(Named(part, "xb", path))
    except OSError as error:
        error.filename = str(path)
        raise
    try:
        with contextlib.suppress(OSError, AttributeError):
            # Windows has no fchmod.
            os.fchmod(file.fileno(), stat.S_IMODE(os.stat(target).st_mode))
    except BaseException:
        file.close()
        raise
    return file


def _text_file(file: Named) -> TextIO:
    """Returns the text of a file, which is written line by line if it is a terminal."""
    return io.TextIOWrapper(io.BufferedWriter(file), "utf-8", "surrogateescape", newline="", line_buffering=file.isatty())
