"""Helpers for long work: a progress line on a terminal, and a pause of the garbage collector."""

from __future__ import annotations

import contextlib
import gc
import sys
import time
from typing import TYPE_CHECKING

if TYPE_CHECKING:
    from collections.abc import Iterator
    from typing import TextIO


@contextlib.contextmanager
def uncollected() -> Iterator[None]:
    """Turns the garbage collector off within the block: rows contain no cycles, and it would scan them again and again."""
    was = gc.isenabled()
    gc.disable()
    try:
        yield
    finally:
        if was:
            gc.enable()


class Progress:
    """Shows progress on a terminal. Call the object with the amount done of `whole` (int) `what` (str, plural). It writes at most five times a
    second, and clears its line at the end.

    >>> with Progress(1000, "rows") as progress:
    ...     for done in range(1000):
    ...         progress(done)
    """

    def __init__(self, whole: int, what: str, stream: TextIO | None = None) -> None:
        self.whole, self.what, self.stream = whole, what, stream or sys.stderr
        self.shows = self.stream is not None and self.stream.isatty()
        self.begun, self.last, self.wide = time.monotonic(), 0.0, 0

    def __enter__(self) -> Progress:
        return self

    def __exit__(self, *_: object) -> None:
        if self.wide:
            self._write(" " * self.wide + "\r")
            self.wide = 0

    def __call__(self, done: int) -> None:
        now = time.monotonic() if self.shows else 0
        if self.shows and now - self.begun > 0.5 and now - self.last > 0.2:
            self.last = now
            left = (now - self.begun) * (self.whole - done) / done if done else 0
            line = f"{100 * done // max(self.whole, 1)} % of {self.whole:,} {self.what}, about {left:.0f} s left"
            self._write(line.ljust(self.wide))
            self.wide = len(line)

    def _write(self, text: str) -> None:
        self.stream.write("\r" + text)
        self.stream.flush()
