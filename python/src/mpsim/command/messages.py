"""Prints messages on stderr, and turns errors into lines."""

from __future__ import annotations

import contextlib
import sys

from ..errors import Error


def say(line: str) -> None:
    """Prints a line on stderr, if there is one."""
    with contextlib.suppress(OSError, AttributeError):
        sys.stderr.write(f"mpplan: {line}\n")
        sys.stderr.flush()


def line_of(error: BaseException) -> str:
    """Returns an error as one printable line."""
    if isinstance(error, Error):
        text = str(error).split("\n", 1)[0] + (f": {error.source}" if error.source else "")
    elif isinstance(error, OSError):
        text = f"{error.filename or 'standard output'}: {error.strerror or error}"
    else:
        text = str(error) or type(error).__name__
    return "".join(item if item.isprintable() else item.encode("unicode_escape", "surrogatepass").decode() for item in text)
