"""The version of the package."""

from __future__ import annotations

import os

HERE = os.path.dirname(os.path.abspath(__file__))


def _version() -> str:
    """Returns the content of VERSION: next to the installed package, or at the top of a clone."""
    for folder in HERE, os.path.join(HERE, "..", "..", ".."):
        file = os.path.join(folder, "VERSION")
        if os.path.exists(file):
            with open(file) as text:
                return text.read().strip()
    return "unknown"


__version__ = _version()
