"""The command `mpplan`, which takes a planner from an export to a decision.

Each name in `commands.COMMANDS` is a subcommand and a module of this package. The module has `EXAMPLE`, an example command line; `words(parser)`,
which declares the arguments; and `main(args)`, which turns the arguments into values, calls the library, and returns the command's status, None for
0. It raises an Error of a program, a ReportError, an OSError, or a ValueError whose message names the file, row, column and value. `mpplan` prints
any of them as one line. Nothing in the library imports this package.
"""

from __future__ import annotations

import sys
from typing import TYPE_CHECKING

if TYPE_CHECKING:
    from collections.abc import Sequence


def main(argv: Sequence[str] | None = None) -> int:
    """Runs `mpplan` with these arguments (by default those of the command line) and returns its status: 0; that of a program that refused or failed;
    2 for invalid arguments; 130 for Ctrl-C; 141 if the reader of the output has gone; 1 otherwise."""
    try:
        from .parser import ended

        return ended(sys.argv[1:] if argv is None else argv)
    except KeyboardInterrupt:
        from .messages import say

        say("stopped")
        return 130
