"""Parses the arguments of `mpplan`, runs the command, and turns any error into one line and a status."""

from __future__ import annotations

import argparse
import contextlib
import errno
import importlib
import io
import os
import signal
import sys
from typing import TYPE_CHECKING, cast

from ..errors import Error, ReportError
from ..traces.trace import fields_up_to
from ..version import __version__
from .commands import COMMANDS
from .messages import line_of, say

if TYPE_CHECKING:
    from collections.abc import Iterator, Sequence
    from typing import Any, NoReturn, TextIO

# The signals that end the command, and that of a pipe without a reader. Windows lacks some.
ENDING = [getattr(signal, name) for name in ("SIGTERM", "SIGHUP") if hasattr(signal, name)]
PIPE = getattr(signal, "SIGPIPE", 13)


class GivenOnce(argparse._StoreAction):
    """An option with a value that may be given only once, so that no value is silently lost."""

    is_given = False

    def __call__(self, parser: argparse.ArgumentParser, namespace: argparse.Namespace, values: Any, option_string: str | None = None) -> None:
        if option_string and self.is_given:
            parser.error(f"{option_string} is given twice")
        self.is_given = True
        super().__call__(parser, namespace, values, option_string)


class _Parser(argparse.ArgumentParser):
    """Reports invalid arguments in one line."""

    def __init__(self, *args: Any, **named: Any) -> None:
        super().__init__(*args, **named)
        self.register("action", None, GivenOnce)

    def error(self, message: str) -> NoReturn:
        self.exit(2, f"mpplan: {message} (see {self.prog} --help)\n")


def parser_for(first: str | None) -> argparse.ArgumentParser:
    """Returns the argument parser. It loads only the module of the command in `first`, because a sweep starts `mpplan` for each shard."""
    says = "Prepare traces for mpsim, run it, and tabulate its reports: from an export to a staffing decision."
    parser = _Parser(prog="mpplan", description=says, allow_abbrev=False)
    parser.add_argument("--version", action="version", version=f"mpplan {__version__}")
    commands = parser.add_subparsers(dest="command", metavar="COMMAND", required=True)
    for name, says in COMMANDS.items():
        one = commands.add_parser(name, help=says, description=f"{says[0].upper()}{says[1:]}.", allow_abbrev=False)
        if name == first:
            module = importlib.import_module(f"{__package__}.{name}")
            one.epilog, one.formatter_class = f"example: {module.EXAMPLE}", argparse.RawDescriptionHelpFormatter
            module.words(one)
            one.set_defaults(main=module.main)
    return parser


class _Closed(io.TextIOBase):
    """Replaces a standard output that was closed before the command began."""

    def write(self, text: str) -> int:
        raise OSError(errno.EBADF, os.strerror(errno.EBADF))


def _open_outputs() -> None:
    """Keeps files that are opened later from taking the descriptors of the standard streams."""
    while os.open(os.devnull, os.O_RDWR) <= 2:
        pass
    sys.stdout = sys.stdout or cast("TextIO", _Closed())


@contextlib.contextmanager
def _ended_by_signals() -> Iterator[None]:
    """Turns signals that would end the command into exceptions, so that temporary files are removed. A signal that is ignored, as under nohup, stays
    ignored."""
    before = {}

    def end(number: int, _: object) -> NoReturn:
        raise SystemExit(128 + number)

    with contextlib.suppress(ValueError):
        # Only the main thread may set signal handlers.
        for number in ENDING:
            if signal.getsignal(number) == signal.SIG_DFL:
                before[number] = signal.signal(number, end)
    try:
        yield
    finally:
        for number, how in before.items():
            signal.signal(number, how)


def _let_go() -> None:
    """Flushes standard output. If that fails, it is redirected to nowhere, so that the interpreter doesn't fail again on exit."""
    try:
        sys.stdout.flush()
    except (OSError, ValueError):
        with contextlib.suppress(OSError, ValueError):
            os.dup2(os.open(os.devnull, os.O_WRONLY), sys.stdout.fileno())


def ended(argv: Sequence[str]) -> int:
    """Runs the command and returns its status."""
    if sys.stdout is None or sys.stderr is None:
        _open_outputs()
    try:
        args = parser_for(argv[0] if argv else None).parse_args(argv)
        with _ended_by_signals(), fields_up_to():
            status = args.main(args) or 0
            sys.stdout.flush()
            return status
    except BrokenPipeError:
        # The reader has gone; nothing is left to say.
        line, status = None, 128 + PIPE
    except KeyboardInterrupt:
        line, status = "stopped", 128 + signal.SIGINT
    except (Error, ReportError, OSError, ValueError) as error:
        # An error of a program keeps the program's status.
        line, status = line_of(error), getattr(error, "status", None)
    except OverflowError:
        # Dates are limited to the years 1 to 9999.
        line, status = "a time is before the year 1 or after the year 9999", None
    except MemoryError:
        line, status = "out of memory", None
    _let_go()
    if line:
        say(line)
    return status if status and status > 0 else 1
