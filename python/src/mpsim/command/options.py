"""Options that several commands share."""

from __future__ import annotations

import argparse
import re
from typing import TYPE_CHECKING, NamedTuple

from ..tables.sheets import STYLES
from ..times.calendar import Calendar, settings_in, tick_of, working_in
from ..times.texts import given, iso, length

if TYPE_CHECKING:
    from argparse import ArgumentParser, Namespace
    from typing import Any


def calendar_words(parser: ArgumentParser) -> None:
    """Declares the arguments that define a tick."""
    parser.add_argument("--tick", metavar="LENGTH", help="length of a tick, e.g. 1s or 100ms; default: from the comments of the model")
    parser.add_argument("--start", metavar="TIME", help="date and time of time 0, e.g. 2026-03-02T08:00; default: from the comments of the model")
    says = "time zone of days and hours, e.g. Europe/Berlin; default: from the comments of the model"
    parser.add_argument("--zone", metavar="NAME", help=says)


def calendar_words_in(args: Namespace) -> list[str]:
    """Returns those options (list of str) declared by `calendar_words` that were given."""
    return [f"--{name}" for name in ("tick", "start", "zone") if getattr(args, name) is not None]


def calendar_of(args: Namespace, model: str | None = None, needs: str = "--tick and --start") -> Calendar:
    """Returns the Calendar defined by a command's arguments and a model's text (str or None). Raises ValueError, with the options (str) that are
    needed, if neither gives the length of a tick."""
    tick, start, zone = settings_in(model or "")
    if not args.tick and tick is None:
        # A report doesn't contain its model.
        is_report = "reports" in args or "report" in args and args.trace is None
        where = "a --model" if is_report else "a model"
        raise ValueError(f"the length of a tick is unknown: give {needs}, or {where} whose first lines mpplan prepare wrote")
    if args.start:
        given("--start", iso, args.start)
    per = given("--tick", tick_of, args.tick) if args.tick else tick
    return Calendar(per, args.start or start, args.zone or zone, working_in(model or ""))


def figure_words(parser: ArgumentParser, what: str = "waits", share: str = "report the share served within this many ticks (default: 20)") -> None:
    """Declares the arguments that choose the figures of waits, or of what else is counted."""
    parser.add_argument("--within", type=ticks, action=Once, metavar="TIME", help=f"{share}, or a time such as 20s; may be repeated")
    percentile_word(parser, what)


def percentile_word(parser: ArgumentParser, what: str = "waits") -> None:
    """Declares --percentile."""
    says = f"percentile of the {what} to report (default: 50, 90, 95 and 99); may be repeated"
    parser.add_argument("--percentile", type=float, action=Once, metavar="P", help=says)


def positive(text: str) -> int:
    """Returns a whole number above 0. Raises ArgumentTypeError for another text."""
    if not re.fullmatch("[1-9][0-9]{0,5}", text):
        raise argparse.ArgumentTypeError(f"{text}: expected a whole number, 1 or more")
    return int(text)


class Time(NamedTuple):
    """A length of time as it was written (str), and in nanoseconds (int)."""

    text: str
    nanos: int


def ticks(text: str) -> int | Time:
    """Returns the value of --within: ticks (int), or a Time such as 20s, which `resolve_within` turns into ticks."""
    try:
        value = int(text)
    except ValueError:
        try:
            return Time(text, length(text))
        except ValueError:
            value = -1
    if value < 0:
        raise argparse.ArgumentTypeError(f"{text}: expected a number of ticks, 0 or more, or a time such as 20s or 1min")
    return value


def within_word(parser: ArgumentParser, says: str) -> None:
    """Declares --within for one time."""
    parser.add_argument("--within", type=ticks, metavar="TIME", help=f"{says} this many ticks, or a time such as 20s")


def tick_word(parser: ArgumentParser) -> None:
    """Declares --tick for a command that needs it only for times."""
    parser.add_argument("--tick", metavar="LENGTH", help="length of a tick, e.g. 1s, for --within 20s; default: from the comments of the model")


def resolve_within(args: Namespace, text: str | None = None) -> None:
    """Turns the times of --within into whole ticks that aren't longer, by --tick or by a model's text. Raises ValueError if neither gives the length
    of a tick."""

    def resolved(value: int | Time | None) -> int | None:
        if not isinstance(value, Time):
            return value
        tick = given("--tick", tick_of, args.tick) if getattr(args, "tick", None) else settings_in(text or "")[0]
        if tick is None:
            how = "a number of ticks, --tick, or a model whose first lines mpplan prepare wrote"
            raise ValueError(f"--within {value.text}: the length of a tick is unknown: give {how}")
        return value.nanos // tick

    if isinstance(args.within, list):
        args.within = list(dict.fromkeys(map(resolved, args.within)))
    else:
        args.within = resolved(args.within)


class Once(argparse.Action):
    """An option that may be repeated; repeated values count once."""

    def __call__(self, parser: argparse.ArgumentParser, args: argparse.Namespace, value: Any, option: str | None = None) -> None:
        before = getattr(args, self.dest) or []
        setattr(args, self.dest, before if value in before else [*before, value])


def every_words(parser: ArgumentParser) -> None:
    """Declares the argument that gives the length of an interval."""
    parser.add_argument("--every", default="30min", metavar="LENGTH", help="length of an interval, e.g. 15min, 30min (the default) or 1h")


def table_words(parser: ArgumentParser) -> None:
    """Declares the arguments that choose the form of a table."""
    says = "form of the table: csv (the default), json (an object per row), md (Markdown) or xlsx (requires the Python package openpyxl)"
    parser.add_argument("--format", choices=["csv", "json", "md", "xlsx"], default="csv", help=says)
    style_words(parser)


def style_words(parser: ArgumentParser) -> None:
    """Declares the argument that chooses the style of a CSV table."""
    says = "for csv: excel-de has semicolons, decimal commas and a byte order mark, as spreadsheets in German expect; default: plain"
    parser.add_argument("--csv-style", choices=list(STYLES), default="plain", help=says)


def parts_word(parser: ArgumentParser) -> None:
    """Declares --by for a table of which each source or weekday may have rows of its own."""
    parser.add_argument("--by", choices=["source", "weekday"], help="also a row per source or weekday; by default all are together")


def report_words(parser: ArgumentParser, what: str = "a report with job lines") -> None:
    """Declares the arguments that give a report, or a model and a trace to run."""
    parser.add_argument("report", help=f"{what}, or a model")
    parser.add_argument("trace", nargs="?", help="after a model: the trace to run through it")


def place_words(parser: ArgumentParser, several: str = "") -> None:
    """Declares the arguments that name nodes and pools."""
    parser.add_argument("--node", action="append", default=[], metavar="NAME", help=f"a node, or a pool by its name{several}")
    says = f"a pool that mpplan pool made: all its agents together{several}"
    parser.add_argument("--pool", action="append", default=[], metavar="NAME", help=says)
