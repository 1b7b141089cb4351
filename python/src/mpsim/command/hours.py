"""The command `mpplan hours`."""

from __future__ import annotations

from typing import TYPE_CHECKING

from ..files import text_of
from ..tables.hours import hours
from ..tables.service import PERCENTS
from ..tables.sheets import write_table
from ..tables.visits import of_source, sources_in
from .options import calendar_of, calendar_words, figure_words, place_words, report_words, resolve_within, table_words
from .reports import print_mixed, report_of, visits_of

if TYPE_CHECKING:
    from argparse import ArgumentParser, Namespace

EXAMPLE = "mpplan hours model.txt trace.csv --node desk --within 20 >hours.csv"


def words(parser: ArgumentParser) -> None:
    """Declares the arguments of `mpplan hours`."""
    report_words(parser)
    place_words(parser)
    says = "rows by hour of day, by day, by weekday, or by each hour of each day; default: hour"
    parser.add_argument("--by", choices=["hour", "day", "weekday", "each"], default="hour", help=says)
    parser.add_argument("--model", metavar="FILE", help="with a report: a model whose comments give the tick and time 0")
    parser.add_argument("--source", action="append", default=[], metavar="NAME", help="only jobs of this source; may be repeated")
    figure_words(parser)
    calendar_words(parser)
    table_words(parser)


def main(args: Namespace) -> None:
    """Runs `mpplan hours`."""
    report = report_of(args)
    found = visits_of(report, args)
    if len(found) != 1:
        raise ValueError("hours takes one node or one pool: give --node NAME or --pool NAME")
    if args.source:
        sources = sources_in(report)
        for name in args.source:
            if name not in (known := list(dict.fromkeys(sources.values()))):
                raise ValueError(f"{args.report}: no source {name!r}; it has {', '.join(known)}")
        found = [of_source(found[0], sources, args.source)]
    path = args.report if args.trace is not None else args.model
    text = text_of(path) if path else None
    days = calendar_of(args, text)
    resolve_within(args, text)
    rows = list(hours(found[0], days, args.by, args.within or (20,), args.percentile or PERCENTS))
    write_table(rows, args.format, args.csv_style)
    if not args.source:
        print_mixed(report, found, "--source NAME gives one")
