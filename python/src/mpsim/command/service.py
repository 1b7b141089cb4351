"""The command `mpplan service`."""

from __future__ import annotations

from typing import TYPE_CHECKING

from ..tables.service import PERCENTS, service
from ..tables.sheets import write_table
from ..tables.visits import sources_in
from .options import figure_words, place_words, report_words, resolve_within, table_words, tick_word
from .reports import all_visits, print_mixed, report_of, visits_of

if TYPE_CHECKING:
    from argparse import ArgumentParser, Namespace

EXAMPLE = "mpplan service jobs.txt --node desk --by source --within 20 --percentile 95"


def words(parser: ArgumentParser) -> None:
    """Declares the arguments of `mpplan service`."""
    report_words(parser)
    place_words(parser, "; may be repeated")
    parser.add_argument("--by", choices=["source"], help="also a row per source of each node; by default all sources are together")
    figure_words(parser)
    tick_word(parser)
    table_words(parser)


def main(args: Namespace) -> None:
    """Runs `mpplan service`."""
    report = report_of(args)
    resolve_within(args, report.model)
    visits = visits_of(report, args) or all_visits(report)
    # Everything is computed before a row is written.
    rows = list(service(visits, args.within or (20,), args.percentile or PERCENTS, sources_in(report) if args.by else None))
    write_table(rows, args.format, args.csv_style)
    if not args.by:
        print_mixed(report, visits, "--by source gives each")
