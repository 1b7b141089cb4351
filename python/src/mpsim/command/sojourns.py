"""The command `mpplan sojourns`."""

from __future__ import annotations

import argparse
from typing import TYPE_CHECKING

from ..tables.service import PERCENTS
from ..tables.sheets import write_table
from ..tables.sojourns import each, table
from ..traces.groups import groups_in
from .options import figure_words, report_words, resolve_within, table_words, tick_word
from .reports import model_of, reading_of

if TYPE_CHECKING:
    from argparse import ArgumentParser, Namespace

    from ..traces.groups import Groups

EXAMPLE = "mpplan sojourns model.txt trace.csv --by source --within 300"


def words(parser: ArgumentParser) -> None:
    """Declares the arguments of `mpplan sojourns`."""
    report_words(parser)
    says = "one row per source (source), per node where jobs left (end), per pair of both (the default), for all jobs, or per value of a column of"
    parser.add_argument("--by", type=_by, default="both", metavar="BY", help=f"{says} the trace (column:NAME), such as a flow or a product")
    figure_words(parser, "sojourns", "report the share of sojourns of at most this many ticks")
    parser.add_argument("--each", action="store_true", help="write one row per job instead of the table")
    tick_word(parser)
    table_words(parser)


def main(args: Namespace) -> None:
    """Runs `mpplan sojourns`."""
    by: str | Groups = args.by
    if args.by.startswith("column:"):
        if args.trace is None or args.each:
            raise ValueError(f"--by {args.by} needs a model and a trace" if args.trace is None else f"--by {args.by} can't be combined with --each")
        by = groups_in(args.trace, args.by[7:], model_of(args) or "")
    with reading_of(args) as reading:
        resolve_within(args, model_of(args))
        rows = each(reading) if args.each else list(table(reading, by, args.within or (), args.percentile or PERCENTS))
    write_table(rows, args.format, args.csv_style)


def _by(text: str) -> str:
    """Returns the value of --by. Raises ArgumentTypeError for an unknown one."""
    if text not in ("both", "source", "end", "all") and not text.startswith("column:"):
        raise argparse.ArgumentTypeError(f"{text}: expected both, source, end, all or column:NAME")
    return text
