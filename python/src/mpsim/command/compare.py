"""The command `mpplan compare`."""

from __future__ import annotations

from typing import TYPE_CHECKING

from ..agents.pools import pool_lines, pools
from ..errors import Error
from ..files import written
from ..lines import FIGURES
from ..tables.comparison import aligned, compare, differences, labelled_in
from ..tables.sheets import write_table
from .messages import say
from .options import table_words

if TYPE_CHECKING:
    from argparse import ArgumentParser, Namespace

EXAMPLE = """mpplan compare today.txt tomorrow.txt --figure p90
         mpplan compare sweep.txt --figure lost --node desk --csv >lost.csv"""


def words(parser: ArgumentParser) -> None:
    """Declares the arguments of `mpplan compare`."""
    parser.add_argument("reports", nargs="+", metavar="report", help="reports or sweeps; each scenario of a sweep counts as a report")
    says = f"figure to compare: one of {', '.join(FIGURES)}; default: p90"
    parser.add_argument("--figure", choices=FIGURES, default="p90", metavar="FIGURE", help=says)
    parser.add_argument("--node", action="append", default=[], metavar="NAME", help="only this node or pool; may be repeated")
    parser.add_argument("--csv", action="store_true", help="write CSV, with a column per difference; so do --format and --csv-style")
    table_words(parser)


def main(args: Namespace) -> None:
    """Runs `mpplan compare`."""
    labelled = list(labelled_in(args.reports))
    refused = [(label, it) for label, it in labelled if isinstance(it, Error)]
    if len(refused) == len(labelled):
        raise ValueError(f"{args.reports[0]}: every scenario was rejected")
    for label, it in refused:
        say(f"{label} is left out, because it was rejected: {it.told}")
    labels, reports = zip(*(item for item in labelled if item not in refused))
    found = compare(reports, args.figure, args.node)
    for line in pool_lines(reports, args.node):
        say(line)
    if args.figure in ("max", "p50", "p90", "p99") and any(pools(report) and not report.has_visits for report in reports):
        say(f"a pool's {args.figure} needs job lines: run mpsim with --jobs")
    if args.csv or args.format != "csv" or args.csv_style != "plain":
        write_table(differences(labels, found), args.format, args.csv_style)
        return
    with written() as file:
        file.writelines(aligned(labels, found))
