"""The command `mpplan table`."""

from __future__ import annotations

from typing import TYPE_CHECKING

from ..agents.pools import pool_lines
from ..runs import run
from ..sweeps.results import Sweep, load
from ..tables.nodes import table
from ..tables.sheets import write_table
from .messages import say
from .options import table_words

if TYPE_CHECKING:
    from argparse import ArgumentParser, Namespace

    from ..report import Report

EXAMPLE = """mpplan table report.txt >nodes.csv
         mpplan table model.txt trace.csv --of visits --node desk >visits.csv
         mpsweep trace.csv agents-*.txt | mpplan table /dev/stdin --node desk --labels agents-*.txt >table.csv"""


def words(parser: ArgumentParser) -> None:
    """Declares the arguments of `mpplan table`."""
    parser.add_argument("report", help="a report or a sweep, or a model")
    parser.add_argument("trace", nargs="?", help="after a model: the trace to run through it")
    parser.add_argument("--of", choices=["nodes", "exits", "visits"], default="nodes", help="one row per node, exit or visit; default: nodes")
    parser.add_argument("--node", action="append", default=[], metavar="NAME", help="only rows of this node or pool; may be repeated")
    parser.add_argument("--labels", nargs="+", metavar="LABEL", help="labels for the scenarios of a sweep, e.g. the names of their models")
    table_words(parser)


def main(args: Namespace) -> None:
    """Runs `mpplan table`."""
    content: Report | Sweep
    if args.trace is not None:
        content = run(args.report, args.trace, jobs=args.of == "visits")
    else:
        content = load(args.report, args.labels)
    if args.labels and not isinstance(content, Sweep):
        raise ValueError("--labels needs a sweep, but this is a single report")
    # All reports are checked before a row is written.
    found = table(content, args.of, args.node)
    reports = list(content.reports().values()) if isinstance(content, Sweep) else [content]
    for line in pool_lines(reports, args.node, args.of == "nodes") if args.of != "exits" else ():
        say(line)
    write_table(found, args.format, args.csv_style)
