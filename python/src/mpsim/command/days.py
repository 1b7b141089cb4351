"""The command `mpplan days`."""

from __future__ import annotations

from typing import TYPE_CHECKING

from ..agents.pools import pool_lines
from ..files import text_of
from ..progress import Progress
from ..stations.columns import worked_warning
from ..sweeps.days import by_calendar, by_ticks, days, shared_by
from ..tables.nodes import table
from ..tables.sheets import write_table
from ..traces.trace import Trace
from ..wording import counted
from .messages import say
from .options import calendar_of, calendar_words, table_words

if TYPE_CHECKING:
    from argparse import ArgumentParser, Namespace

EXAMPLE = "mpplan days model.txt trace.csv --open 8:00 >days.csv"


def words(parser: ArgumentParser) -> None:
    """Declares the arguments of `mpplan days`."""
    parser.add_argument("model", help="a model")
    parser.add_argument("trace", help="its trace")
    parser.add_argument("--node", action="append", default=[], metavar="NAME", help="only rows of this node or pool; may be repeated")
    opens = "time of day that is time 0 of each day; earlier records are left out, and counted; default: the first record of the day"
    parser.add_argument("--open", metavar="H:MM", help=opens)
    closes = "ignore (and count) records at or after this time; if it is not later than --open, it means the next day"
    parser.add_argument("--close", metavar="H:MM", help=closes)
    parser.add_argument("--every", type=int, metavar="TICKS", help="cut the trace into pieces of this many ticks, from time 0, instead of days")
    calendar_words(parser)
    table_words(parser)


def main(args: Namespace) -> int:
    """Runs `mpplan days`, and returns its status."""
    text, trace = text_of(args.model), Trace.read(args.trace)
    if args.every is not None and (args.every < 1 or args.open or args.close):
        raise ValueError(f"--every {args.every}: expected a positive number of ticks, without --open and --close")
    times = trace.times()
    pieces, left = by_ticks(times, args.every) if args.every else by_calendar(times, calendar_of(args, text), args.open, args.close)
    with Progress(len(pieces), "days") as progress:
        sweep, over = days(text.encode(errors="surrogateescape"), trace, pieces, progress, args.model)
    write_table(table(sweep, nodes=args.node, head="day"), args.format, args.csv_style)
    for line in pool_lines(sweep.reports().values(), args.node):
        say(line)
    for pool, shared in shared_by(text, trace, pieces).items():
        where = f"in {shared} of {len(pieces)} pieces" if args.every else f"on {shared} of {len(pieces)} days"
        why = f"{pool} has a roster, patience or priorities, so its waits are those of the whole trace"
        say(f"{why}; {where} they may depend on calls of another")
    if warning := worked_warning(args.trace, trace.header):
        say(warning)
    if left:
        say(f"{counted(left, 'record')} left out: before a day opens or after it closes" + ("" if pieces else "; no day is left"))
    if over:
        when = f"in {over} of {len(pieces)} pieces" if args.every else f"on {over} of {len(pieces)} days"
        say(f"{when} jobs are still in the network when the next begins; its run starts without them")
    return 11 if any(item.status for item in sweep.values()) else 0
