"""Reports the waits that a telephone system recorded, with abandoned calls, in the form of the table of `mpplan pool --roster`."""

from __future__ import annotations

from typing import TYPE_CHECKING

from ..agents.groups import Agent
from ..agents.validation import recorded
from ..files import text_of
from ..tables.intervals import Table
from ..times.intervals import days_of, every_of
from ..traces.trace import Trace
from ..tables.sheets import write_table
from .groups import queue_word, queues_of
from .options import calendar_of, calendar_words, every_words, resolve_within, table_words, within_word

if TYPE_CHECKING:
    from argparse import ArgumentParser, Namespace

EXAMPLE = "mpplan recorded calls.csv --model model.txt --wait wait --abandoned abandoned --within 20 >recorded.csv"


def words(parser: ArgumentParser) -> None:
    """Declares the arguments of `mpplan recorded`."""
    parser.add_argument("trace", help="a trace with the recorded waits as a column")
    recorded_words(parser)
    parser.add_argument("--source", action="append", default=[], metavar="NAME", help="only calls of this source; may be repeated")
    queue_word(parser)
    parser.add_argument("--model", metavar="FILE", help="a model whose comments give the tick and time 0")
    calendar_words(parser)
    table_words(parser)


def recorded_words(parser: ArgumentParser, is_required: bool = True) -> None:
    """Declares the arguments that name the columns of recorded waits."""
    says = "column with the recorded wait in ticks, for an abandoned call until the caller left"
    parser.add_argument("--wait", required=is_required, metavar="COLUMN", help=says)
    says = "column that is 0 for answered calls, and another number for abandoned ones; default: none was abandoned"
    parser.add_argument("--abandoned", metavar="COLUMN", help=says)
    within_word(parser, "report the share answered within 20 ticks (the default),")
    every_words(parser)
    parser.add_argument("--by", choices=["weekday"], help="rows per weekday and interval; by default all days are together")


def within_of(args: Namespace) -> int:
    """Returns the ticks (int) of --within, by default 20."""
    return 20 if args.within is None else int(args.within)


def main(args: Namespace) -> None:
    """Runs `mpplan recorded`."""
    text = text_of(args.model) if args.model else None
    days = calendar_of(args, text)
    resolve_within(args, text)
    every = every_of(args.every)
    trace = Trace.read(args.trace)
    sources, times, (waits, gone) = trace.sources(), trace.times(), recorded(trace, args.wait, args.abandoned)
    queues = queues_of(args, trace, text)
    for name in args.source:
        if name not in sources:
            raise ValueError(f"{args.trace}: no source {name!r}; it has {', '.join(dict.fromkeys(sources))}")
    kept = [at for at, source in enumerate(sources) if not args.source or source in args.source]
    arrivals, modelled = [times[at] for at in kept], [int(not gone[at]) for at in kept]
    # Who answered isn't asked for: agent 1 stands for any.
    calls = [queues[at] for at in kept], arrivals, [0] * len(kept), modelled, [waits[at] for at in kept]
    table = Table(days_of(days, max(arrivals, default=0), every), calls, [Agent([])], within_of(args), bool(args.by))
    write_table([row[:-2] for row in table.rows(every, days.tick)], args.format, args.csv_style)
