"""The command `mpplan down`."""

from __future__ import annotations

from typing import TYPE_CHECKING

from ..files import all_written, judge_outputs, text_of
from ..stations.breakdowns import Breakdown, read_breakdowns, with_breakdowns
from ..stations.ticks import tick_in, ticks_in
from ..tables.sheets import write_table
from ..tables.stations import breakdowns
from ..times.calendar import settings_in
from ..times.texts import given
from ..traces.trace import Trace
from ..wording import counted
from .messages import say
from .options import calendar_of, calendar_words, calendar_words_in, positive, table_words

if TYPE_CHECKING:
    from argparse import ArgumentParser, Namespace

    from ..times.calendar import Calendar

EXAMPLE = """mpplan down model.txt trace.csv --node mill --at '2026-03-03 10:00' --for 2h --out down.csv --out-model down.txt
         mpplan down model.txt trace.csv --node line --stage 2 --at 36000 --for 600 --at 50400 --for 300
         mpplan down model.txt trace.csv --list breakdowns.csv --out down.csv --out-model down.txt"""


def words(parser: ArgumentParser) -> None:
    """Declares the arguments of `mpplan down`."""
    parser.add_argument("model", help="a model")
    parser.add_argument("trace", help="its trace")
    parser.add_argument("--node", metavar="NAME", help="the server, loss station or tandem that breaks down")
    parser.add_argument("--stage", type=positive, metavar="N", help="of a tandem: which of its stages breaks down, counted from 1")
    says = "when the breakdown begins: a tick, or a date and time such as '2026-03-03 10:00'; may be repeated, each with its --for"
    parser.add_argument("--at", action="append", default=[], metavar="TIME", help=says)
    says = "how long it lasts: a number of ticks, or a time such as 2h; may be repeated, in the order of --at"
    parser.add_argument("--for", action="append", default=[], metavar="TIME", dest="lasts", help=says)
    says = "breakdowns of any nodes: a CSV file with the columns node, at, for and, for tandems, stage"
    parser.add_argument("--list", metavar="FILE", help=says)
    calendar_words(parser)
    parser.add_argument("--out", metavar="FILE", help="write the trace, with a column of service times that include repairs for each node")
    parser.add_argument("--out-model", metavar="FILE", help="write the model that reads these columns")
    table_words(parser)


def _breakdowns_of(args: Namespace, text: str) -> list[Breakdown]:
    """Returns the breakdowns that the arguments give, for a model's text."""

    def days() -> Calendar:
        return calendar_of(args, text)

    if args.list:
        if args.node or args.at or args.lasts or args.stage:
            raise ValueError("give --list, or --node with --at and --for, not both")
        return read_breakdowns(args.list, days)
    if not args.node or not args.at or len(args.at) != len(args.lasts):
        raise ValueError("give --node, --at and --for, one --for for each --at; or --list")
    begins = [given("--at", lambda it: tick_in(it, days), text) for text in args.at]
    lasts = [given("--for", lambda it: ticks_in(it, lambda: calendar_of(args, text, "--tick")), it) for it in args.lasts]
    return [Breakdown(args.node, begin, ticks, args.stage) for begin, ticks in zip(begins, lasts)]


def main(args: Namespace) -> None:
    """Runs `mpplan down`."""
    judge_outputs([args.out, args.out_model], {"model": [args.model], "trace": [args.trace], "list": [args.list]})
    text = text_of(args.model)
    given_breakdowns = _breakdowns_of(args, text)
    known = bool(calendar_words_in(args)) or settings_in(text)[0] is not None
    days = calendar_of(args, text) if known else None
    made = with_breakdowns(text, Trace.read(args.trace), given_breakdowns)
    with all_written(args.out, args.out_model) as (out, out_model):
        if out:
            out.writelines(made.trace.texts())
        if out_model:
            out_model.write(made.model)
    write_table(breakdowns(made.changes, days if days and days.is_dated else None), args.format, args.csv_style)
    if idle := sum(it.record is None for it in made.changes):
        say(f"{counted(idle, 'breakdown')} changed nothing: no job is in work or would begin meanwhile")
    say("breakdowns are worked out beside the proved programs: tested, not proved")
