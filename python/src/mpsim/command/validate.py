"""The command `mpplan validate`."""

from __future__ import annotations

import re
from typing import TYPE_CHECKING

from ..agents.queues import Queue
from ..agents.validation import HEADS, Trust, compared, recorded, rows_of, verdict
from ..files import judge_outputs, text_of, written
from ..page.levels import levels_page
from ..tables.sheets import write_table
from ..times.intervals import Kinds, days_of, every_of
from ..times.texts import MINUTE, SECOND, given
from ..traces.trace import Trace
from .groups import group_of, group_words, queues_of, warn_of_idle_calls
from .messages import say
from .options import calendar_of, calendar_words, resolve_within, table_words
from .passages import judge_words, log_words, validate_log
from .recorded import recorded_words, within_of

if TYPE_CHECKING:
    from argparse import ArgumentParser, Namespace

EXAMPLE = """mpplan validate model.txt calls.csv --node desk --roster roster.csv --wait wait --abandoned abandoned >gaps.csv
         mpplan validate line.txt parts.csv --log mes.csv --recipe mes.toml --product type >gaps.csv"""


def words(parser: ArgumentParser) -> None:
    """Declares the arguments of `mpplan validate`."""
    parser.add_argument("model", help="a model with a server in the place of the agents; with --log any model")
    parser.add_argument("trace", help="its trace, with the recorded waits as a column; with --log that of the log")
    parser.add_argument("--node", metavar="NAME", help="the server to replace by the agents")
    parser.add_argument("--agents", metavar="C", help="number of agents, or by the time of day: 8:00=3,10:00=5,18:00=0")
    group_words(parser)
    recorded_words(parser, is_required=False)
    default = Trust()
    says = f"trust a model whose share of all calls differs by at most this many percentage points (default: {100 * default.overall:g})"
    parser.add_argument("--trust-overall", metavar="POINTS", help=says)
    says = f"trust a model whose share in an interval differs by at most this many percentage points (default: {100 * default.each:g})"
    parser.add_argument("--trust-interval", metavar="POINTS", help=says)
    says = f"judge intervals with at least this many calls (default: {default.calls})"
    parser.add_argument("--trust-calls", type=int, default=default.calls, metavar="N", help=says)
    parser.add_argument("--page", metavar="FILE", help="also write an HTML page with both shares over the day")
    calendar_words(parser)
    table_words(parser)
    log_words(parser)


def points(text: str) -> float:
    """Returns the share (float) of a text such as `2.5`, which is in percentage points. Raises ValueError for another text."""
    if not re.fullmatch(r"\d{1,3}(?:\.\d{1,6})?", text) or float(text) > 100:
        raise ValueError("expected percentage points from 0 to 100, such as 2.5")
    return float(text) / 100


def _trust_of(args: Namespace) -> Trust:
    """Returns the Trust that the arguments ask for."""
    if args.trust_calls < 1:
        raise ValueError(f"--trust-calls {args.trust_calls}: expected a number of calls, 1 or more")
    options = ("overall", "--trust-overall", args.trust_overall), ("each", "--trust-interval", args.trust_interval)
    return Trust(calls=args.trust_calls, **{name: given(option, points, text) for name, option, text in options if text is not None})


def main(args: Namespace) -> None:
    """Runs `mpplan validate`."""
    judge_words(args)
    if args.log is not None:
        validate_log(args, text_of(args.model))
        return
    judge_outputs([args.page], {"model": [args.model], "trace": [args.trace], "roster": [args.roster]})
    trust = _trust_of(args)
    if bool(args.roster) == bool(args.agents):
        raise ValueError("give --roster or --agents")
    text = text_of(args.model)
    days = calendar_of(args, text)
    resolve_within(args, text)
    every = every_of(args.every)
    trace = Trace.read(args.trace)
    queue = Queue(args.model, trace, args.node)
    waits, gone = recorded(trace, args.wait, args.abandoned)
    last, queues = max(queue.arrivals, default=0), queues_of(args, trace, text)
    _, group = group_of(args, days, last, queues)
    every_day = days_of(days, last, every)
    kinds = Kinds(every_day, bool(args.by))
    cells = compared(queue, group, every_day, waits, gone, queues, kinds=kinds)
    within, same = within_of(args), max(1, SECOND // days.tick)
    rows = list(rows_of(cells, within, same, every, kinds=kinds))
    said = verdict([row for row in rows if row[-len(HEADS)] == "all"], trust)
    say(said)
    warn_of_idle_calls(queue)
    write_table([[*kinds.heads, *HEADS], *rows], args.format, args.csv_style)
    if args.page:
        if args.by:
            # The page has all days together.
            cells = compared(queue, group, every_day, waits, gone, queues)
        title = f"{args.node}: recorded and modelled"
        with written(args.page) as file:
            file.write(levels_page(list(rows_of(cells, within, same, every, 12)), title, said, within * days.tick / SECOND, every // MINUTE))
