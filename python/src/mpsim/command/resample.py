"""The command `mpplan resample`."""

from __future__ import annotations

import os
from typing import TYPE_CHECKING

from ..agents.queues import Queue
from ..files import judge_outputs, text_of, written
from ..progress import Progress
from ..stations.columns import made_warning
from ..tables.service import PERCENTS
from ..tables.sheets import write_table
from ..tables.spreads import spreads
from ..tables.visits import parts_by
from ..traces.resample import Days
from ..traces.trace import Trace
from ..wording import counted
from .groups import print_mixed_at, warn_of_idle_calls
from .messages import say
from .options import Once, Time, calendar_of, calendar_words, parts_word, percentile_word, resolve_within, table_words, ticks
from .pool import numbers_of

if TYPE_CHECKING:
    from argparse import ArgumentParser, Namespace

EXAMPLE = """mpplan resample trace.csv --model model.txt --unit day --within weekday --count 200 --seed 7 --out folder
         mpplan resample trace.csv --model model.txt --count 200 --seed 7 --node desk --agents 2..4 --within 20s >spread.csv"""
# The most traces of a call.
COUNT = 100_000
GROUPS = "weekday", "any"


def words(parser: ArgumentParser) -> None:
    """Declares the arguments."""
    parser.add_argument("trace", help="a trace of several days")
    parser.add_argument("--model", metavar="FILE", help="a model whose comments give the tick, time 0 and the zone")
    parser.add_argument("--unit", choices=["day"], default="day", help="what is drawn: whole days by the calendar (the default)")
    parser.add_argument("--count", type=int, default=200, metavar="N", help="number of traces (default: 200)")
    parser.add_argument("--seed", type=int, default=1, metavar="N", help="seed of the draws; default: 1")
    parser.add_argument("--out", metavar="FOLDER", help="write the traces into this directory")
    says = "write a table of how much the figures of this node or pool vary, from a run of --model for each trace; may be repeated"
    parser.add_argument("--node", action="append", default=[], metavar="NAME", help=says)
    parser.add_argument("--agents", metavar="C", help="replace the node, a server, by agents who share its queue: 3, or 2..4 for each number")
    says = "weekday (the default): a day is replaced by one of the same weekday; any: by any day; and for the table, as in mpplan service, the share"
    parser.add_argument("--within", type=group_or_ticks, action=Once, metavar="WHAT", help=f"{says} served within this time; may be repeated")
    percentile_word(parser)
    parts_word(parser)
    calendar_words(parser)
    table_words(parser)


def group_or_ticks(text: str) -> str | int | Time:
    """Returns the value of --within: `weekday`, `any`, or what `ticks` returns."""
    return text if text in GROUPS else ticks(text)


def _judge(args: Namespace) -> None:
    if not 1 <= args.count <= COUNT:
        raise ValueError(f"--count {args.count}: expected a number from 1 to {COUNT:,}")
    if not args.out and not args.node:
        raise ValueError("give --out FOLDER for the traces, or --node NAME for a table of its figures")
    if args.node and not args.model:
        raise ValueError("--node needs --model, which is run for each trace")
    if args.agents and len(args.node) != 1:
        raise ValueError("--agents needs one --node")


def _written(days: Days, args: Namespace) -> tuple[str, str]:
    """Writes the traces into the directory, and returns the paths of the first and the last."""
    os.makedirs(args.out, exist_ok=True)
    digits = len(str(args.count))
    paths = [os.path.join(args.out, f"trace-{number:0{digits}}.csv") for number in range(1, args.count + 1)]
    judge_outputs(paths, {"trace": [args.trace], "model": [args.model]})
    with Progress(args.count, "traces") as progress:
        for number, path in enumerate(paths, 1):
            with written(path) as file:
                file.writelines(days.resampled(args.seed, number).texts())
            progress(number)
    return paths[0], paths[-1]


def main(args: Namespace) -> None:
    """Runs `mpplan resample`."""
    _judge(args)
    text = text_of(args.model) if args.model else None
    calendar = calendar_of(args, text)
    groups = [it for it in args.within or () if it in GROUPS]
    if len(groups) > 1:
        raise ValueError("--within weekday and --within any exclude each other")
    args.within = [it for it in args.within or () if it not in GROUPS]
    resolve_within(args, text)
    trace = Trace.read(args.trace)
    days = Days(trace, calendar, *groups)
    if single := [name for name, mine in days.groups.items() if len(mine) == 1]:
        if len(single) == len(days.groups):
            raise ValueError(f"{args.trace}: no day has another one that may replace it: give more days, or --within any")
        say(f"there is only one {', one '.join(single)}, which is never replaced by another day")
    if early := days.early():
        why = "of days that may replace the first one come earlier in the day than time 0, and are left out there"
        say(f"{counted(early, 'record')} {why}: mpplan prepare --begin day begins at midnight")
    if args.out:
        first, last = _written(days, args)
        say(f"{counted(args.count, 'trace')} of {counted(len(days.numbers), 'day')}: {first} to {last}")
        if warning := made_warning(args.trace, trace.header):
            say(warning)
    if args.node:
        agents = numbers_of(args.agents) if args.agents else range(0)
        with Progress(args.count + 1, "runs") as progress:
            figures = args.within or (20,), args.percentile or PERCENTS
            parts = parts_by(args.by, trace, calendar) if args.by else None
            rows = list(spreads(text or "", days, args.node, args.count, args.seed, agents, *figures, progress, parts))
        write_table(rows, args.format, args.csv_style)
        if agents:
            queue = Queue(text or "", trace, args.node[0])
            warn_of_idle_calls(queue)
            if args.by != "source":
                print_mixed_at(queue, "--by source gives each")
