"""The command `mpplan staff`."""

from __future__ import annotations

import re
from fractions import Fraction
from typing import TYPE_CHECKING

from ..agents.queues import Queue
from ..agents.rosters import patience_in
from ..agents.plans import Plan
from ..agents.staffing import Goal, calls_of, searched
from ..files import text_of
from ..progress import Progress
from ..stations.columns import worked_warning
from ..tables.grids import loads_of, with_copies
from ..tables.needs import HEADS, rows_of
from ..tables.sheets import write_table
from ..tables.visits import together
from ..times.intervals import days_of, every_of
from ..times.texts import WEEKDAYS, given, length
from ..traces.trace import Trace, pool_warning
from ..wording import counted
from .groups import judge_queue, priorities_of, priority_words, queues_of, warn_of_idle_calls
from .loads import add_word, copying_of, lengthened
from .messages import say
from .options import calendar_of, calendar_words, every_words, table_words

if TYPE_CHECKING:
    from argparse import ArgumentParser, Namespace
    from collections.abc import Collection, Sequence

    from ..times.calendar import Calendar
    from ..times.intervals import Day

EXAMPLE = """mpplan staff model.txt trace.csv --node desk --goal 80/20 --weekday monday
         mpplan staff model.txt trace.csv --node desk --goal 90/1min --every 15min --shrinkage 30% --max-occupancy 85% --format md"""


def words(parser: ArgumentParser) -> None:
    """Declares the arguments of `mpplan staff`."""
    parser.add_argument("model", help="a model with a server in the place of the agents")
    parser.add_argument("trace", help="its trace")
    parser.add_argument("--node", required=True, metavar="NAME", help="the server to replace by agents who share its queue")
    says = "service level: 80/20 (the default) is 80 %% within 20 seconds; also 90/1min, or QUEUE=90/1min for one queue; may be repeated"
    parser.add_argument("--goal", action="append", default=[], metavar="P/TIME", help=says)
    every_words(parser)
    says = "only days of this weekday, e.g. monday; default: each weekday"
    parser.add_argument("--weekday", type=str.capitalize, choices=WEEKDAYS, metavar="DAY", help=says)
    parser.add_argument("--date", metavar="DATE", help="only this day, e.g. 2026-03-02")
    says = "callers leave after this time, e.g. 240s, after the ticks in this column, or after random times of this mean: exp:240s"
    parser.add_argument("--patience", metavar="TIME", help=says)
    parser.add_argument("--seed", type=int, default=1, metavar="N", help="seed of random patience; default: 1")
    parser.add_argument("--load", default="100%", metavar="P", help="more or fewer calls, e.g. 112%%: copied as in mpplan grid")
    add_word(parser)
    parser.add_argument("--max-occupancy", metavar="P", help="agents work at most this share of their time, e.g. 85%%")
    parser.add_argument("--shrinkage", default="0%", metavar="P", help="share of paid time in which an agent isn't available, e.g. 30%%")
    priority_words(parser)
    says = "source: also a row per source (or --queue) of each interval; its agents are those of all. weekday: as without it; an error without dates"
    parser.add_argument("--by", choices=["source", "weekday"], help=says)
    calendar_words(parser)
    table_words(parser)


def percent(text: str) -> Fraction:
    """Returns the Fraction of a text such as `30%`, `30` or `12.5%`. Raises ValueError for an invalid text, and for more than 100 %."""
    found = re.fullmatch(r"(\d{1,3}(?:\.\d{1,6})?)\s*%?", text)
    if not found or Fraction(found[1]) > 100:
        raise ValueError("expected a percentage such as 30%")
    return Fraction(found[1]) / 100


def goal_of(text: str, tick: int) -> tuple[Fraction, int]:
    """Returns the share (Fraction) and the ticks (int) of a text such as `80/20` or `90/1min`, for a tick of this many nanoseconds. Raises
    ValueError for an invalid text.

    >>> goal_of("80/20", 10**9)
    (Fraction(4, 5), 20)
    """
    share, mark, time = text.partition("/")
    if not mark:
        raise ValueError("expected a percentage and a time, such as 80/20 or 90/1min")
    return percent(share), length(f"{time}s" if re.fullmatch(r"[\d.]+", time) else time) // tick


def _goal(args: Namespace, tick: int, queues: Collection[str]) -> Goal:
    """Returns the Goal that the arguments ask for, for calls of these queues."""
    occupancy = None if args.max_occupancy is None else given("--max-occupancy", percent, args.max_occupancy)
    if occupancy == 0:
        raise ValueError("--max-occupancy 0%: nobody would ever work")
    whole: list[tuple[Fraction, int]] = []
    each: dict[str, tuple[Fraction, int]] = {}
    for text in args.goal or ["80/20"]:
        name, mark, level = text.rpartition("=")
        found = given(f"--goal {name}{mark}".strip(), lambda text: goal_of(text, tick), level)
        if mark:
            judge_queue(args, name, queues)
            if name in each:
                raise ValueError(f"--goal: there are two for {name}")
            each[name] = found
        else:
            whole.append(found)
    if len(whole) > 1:
        raise ValueError("--goal: there are two for all calls; give QUEUE=90/1min for a queue")
    share, within = whole[0] if whole else (Fraction(0), 0)
    return Goal(share, within, occupancy, each)


def _plan(args: Namespace, days: Sequence[Day]) -> Plan:
    if days[0].weekday is None and (args.weekday or args.by == "weekday"):
        option = "--weekday" if args.weekday else "--by weekday"
        raise ValueError(f"{option} needs the date of time 0: give --start")
    try:
        return Plan(days, args.date, args.weekday)
    except ValueError:
        there = f"--date {args.date}: the trace has days from {days[0].name} to {days[-1].name}"
        raise ValueError(there if args.date else f"--weekday {args.weekday}: the trace has no such day") from None


def _changed(args: Namespace, trace: Trace, text: str, days: Calendar) -> Trace:
    """Returns a trace with the changes of --load and --add."""
    load, *more = given("--load", loads_of, args.load)
    if more:
        raise ValueError(f"--load {args.load}: give one load, e.g. 112%")
    if (load != 1 or args.add) and (warning := pool_warning(args.trace, trace.header) or worked_warning(args.trace, trace.header)):
        raise ValueError(warning.removeprefix("warning: "))
    trace = lengthened(args, trace, text, days.tick)
    return trace if load == 1 else with_copies(trace, load, copying_of(trace, days))


def main(args: Namespace) -> None:
    """Runs `mpplan staff`."""
    text = text_of(args.model)
    days = calendar_of(args, text)
    every = every_of(args.every)
    shrinkage = given("--shrinkage", percent, args.shrinkage)
    if shrinkage == 1:
        raise ValueError("--shrinkage 100%: nobody would ever be there")
    own = Trace.read(args.trace)
    trace = _changed(args, own, text, days)
    every_queue = queues_of(args, trace, text)
    names = list(dict.fromkeys(every_queue))
    goal, priorities = _goal(args, days.tick, names), priorities_of(args, names)
    queue = Queue(args.model, trace, args.node)
    patience = None
    if args.patience:
        values, _ = patience_in(args.patience, trace, days.tick, args.seed)
        patience = [values[job - 1] for job in queue.jobs]
    queues = [every_queue[job - 1] for job in queue.jobs]
    plan = _plan(args, days_of(days, max(queue.arrivals, default=0), every))
    stretches = list(zip(plan.stretches, calls_of(plan.stretches, queue.arrivals, queue.demands, patience, queues)))
    by_queue = bool(args.by == "source" or goal.queues)
    with Progress(len(plan.stretches[0].begins) - 1, "intervals") as progress:
        search = searched(stretches, goal, progress, priorities)
    rows = []
    for part in plan.parts:
        mine = plan.of(part, search.found)
        rows += [[part.name, *row] for row in rows_of(mine, len(part.days), every, days.tick, goal, shrinkage, by_queue)]
    heads = [plan.head, HEADS[0], *(["queue"] if by_queue else []), *HEADS[1:]]
    write_table([heads, *rows], args.format, args.csv_style)
    warn_of_idle_calls(queue if trace is own else Queue(args.model, own, args.node))
    for name, count in search.left().items():
        say(f"{counted(count, 'call')} of {name} without a goal still wait when the days end, and are left out: --goal {name}=P/TIME gives one")
    if not by_queue and (mixed := together({args.node: queues})):
        say(f"{mixed}; --by source gives each")
