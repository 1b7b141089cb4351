"""The pool of `mpplan pool` with a roster, patience or priorities: its agents and waits come from `mpsim.agents`."""

from __future__ import annotations

from typing import TYPE_CHECKING

from ..agents.groups import FIRST, LONGEST_IDLE, Agent, Group
from ..agents.queues import Queue
from ..agents.rosters import counts_roster, patience_in, queues_in, read_roster
from ..exports.codes import codes_in
from ..files import all_written, judge_outputs, text_of
from ..limits import TRUNK
from ..runs import run
from ..tables.intervals import Table
from ..tables.visits import together
from ..times.intervals import days_of, every_of
from ..times.texts import given
from ..traces.trace import Trace, locating_errors
from ..wording import counted
from .messages import say
from .options import calendar_of, calendar_words

if TYPE_CHECKING:
    from argparse import ArgumentParser, Namespace
    from collections.abc import Collection, Sequence

    from ..shapes import Row
    from ..times.calendar import Calendar


def group_words(parser: ArgumentParser) -> None:
    """Declares the arguments that say who serves which calls."""
    parser.add_argument("--roster", metavar="FILE", help="who is there when: a CSV file with the columns agent, queues, from and to")
    priority_words(parser)
    says = "which of several free agents takes a call: the one who has been free longest (the default) or the first in the roster"
    parser.add_argument("--choose", choices=[LONGEST_IDLE, FIRST], help=says)


def priority_words(parser: ArgumentParser) -> None:
    """Declares the arguments that choose the queue of a call, and which queues come first."""
    queue_word(parser)
    parser.add_argument("--first", action="append", default=[], metavar="QUEUE", help="serve calls of this queue first; may be repeated")
    says = "serve calls of this queue next; may be repeated, in this order"
    parser.add_argument("--then", action="append", default=[], metavar="QUEUE", help=says)


def queue_word(parser: ArgumentParser) -> None:
    """Declares the argument that chooses the queue of a call."""
    parser.add_argument("--queue", metavar="COLUMN", help="the queue of a call is its value in this column; default: its source")


def queues_of(args: Namespace, trace: Trace, text: str | None) -> list[str]:
    """Returns the queue of each record (list of str) of a Trace: its source, or the value of --queue, by its word in the comments of a model's text
    (str) if that is one word."""
    return queues_in(trace, args.queue, codes_in(text or "").get(args.queue, {})) if args.queue else trace.sources()


def warn_of_idle_calls(queue: Queue) -> None:
    """Warns if some calls of a queue need no service."""
    if idle := queue.idle_calls():
        say(f"warning: {idle}")


def print_mixed_at(queue: Queue, how: str) -> None:
    """Prints if the calls of a queue are of several sources, and how to get the figures of each (str)."""
    every = queue.trace.sources()
    if line := together({queue.node: [every[job - 1] for job in queue.jobs]}):
        say(f"{line}; {how}")


def roster_words(parser: ArgumentParser) -> None:
    """Declares the arguments of `mpplan pool` for a roster, patience and priorities."""
    group_words(parser)
    says = "callers leave after this time, e.g. 240s, after the ticks in this column, or after random times of this mean: exp:240s"
    parser.add_argument("--patience", metavar="TIME", help=says)
    parser.add_argument("--seed", type=int, metavar="N", help="seed of random patience; default: 1")
    says = "length of the intervals of the table for a roster, patience or priorities: 15min, 30min (the default) or 1h"
    parser.add_argument("--every", metavar="LENGTH", help=says)
    calendar_words(parser)


def asks_for_group(args: Namespace) -> bool:
    """Returns whether a command's arguments ask for more than a number of agents."""
    more = args.roster, args.patience, args.first, args.then, args.choose, args.queue, args.every, args.by == "weekday", "=" in (args.agents or "")
    return any(more)


def priorities_of(args: Namespace, queues: Collection[str]) -> dict[str, int]:
    """Returns the priorities (dict of str to int) that --first and --then give, as Group takes them. Raises ValueError for a queue that isn't among
    `queues`."""
    found = dict.fromkeys(args.first, 1)
    for rank, name in enumerate(args.then, 2):
        if name in found:
            raise ValueError(f"{name} is in --first and --then, or twice in --then")
        found[name] = rank
    for name in found:
        judge_queue(args, name, queues)
    return found


def judge_queue(args: Namespace, name: str, queues: Collection[str]) -> None:
    """Raises ValueError if no call has the queue of this name."""
    if name not in queues:
        what = f"value {name!r} in {args.queue}" if args.queue else f"source {name!r}"
        raise ValueError(f"no {what}; the trace has {', '.join(queues)}")


def _agents(args: Namespace, days: Calendar, last: int, queues: Sequence[str]) -> list[Agent]:
    """Returns the agents (list of Agent) that the arguments ask for."""
    if args.roster:
        return read_roster(args.roster, days, last, queues)[0]
    if "=" in args.agents:
        return given("--agents", lambda text: counts_roster(text, days, last), args.agents)
    if not args.agents.isdigit():
        why = "with patience, priorities or --every, give one number of agents, or times of day such as 8:00=3,10:00=5"
        raise ValueError(f"--agents {args.agents}: {why}")
    return [Agent()] * int(args.agents)


def group_of(args: Namespace, days: Calendar, last: int, queues: Sequence[str]) -> tuple[list[Agent], Group]:
    """Returns the agents (list of Agent) and the Group that a command's arguments ask for, for a Calendar, its last tick (int), and the queue of
    each record (list of str). Raises ValueError for invalid arguments."""
    names = list(dict.fromkeys(queues))
    agents = _agents(args, days, last, names)
    if not 1 <= len(agents) <= TRUNK:
        raise ValueError(f"a pool has 1 to {TRUNK} agents, not {len(agents)}")
    return agents, Group(agents, priorities_of(args, names), args.choose or LONGEST_IDLE)


def _judge(args: Namespace) -> None:
    if args.report:
        raise ValueError("--report reads a pool that has been run: give no roster, patience, priorities or --every with it")
    if not args.model or not args.trace or not args.agents and not args.roster:
        raise ValueError("give a model, a trace, and --roster or --agents")
    if args.agents and args.roster:
        raise ValueError("give --roster or --agents, not both")
    if args.by == "agents":
        raise ValueError(f"--by {args.by}: a pool with a roster, patience or priorities has --by trunk")
    if args.percentile or len(args.within or ()) > 1:
        raise ValueError("the table per interval has one --within, and the 90th percentile")
    judge_outputs([args.out, args.out_model], {"model": [args.model], "trace": [args.trace], "roster": [args.roster]})


def rows_of_group(args: Namespace) -> list[Row]:
    """Returns the header and the rows (lists) of the table of a pool with a roster, patience or priorities, and writes the
    outputs that the arguments ask for. Raises what Queue does, and ValueError for invalid arguments, and if some calls are never served."""
    _judge(args)
    text = text_of(args.model)
    days = calendar_of(args, text)
    every = every_of(args.every or "30min")
    trace = Trace.read(args.trace)
    queue = Queue(args.model, trace, args.node)
    every_queue = queues_of(args, trace, text)
    last = max(queue.arrivals, default=0)
    agents, group = group_of(args, days, last, every_queue)
    patience, is_drawn = patience_in(args.patience, trace, days.tick, 1 if args.seed is None else args.seed) if args.patience else (None, False)
    queues = [every_queue[job - 1] for job in queue.jobs]
    who, waits = group.assigned(queue.arrivals, queue.demands, queues, patience and [patience[job - 1] for job in queue.jobs])
    queue.judge_waits(days, who, waits)
    warn_of_idle_calls(queue)
    model, made = queue.with_group(len(agents), who, waits, patience if is_drawn else None)
    # The program must find that no call is lost.
    with locating_errors(made, model=args.model):
        report = run(model.encode(errors="surrogateescape"), made.lines(), jobs=False)
    if lost := report.by_name[args.node].lost:
        raise ValueError(f"{counted(lost, 'call')} found no free agent: this is a mistake in mpplan")
    with all_written(args.out, args.out_model) as (out, out_model):
        if out:
            out.writelines(made.texts())
        if out_model:
            out_model.write(model)
    calls = queues, queue.arrivals, queue.demands, who, waits
    within = (args.within or [20])[0]
    return [*Table(days_of(days, last, every), calls, agents, within, args.by == "weekday").rows(every, days.tick)]
