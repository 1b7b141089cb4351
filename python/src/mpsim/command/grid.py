"""The command `mpplan grid`."""

from __future__ import annotations

from fractions import Fraction
from typing import TYPE_CHECKING, Any

from ..agents.queues import Queue
from ..files import judge_outputs, text_of, written
from ..page.grids import Cell, heat_map
from ..page.parts import spoken
from ..progress import Progress
from ..stations.columns import worked_warning
from ..tables.grids import CELLS, Copying, grid, load_text, loads_of
from ..tables.sheets import write_table
from ..tables.visits import parts_by
from ..times.texts import SECOND, given
from ..traces.trace import Trace, pool_warning
from .groups import print_mixed_at, warn_of_idle_calls
from .loads import add_word, copying_of, lengthened
from .messages import say
from .options import calendar_of, calendar_words, parts_word, table_words
from .pool import numbers_of
from .staff import goal_of

if TYPE_CHECKING:
    from argparse import ArgumentParser, Namespace
    from collections.abc import Iterator, Sequence

    from ..shapes import Row

EXAMPLE = """mpplan grid model.txt trace.csv --node desk --agents 3..9 --load 80%..130%..10% --page grid.html >grid.csv
         mpplan grid model.txt trace.csv --node desk --agents 3..9 --load 100%,112% --add handling=20s --goal 90/1min"""


def words(parser: ArgumentParser) -> None:
    """Declares the arguments."""
    parser.add_argument("model", help="a model with a server in the place of the agents")
    parser.add_argument("trace", help="its trace")
    parser.add_argument("--node", required=True, metavar="NAME", help="the server to replace by agents who share its queue")
    parser.add_argument("--agents", required=True, metavar="C", help="numbers of agents, e.g. 3..9")
    says = "loads, e.g. 80%%..130%%..10%% or 100%%,112%%; default: 80%%..120%%..10%%"
    parser.add_argument("--load", default="80%..120%..10%", metavar="LOADS", help=says)
    add_word(parser)
    parser.add_argument("--goal", default="80/20", metavar="P/TIME", help="service level: 80/20 (the default) is 80 %% within 20 seconds")
    says = "how far copies for a load above 100%% are shifted, e.g. 7d; default: a week, or a day for a trace of less than two weeks"
    parser.add_argument("--shift", metavar="TIME", help=says)
    parser.add_argument("--times", action="store_true", help="make no copies: move the times closer together, or apart")
    parser.add_argument("--page", metavar="FILE", help="also write an HTML page with a heat map")
    parts_word(parser)
    calendar_words(parser)
    table_words(parser)


def _cells(header: Row, rows: Sequence[Row], tick: int, within: int) -> Iterator[Cell]:
    """Yields the cells of the heat map (Cell) of a table's rows."""
    for row in rows:
        it: dict[object, Any] = dict(zip(header, row))
        mean, p90 = (None if it[name] is None else it[name] * tick / SECOND for name in ("mean_wait", "p90"))
        yield Cell(it["load"].replace("%", " %"), it["agents"], it["came"], it[f"within_{within}_of_all"], mean, p90, float(it["util"]))


def main(args: Namespace) -> None:
    """Runs `mpplan grid`."""
    judge_outputs([args.page], {"model": [args.model], "trace": [args.trace]})
    text, trace = text_of(args.model), Trace.read(args.trace)
    days = calendar_of(args, text)
    share, within = given("--goal", lambda goal: goal_of(goal, days.tick), args.goal)
    agents, loads = numbers_of(args.agents), given("--load", loads_of, args.load)
    if len(agents) * len(loads) > CELLS:
        raise ValueError(f"{len(agents):,} numbers of agents and {len(loads):,} loads: more than {CELLS:,} cells")
    if warning := pool_warning(args.trace, trace.header):
        raise ValueError(f"{warning.removeprefix('warning: ')}: give the trace before the pool")
    if warning := worked_warning(args.trace, trace.header):
        raise ValueError(warning.removeprefix("warning: "))
    own, trace = trace, lengthened(args, trace, text, days.tick)
    if args.times and args.shift:
        raise ValueError("--times makes no copies: give it without --shift")
    copying = Copying("times") if args.times else copying_of(trace, days, args.shift)
    parts = parts_by(args.by, trace, days) if args.by else None
    with Progress(len(agents) * len(loads), "cells") as progress:
        header, *rows = grid(args.model, trace, args.node, agents, loads, copying, (within,), tell=progress, parts=parts)
    write_table([header, *rows], args.format, args.csv_style)
    queue = Queue(args.model, own, args.node)
    warn_of_idle_calls(queue)
    if args.by != "source":
        print_mixed_at(queue, "--by source gives each")
    if parts:
        rows = [row for row in rows if row[2] == "all"]
    place = header.index(f"within_{within}_of_all")
    for load in loads:
        mine = [row for row in rows if row[0] == load_text(load)]
        least = next((row[1] for row in mine if all(it[place] is None or Fraction(str(it[place])) >= share for it in mine[mine.index(row) :])), None)
        found = f"{least} agents" if least else f"more than {agents[-1]} agents"
        say(f"load {load_text(load)}: {found} for {args.goal}")
    if args.page:
        time = spoken(within * days.tick / SECOND)
        shown = "".join(f", {it}" for it in args.add)
        title = f"{args.node}: {agents[0]} to {agents[-1]} agents by load{shown}"
        with written(args.page) as file:
            file.write(heat_map(list(_cells(header, rows, days.tick, within)), title, time, float(share)))
