"""The command `mpplan pool`."""

from __future__ import annotations

import re
from typing import TYPE_CHECKING

from ..agents.pools import pooled
from ..agents.queues import Queue
from ..files import all_written, judge_outputs, text_of
from ..progress import Progress
from ..report import Report
from ..tables.pools import staffing
from ..tables.service import PERCENTS, figures, heads
from ..tables.sheets import write_table
from ..tables.visits import together
from ..traces.trace import Trace
from .groups import asks_for_group, roster_words, rows_of_group, warn_of_idle_calls
from .messages import say
from .options import figure_words, resolve_within, table_words

if TYPE_CHECKING:
    from argparse import ArgumentParser, Namespace
    from collections.abc import Sequence

    from ..shapes import Row

EXAMPLE = """mpplan pool model.txt trace.csv --node desk --agents 8..15 --within 20
         mpplan pool model.txt trace.csv --node desk --agents 12 --out pooled.csv --out-model pooled.txt
         mpplan pool model.txt trace.csv --node desk --roster roster.csv --patience exp:240s --seed 7 --first service
         mpplan pool --report jobs.txt --node desk --within 20"""


def words(parser: ArgumentParser) -> None:
    """Declares the arguments of `mpplan pool`."""
    parser.add_argument("model", nargs="?", help="a model with a server in the place of the pool")
    parser.add_argument("trace", nargs="?", help="its trace")
    parser.add_argument("--node", required=True, metavar="NAME", help="the server to replace by the pool; with --report, the pool")
    says = "number of agents who share the queue: 12, or 8..15 for a row each, or by the time of day: 8:00=3,10:00=5,18:00=0"
    parser.add_argument("--agents", metavar="C", help=says)
    roster_words(parser)
    says = "nodes of the pool: a delay and a trunk group (trunk, the default), or a server per agent (agents); "
    says += "weekday: rows per weekday in the table per interval"
    parser.add_argument("--by", choices=["trunk", "agents", "weekday"], default="trunk", help=says)
    parser.add_argument("--out", metavar="FILE", help="write the trace, with the agent and the wait of each call as columns")
    parser.add_argument("--out-model", metavar="FILE", help="write the model with the pool")
    parser.add_argument("--report", metavar="FILE", help="read this report of a pool, written with --jobs, instead of running a model and a trace")
    figure_words(parser)
    table_words(parser)


def numbers_of(text: str, option: str = "--agents") -> range:
    """Returns the numbers (range) in `12` or `8..15`, the value of an option (str). Raises ValueError for another text."""
    found = re.fullmatch(r"([1-9]\d{0,5})(?:\.\.([1-9]\d{0,5}))?", text)
    if not found or int(found[2] or found[1]) < int(found[1]):
        raise ValueError(f"{option} {text}: expected a number such as 12, or a rising range such as 8..15")
    return range(int(found[1]), int(found[2] or found[1]) + 1)


def main(args: Namespace) -> None:
    """Runs `mpplan pool`."""
    mixed: str | None = None
    resolve_within(args, text_of(args.model) if args.model else None)
    within, percents = args.within or (20,), args.percentile or PERCENTS
    if asks_for_group(args):
        rows = rows_of_group(args)
    elif args.report:
        rows = _of_report(args, within, percents)
    else:
        rows, mixed = _of_agents(args, within, percents)
    write_table(rows, args.format, args.csv_style)
    if mixed:
        say(f"{mixed}; --every gives each")


def _of_report(args: Namespace, within: Sequence[int], percents: Sequence[float]) -> list[Row]:
    if args.model or args.agents or args.out or args.out_model:
        raise ValueError("--report reads a pool that has been run: give no model, trace, --agents, --out or --out-model with it")
    report = Report.read(args.report)
    if not report.has_visits:
        raise ValueError(f"{args.report}: the report has no job lines: run mpsim with --jobs")
    visits = pooled(report, args.node)
    return [["node", *heads(within, percents)], [args.node, *figures(visits.raw_wait, within, percents)]]


def _of_agents(args: Namespace, within: Sequence[int], percents: Sequence[float]) -> tuple[list[Row], str | None]:
    if not args.model or not args.trace or not args.agents:
        raise ValueError("give a model, a trace and --agents, or --report")
    agents = numbers_of(args.agents)
    if (args.out or args.out_model) and len(agents) > 1:
        raise ValueError(f"--agents {args.agents}: --out and --out-model need one number of agents")
    judge_outputs([args.out, args.out_model], {"model": [args.model], "trace": [args.trace]})
    queue = Queue(args.model, Trace.read(args.trace), args.node)
    rows = []
    with Progress(len(agents) + 1, "runs") as progress:
        for row in staffing(queue, agents, within, percents, args.by):
            rows.append(row)
            progress(len(rows))
    if args.out or args.out_model:
        model, trace = queue.with_pool(agents[0], args.by)
        with all_written(args.out, args.out_model) as (out, out_model):
            if out:
                out.writelines(trace.texts())
            if out_model:
                out_model.write(model)
    warn_of_idle_calls(queue)
    every_source = queue.trace.sources()
    return rows, together({args.node: [every_source[job - 1] for job in queue.jobs]})
