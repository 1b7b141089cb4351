"""The command `mpplan sweep`: runs many variants of a model over one or more traces, here or on other machines, and makes one table."""

from __future__ import annotations

import os
import shlex
from functools import partial
from typing import TYPE_CHECKING

from ..agents.pools import PoolLines
from ..errors import Error
from ..files import judge_outputs, written
from ..parallel import in_order
from ..progress import Progress
from ..stations.columns import made_warning, worked_warning
from ..sweeps.local import label_of, pools_again, scenarios_in, shares_of
from ..sweeps.plans import Plan, files_of, sets_of
from ..sweeps.results import Sweep
from ..sweeps.shards import Folder, gather, one_line, rows_of, run_shard
from ..tables.sheets import Writer
from ..traces.trace import header_of
from .machines import by_parallel, by_slurm
from .messages import say
from .options import positive, resolve_within, style_words, within_word

if TYPE_CHECKING:
    from argparse import ArgumentParser, Namespace
    from collections.abc import Iterable, Iterator, Mapping, Sequence

    from ..sweeps.plans import TraceFile
    from ..sweeps.results import Scenario

EXAMPLE = """mpplan sweep model.txt trace.csv --set agents=20..40 --page sweep.html >table.csv
         mpplan sweep model.txt monday.csv --trace tuesday.csv --set agents=20..40 --folder sweep --parallel='--jobs 4' >table.csv
         mpplan sweep --folder sweep --resume >table.csv"""


def words(parser: ArgumentParser) -> None:
    """Declares the arguments of `mpplan sweep`."""
    parser.add_argument("model", nargs="?", help="a model in which {NAME} is replaced by a value of --set")
    parser.add_argument("trace", nargs="?", help="its trace")
    ranges = "values of NAME: a range (20..40), a range with a step (20..40..5) or a list (1,2,5); several --set run every combination"
    parser.add_argument("--set", action="append", default=[], metavar="NAME=VALUES", help=ranges)
    says = "further models, or a pattern such as variants/*.txt"
    parser.add_argument("--model", dest="models", action="extend", nargs="+", default=[], metavar="FILE", help=says)
    says = "further traces, or a pattern such as days/*.csv"
    parser.add_argument("--trace", dest="traces", action="extend", nargs="+", default=[], metavar="FILE", help=says)
    alone = "only rows of this node or pool; may be repeated; --folder stores it with the sweep"
    parser.add_argument("--node", action="append", default=[], metavar="NAME", help=alone)
    within_word(parser, "takes longer: add two columns with the share served within")
    parser.add_argument("--jobs", type=positive, default=1, metavar="N", help="run this many calls of mpsweep at once, here; default: 1")
    parser.add_argument("--page", metavar="FILE", help="also write an HTML page with curves over the values")
    style_words(parser)
    folder = parser.add_argument_group("sweeps of any size, on any machines")
    folder.add_argument("--folder", metavar="FOLDER", help="keep the sweep in this directory, cut into shards of up to 64 models")
    says = "run the shards with GNU parallel, e.g. --parallel='--sshlogin a,b --jobs 4'"
    folder.add_argument("--parallel", metavar="OPTIONS", nargs="?", const="", help=says)
    folder.add_argument("--slurm", metavar="OPTIONS", nargs="?", const="", help="run the shards as a Slurm array, with these options of sbatch")
    folder.add_argument("--resume", action="store_true", help="continue the sweep of --folder: run the shards that are missing or damaged")
    folder.add_argument("--table", action="store_true", help="run nothing; write the table of the shards that are done")
    folder.add_argument("--shard", type=int, metavar="N", help="run one shard, and write no table")


def _judged(args: Namespace) -> None:
    """Raises ValueError for arguments that exclude each other."""
    goes_on = args.resume or args.table or args.shard is not None
    if args.folder is None and (goes_on or args.parallel is not None or args.slurm is not None):
        raise ValueError("--parallel, --slurm, --resume, --table and --shard require --folder")
    if args.folder is not None and (args.page or args.within is not None):
        raise ValueError("--page and --within can't be used with --folder: they are made from what memory holds")
    if goes_on and (args.model or args.set or args.models or args.traces):
        raise ValueError(f"{args.folder} already has its models, values and traces: give none with --resume, --table or --shard")
    if args.jobs > 1 and (args.parallel is not None or args.slurm is not None or args.table or args.shard is not None):
        raise ValueError("--jobs can't be used with --parallel, --slurm, --table or --shard")
    if args.parallel is not None and args.slurm is not None:
        raise ValueError("--parallel and --slurm exclude each other: give one of them")


def _plan(args: Namespace) -> Plan:
    models, traces = ([item] if item else [] for item in (args.model, args.trace))
    models, traces = files_of([*models, *args.models]), files_of([*traces, *args.traces])
    judge_outputs([args.page], {"model": models, "trace": traces})
    plan = Plan.of(models, sets_of(args.set), traces, args.node)
    for trace in plan.traces:
        warn = made_warning
        if again := pools_again(plan, trace):
            if args.folder is not None:
                names = " and ".join(again)
                why = f"{trace['path']} holds the waits at {names} for one number of agents, and the models have several"
                raise ValueError(f"{why}: without --folder they are worked out again for each")
            say(f"the waits at {' and '.join(again)} are worked out again for each number of agents")
            warn = worked_warning
        if warning := warn(trace["path"], header_of(trace["path"])):
            say(warning)
    return plan


def _print_pools(pool_notes: PoolLines, how: str) -> None:
    """Prints what was collected about pools (PoolLines), and how to get their missing figures."""
    for line in [*pool_notes.lines(), *pool_notes.lacks(how)]:
        say(line)


def _in_memory(args: Namespace) -> int:
    """Runs one shard after another. Rows are written as they come; reports are kept only for a page."""
    plan, kept, refused, pool_notes = _plan(args), Sweep(), False, PoolLines(args.node)
    for _, text in plan.models:
        resolve_within(args, text)
    head = plan.head()
    if args.within is not None:
        head[-1:-1] = [f"within_{args.within}_of_all", f"within_{args.within}_of_departed"]
    with written() as file, Progress(plan.scenarios, "scenarios") as progress:
        writer, done = Writer(file, args.csv_style), 0
        again = {trace["path"] for trace in plan.traces if pools_again(plan, trace)}
        writer.writerow(head)

        def piece(trace: TraceFile, models: range) -> Iterator[tuple[TraceFile, int, Scenario]]:
            return ((trace, at, it) for at, it in scenarios_in(plan, trace, models, args.within is not None, again))

        tasks = (partial(piece, trace, models) for trace, models in plan.pieces(args.jobs))
        for trace, at, it in in_order(tasks, args.jobs):
            found = rows_of(plan, trace, at, it, pool_notes, args.node)
            if args.within is not None:
                shares = list(shares_of(it.report, args.within, args.node)) if it.report is not None else [[None, None]]
                found = [[*row[:-1], *both, row[-1]] for row, both in zip(found, shares)]
            writer.writerows(found)
            refused, done = refused or it.status != 0, done + 1
            if args.page:
                kept[label_of(plan, trace, at)] = it
            progress(done)
    _print_pools(pool_notes, "give mpplan sweep --within")
    if args.page:
        kept.save(args.page, title=" ".join(args.set) or None, within=args.within)
    return 11 if refused else 0


def _cleared(folder: Folder) -> None:
    """Removes damaged shards, so that they run again, and what killed runs on this machine left behind."""
    for shard in range(1, folder.plan.shards + 1):
        try:
            folder.text(shard)
        except FileNotFoundError:
            pass
        except ValueError as error:
            say(f"{error}; it is run again")
            os.unlink(folder.file(shard))
    for path in folder.parts():
        if folder.is_left(path):
            os.unlink(path)


def _here(folder: Folder, lacking: Sequence[int], jobs: int) -> None:
    """Runs the shards, this many at once. If one fails, the others still run."""

    def attempt(shard: int) -> list[str | None]:
        try:
            run_shard(folder, shard)
        except (Error, OSError, ValueError) as error:
            return [f"shard {shard}: {one_line(error)}"]
        return [None]

    with Progress(len(lacking), "shards") as progress:
        progress(0)
        for done, failure in enumerate(in_order((partial(attempt, shard) for shard in lacking), jobs), 1):
            if failure:
                say(failure)
            progress(done)


def _run(args: Namespace, folder: Folder) -> None:
    if args.resume:
        _cleared(folder)
    lacking = folder.lacking()
    say(f"{folder.plan.scenarios:,} scenarios in {folder.plan.shards:,} shards, {len(lacking):,} to run")
    if lacking and args.parallel is not None:
        by_parallel(folder, lacking, shlex.split(args.parallel))
    elif lacking and args.slurm is not None:
        by_slurm(folder, lacking, shlex.split(args.slurm))
    else:
        _here(folder, lacking, args.jobs)


def ranges(numbers: Iterable[int], most: int = 20) -> str:
    """Returns rising numbers as text, such as "1-3, 7" for 1, 2, 3 and 7, in at most this many pieces."""
    pieces: list[list[int]] = []
    for number in numbers:
        if pieces and pieces[-1][1] == number - 1:
            pieces[-1][1] = number
        else:
            pieces.append([number, number])
    text = ", ".join(f"{first}-{last}" if first < last else str(first) for first, last in pieces[:most])
    return text + (f" and {len(pieces) - most} more" if len(pieces) > most else "")


def _print_missing(folder: Folder, damaged: Mapping[int, str]) -> int:
    """Prints which shards are missing from the table, and why. Returns their number."""
    whys: dict[str, list[int]] = {}
    for shard in sorted({*folder.lacking(), *damaged}):
        why = damaged.get(shard, "it left nothing: not started, or killed, or its disk was full, or its machine disappeared")
        if shard not in damaged and os.path.exists(folder.failure(shard)):
            with open(folder.failure(shard), encoding="utf-8", errors="replace") as file:
                why = file.read().strip()
        whys.setdefault("damaged" if shard in damaged else why, []).append(shard)
    for why, listed in list(whys.items())[:20]:
        say(f"{'shards' if len(listed) > 1 else 'shard'} {ranges(listed)}: {why}")
    missing = sum(len(shards) for shards in whys.values())
    if missing:
        again = f"mpplan sweep --folder {shlex.quote(folder.path)} --resume"
        say(f"{missing:,} of {folder.plan.shards:,} shards are missing from the table: {again} runs them")
        parts = len(folder.parts())
        if parts:
            several = f"{parts:,} .part files belong to shards that are still running, or were killed"
            say(several if parts > 1 else "1 .part file belongs to a shard that is still running, or was killed")
    return missing


def _in_folder(args: Namespace) -> int:
    if args.resume or args.table or args.shard is not None:
        folder = Folder.read(args.folder)
        # A shard has no rows.
        if args.shard is None:
            folder.plan.judge_nodes(args.node)
    else:
        folder = Folder.begun(args.folder, _plan(args))
    if args.shard is not None:
        if not 1 <= args.shard <= folder.plan.shards:
            raise ValueError(f"--shard {args.shard}: {args.folder} has shards 1 to {folder.plan.shards}")
        # Slurm restarts a task whose machine disappeared: finished shards stay.
        if not os.path.exists(folder.file(args.shard)):
            run_shard(folder, args.shard)
        return 0
    if not args.table:
        _run(args, folder)
    nodes = args.node or folder.plan.nodes
    damaged: dict[int, str] = {}
    refused, status, pool_notes = False, folder.plan.head().index("status"), PoolLines(nodes)
    with written() as file:
        writer = Writer(file, args.csv_style)
        for at, row in enumerate(gather(folder, damaged, pool_notes, nodes)):
            writer.writerow(row)
            refused = refused or at > 0 and row[status] != 0
    _print_pools(pool_notes, "give mpplan sweep --within, without --folder")
    return 1 if _print_missing(folder, damaged) else 11 if refused else 0


def main(args: Namespace) -> int:
    """Runs `mpplan sweep`, and returns its status."""
    _judged(args)
    return _in_memory(args) if args.folder is None else _in_folder(args)
