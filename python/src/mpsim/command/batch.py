"""The command `mpplan batch`."""

from __future__ import annotations

from typing import TYPE_CHECKING

from ..files import all_written, judge_outputs, text_of
from ..limits import GREATEST_VALUE
from ..stations.batches import Collecting, Oven
from ..stations.ticks import ticks_in
from ..tables.sheets import write_table
from ..tables.stations import ovens
from ..times.texts import given
from ..traces.trace import Trace
from .messages import say
from .options import calendar_of, calendar_words, positive, table_words
from .pool import numbers_of

if TYPE_CHECKING:
    from argparse import ArgumentParser, Namespace

    from ..times.calendar import Calendar

EXAMPLE = """mpplan batch model.txt trace.csv --node oven --size 10 --time 330s --wait-at-most 20min
         mpplan batch model.txt trace.csv --node oven --size 6..12 --time 330 --ovens 2 --last-batch
         mpplan batch model.txt trace.csv --node oven --size 10 --time 330s --last-batch --out batched.csv --out-model batched.txt"""


def words(parser: ArgumentParser) -> None:
    """Declares the arguments of `mpplan batch`."""
    parser.add_argument("model", help="a model with a server or a delay in the place of the oven")
    parser.add_argument("trace", help="its trace")
    parser.add_argument("--node", required=True, metavar="NAME", help="the server or the delay to replace by the oven")
    parser.add_argument("--size", required=True, metavar="N", help="units in a full batch: 10, or 6..12 for a row each")
    says = "how long the oven takes for a batch: a number of ticks, or a time such as 330s; default: the fixed service time of the node"
    parser.add_argument("--time", metavar="TIME", help=says)
    says = "a batch that isn't full begins once its first unit has waited this long and an oven is empty; default: only full batches begin"
    parser.add_argument("--wait-at-most", metavar="TIME", help=says)
    parser.add_argument("--ovens", type=positive, default=1, metavar="N", help="number of ovens, each with its own batch; default: 1")
    says = "units left at the end, too few for a batch, begin when the last of them has arrived"
    parser.add_argument("--last-batch", action="store_true", help=says)
    calendar_words(parser)
    parser.add_argument("--out", metavar="FILE", help="write the trace, with the batch and the wait of each unit as columns")
    parser.add_argument("--out-model", metavar="FILE", help="write the model with the oven")
    table_words(parser)


def main(args: Namespace) -> None:
    """Runs `mpplan batch`."""
    sizes = numbers_of(args.size, "--size")
    if (args.out or args.out_model) and len(sizes) > 1:
        raise ValueError(f"--size {args.size}: --out and --out-model need one size")
    judge_outputs([args.out, args.out_model], {"model": [args.model], "trace": [args.trace]})
    text = text_of(args.model)

    def days() -> Calendar:
        return calendar_of(args, text, "--tick")

    units = Collecting(text, Trace.read(args.trace), args.node)
    if not args.time and not units.demand.startswith("="):
        raise ValueError(f"give --time: the service time of {args.node} is the column {units.demand}, and a batch has one time")
    ticks = given("--time", lambda it: ticks_in(it, days, 0), args.time or units.demand[1:])
    limit = given("--wait-at-most", lambda it: ticks_in(it, days, 0), args.wait_at_most) if args.wait_at_most else None
    if ticks > GREATEST_VALUE:
        raise ValueError(f"--time {args.time}: above the limit of {GREATEST_VALUE} ticks")
    made = [(oven, units.batched(oven)) for oven in (Oven(size, ticks, args.ovens, limit, args.last_batch) for size in sizes)]
    with all_written(args.out, args.out_model) as (out, out_model):
        if out:
            out.writelines(made[0][1].trace.texts())
        if out_model:
            out_model.write(made[0][1].model)
    write_table(ovens(args.node, made), args.format, args.csv_style)
    say("batches are worked out beside the proved programs: tested, not proved")
