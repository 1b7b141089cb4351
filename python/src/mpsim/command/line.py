"""The command `mpplan line`."""

from __future__ import annotations

from fractions import Fraction
from typing import TYPE_CHECKING

from ..builder import Model
from ..files import all_written, judge_outputs, text_of
from ..names import is_name
from ..runs import run
from ..stations.buffers import line_of, with_tandem, worked_out
from ..tables.sheets import write_table
from ..tables.stations import machines
from ..traces.trace import Trace
from .messages import say
from .options import table_words

if TYPE_CHECKING:
    from argparse import ArgumentParser, Namespace

    from ..stations.buffers import Line

EXAMPLE = """mpplan line cut 12 mill --from parts >model.txt
         mpplan line cut 8 mill 4 drill:=30 --from parts --count buffer --out-model model.txt
         mpplan line cut 12 mill 4 drill --from parts --trace trace.csv --out held.csv --out-model model.txt"""


def words(parser: ArgumentParser) -> None:
    """Declares the arguments of `mpplan line`."""
    says = "a machine, the places between it and the next machine, the next machine and so on; a machine is a column of service times, "
    parser.add_argument("line", nargs="+", metavar="WORD", help=f"{says}NAME:COLUMN, or NAME:=30 for 30 ticks each")
    says = "what feeds the line: a source, or with --model any output of a node; may be repeated"
    parser.add_argument("--from", action="append", required=True, metavar="INPUT", dest="inputs", help=says)
    says = "what a number of places counts: the part in work at the next machine too (places, the default), or only the buffer before it (buffer)"
    parser.add_argument("--count", choices=["places", "buffer"], default="places", help=says)
    parser.add_argument("--name", default="line", metavar="NAME", help="name of the tandem; default: line")
    parser.add_argument("--model", metavar="MODEL", help="add the line to this model; default: a new one with the sources of --from")
    says = "work the line out over this trace, for any number of machines and places: the model gets a server per machine"
    parser.add_argument("--trace", metavar="FILE", help=says)
    parser.add_argument("--out", metavar="FILE", help="with --trace, write the trace, with the time that a part spends at each machine as columns")
    parser.add_argument("--out-model", metavar="FILE", help="write the model here; default, without --trace: standard output")
    table_words(parser)


def _model_of(args: Namespace) -> Model:
    """Returns the model to which the line is added."""
    if args.model:
        return Model.parse(text_of(args.model))
    made = Model()
    for name in args.inputs:
        if not is_name(name):
            raise ValueError(f"--from {name}: without --model the line reads sources, whose names are like parts or line_2")
        made.source(name)
    return made


def main(args: Namespace) -> None:
    """Runs `mpplan line`."""
    if args.out and not args.trace:
        raise ValueError("--out needs --trace: a tandem has no columns of its own")
    if args.name != "line" and args.trace:
        raise ValueError("--name names a tandem; with --trace each machine is a server with its own name")
    if not args.trace and (args.format, args.csv_style) != ("csv", "plain"):
        raise ValueError("--format and --csv-style need --trace: without it the command writes a model, not a table")
    judge_outputs([args.out, args.out_model], {"model": [args.model], "trace": [args.trace]})
    besides = int(args.count == "buffer")
    line = line_of(args.line, besides)
    model = _model_of(args)
    if args.trace:
        _worked(args, line, model)
        return
    text = str(with_tandem(line, args.name, args.inputs, model, besides))
    run(text.encode(errors="surrogateescape"), [])
    with all_written(args.out_model) as (file,):
        if file:
            file.write(text)
    if not args.out_model:
        print(text, end="")
    for name, places in zip(line.names[1:], line.places):
        say(f"{name} has {places} places: 1 in work and {places - 1} before it")
    stages = text.splitlines()[-1].count("/") + 1
    if stages > len(line.names):
        say(f"util of {args.name} counts {stages} stages, {len(line.names)} of which work: multiply it by {Fraction(stages, len(line.names))}")


def _worked(args: Namespace, line: Line, model: Model) -> None:
    made = worked_out(line, args.inputs, str(model), Trace.read(args.trace))
    with all_written(args.out, args.out_model) as (out, out_model):
        if out:
            out.writelines(made.trace.texts())
        if out_model:
            out_model.write(made.model)
    write_table(machines(line, made), args.format, args.csv_style)
    say("blocked times are worked out beside the proved programs: tested, not proved")
