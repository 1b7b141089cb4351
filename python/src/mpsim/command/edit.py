"""The command `mpplan edit`."""

from __future__ import annotations

import contextlib
from typing import TYPE_CHECKING

from ..files import all_written, judge_outputs, written
from ..progress import uncollected
from ..stations.columns import made_warning
from ..traces.edit import edited
from .messages import say

if TYPE_CHECKING:
    from argparse import ArgumentParser, Namespace

EXAMPLE = "mpplan edit trace.csv changes.csv --out edited.csv"


def words(parser: ArgumentParser) -> None:
    """Declares the arguments of `mpplan edit`."""
    parser.add_argument("trace", help="a trace")
    parser.add_argument("changes", help="CSV with a header of record and column names of the trace; or, with --model, edits for mpedit")
    judges = "check the changes against this model, which mpsim checks first; edits for mpedit need it for the order of their values"
    parser.add_argument("--model", metavar="MODEL", help=judges)
    parser.add_argument("--out", metavar="FILE", help="write the edited trace here; default: standard output")
    parser.add_argument("--edits", metavar="FILE", help="write the same changes as edits for mpedit; requires --model")


def main(args: Namespace) -> None:
    """Runs `mpplan edit`."""
    if args.edits and not args.model:
        raise ValueError("--edits requires --model, which has the order of their values")
    judge_outputs([args.out, args.edits], {"trace": [args.trace], "file of changes": [args.changes], "model": [args.model]})
    with uncollected(), all_written(args.edits, args.out) as (edits, out):
        made = edited(args.trace, args.changes, args.model)
        if edits:
            edits.writelines(made.edits())
        with contextlib.nullcontext(out) if out else written() as file:
            file.writelines(made.lines())
    if warning := made_warning(args.trace, made.trace.header):
        say(warning)
    for line in made.told:
        say(line)
    if args.edits and (names := made.unnamed()):
        say(f"{args.edits} leaves out the changes of {', '.join(names)}, which {args.model} doesn't name")
    say(made.counts())
