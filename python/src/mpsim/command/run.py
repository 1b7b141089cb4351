"""The command `mpplan run`: runs a model and prints its report, warns about times that look like clocks, and can write a page. Long traces are run in
pieces."""

from __future__ import annotations

import os
from typing import TYPE_CHECKING

from ..exports.streams import Stream
from ..files import judge_outputs, text_of, written
from ..limits import RECORDS
from ..runs import run
from ..sweeps.pieces import naming, pieces
from ..traces.trace import looks_of
from ..wording import counted
from .messages import say
from .options import calendar_words, calendar_words_in
from .page import axes, hour_of, hour_word, print_pools

if TYPE_CHECKING:
    from argparse import ArgumentParser, Namespace

    from ..report import Report

EXAMPLE = "mpplan run model.txt trace.csv --page run.html --tick 1s"


def words(parser: ArgumentParser) -> None:
    """Declares the arguments of `mpplan run`."""
    parser.add_argument("model", help="a model")
    parser.add_argument("trace", help="its trace")
    parser.add_argument("--jobs", action="store_true", help="include the job lines in the report")
    says = "run a trace of any length, also a packed one, in pieces cut where the network is empty, and put their reports together"
    parser.add_argument("--pieces", action="store_true", help=says)
    says = f"with --pieces: the most records of a piece, up to {RECORDS:,} (the default)"
    parser.add_argument("--records", type=int, metavar="N", help=says)
    says = "with --pieces: if the network is never empty, cut where the fewest jobs are inside; the report is then not exact"
    parser.add_argument("--cut-anyway", action="store_true", help=says)
    parser.add_argument("--page", metavar="FILE", help="also write an HTML page; if the tick is known, its axes show times of day")
    hour_word(parser)
    calendar_words(parser)


def main(args: Namespace) -> None:
    """Runs `mpplan run`."""
    judge_outputs([args.page], {"model": [args.model], "trace": [args.trace]})
    for word in [*calendar_words_in(args), *(["--hour"] if args.hour else [])] if not args.page else ():
        raise ValueError(f"{word} requires --page")
    _judge_pieces(args)
    # Checked before a run that may be long, if the model can be read twice.
    if args.page and os.path.isfile(args.model):
        text = text_of(args.model)
        axes(args, text), hour_of(args, text)
    looks = looks_of(args.trace)
    if looks:
        say(f"warning: {args.trace}: its times look like {looks}, but are read as ticks: mpplan prepare converts them")
    report = _in_pieces(args) if args.pieces else run(args.model, args.trace, jobs=bool(args.jobs or args.page))
    times, hour = (axes(args, report.model), hour_of(args, report.model)) if args.page else ({}, None)
    with written() as file:
        file.writelines(report.lines(jobs=args.jobs))
    if args.page:
        report.save(args.page, title=os.path.basename(args.trace), hour=hour, **times)
        print_pools([report])


def _judge_pieces(args: Namespace) -> None:
    """Raises ValueError for options that can't be combined."""
    for word, value in ("--records", args.records), ("--cut-anyway", args.cut_anyway):
        if value not in (None, False) and not args.pieces:
            raise ValueError(f"{word} requires --pieces")
    if args.jobs and args.pieces:
        raise ValueError("--jobs can't be combined with --pieces: the report of pieces has no job lines")
    if args.records is not None and not 1 <= args.records <= RECORDS:
        raise ValueError(f"--records {args.records}: a piece has 1 to {RECORDS:,} records")


def _in_pieces(args: Namespace) -> Report:
    """Runs a trace in pieces, prints what they are, and returns their report."""
    with naming(args.model, args.trace), Stream(args.trace) as stream:
        report, found = pieces(text_of(args.model), stream.lines(), args.records or RECORDS, args.cut_anyway)
    sizes = [piece.records for piece in found]
    size = f"{min(sizes):,} to {max(sizes):,}" if len(sizes) > 1 else f"{sizes[0]:,}"
    say(
        f"{counted(len(found), 'piece')} of {size} records: each is run by the proved program, "
        "and putting their reports together is tested, not proved"
    )
    inside = [piece.inside for piece in found if piece.inside]
    if inside:
        many = f"{sum(inside):,} jobs" if sum(inside) > 1 else "1 job"
        where = f"after {len(inside):,} of {counted(len(found), 'piece')}"
        say(f"warning: not exact: {where} {many} in all, at most {max(inside):,} at once, are still inside, and the next piece begins without them")
    return report
