"""The command `mpplan page`: makes an HTML page from existing reports."""

from __future__ import annotations

from datetime import datetime
from typing import TYPE_CHECKING, Optional, TypedDict

from .. import page
from ..agents.pools import pool_lines
from ..files import judge_outputs, text_of, written
from ..page.network import unlike
from ..sweeps.plans import labels_of
from ..sweeps.results import Sweep, load
from ..times.calendar import Calendar, settings_in
from ..times.texts import SECOND, given, moment
from ..wording import counted
from .messages import say
from .options import calendar_of, calendar_words, calendar_words_in, resolve_within, within_word

if TYPE_CHECKING:
    from argparse import ArgumentParser, Namespace
    from collections.abc import Iterable

    from ..report import Report

EXAMPLE = "mpplan page jobs.txt --model model.txt --out run.html"


def words(parser: ArgumentParser) -> None:
    """Declares the arguments of `mpplan page`."""
    says = "a report of mpsim or a sweep of mpsweep; with job lines (--jobs) the page has waits"
    parser.add_argument("reports", metavar="REPORT", nargs="+", help=says)
    says = "the model, to draw the network: one for all reports, or one per report"
    parser.add_argument("--model", action="append", default=[], metavar="FILE", help=says)
    parser.add_argument("--out", metavar="FILE", required=True, help="the page; if the name ends in .svg, a drawing of the first report's network")
    parser.add_argument("--title", metavar="TEXT", help="title of the page; default: the name of the report")
    within_word(parser, "also show the share served within")
    hour_word(parser)
    calendar_words(parser)


def hour_word(parser: ArgumentParser) -> None:
    """Declares the argument that chooses the jobs of a page."""
    says = "show the single jobs of the hour that begins at this time: a date with a time, or a number of ticks; default: when most jobs come"
    parser.add_argument("--hour", metavar="TIME", help=says)


def hour_of(args: Namespace, text: str | None) -> int | None:
    """Returns the tick (int, or None) of --hour, by a command's arguments and a model's text (str or None)."""
    if args.hour is None:
        return None
    tick = int(args.hour) if args.hour.isascii() and args.hour.isdigit() else given("--hour", calendar_of(args, text).tick_of_date, args.hour)
    if tick < 0:
        raise ValueError(f"--hour {args.hour}: it is before time 0")
    return tick


class Axes(TypedDict, total=False):
    """The options of a page that give its axes times of day: the seconds per tick, the wall-clock time of time 0, and the Calendar if ticks count
    working time."""

    tick: float
    start: Optional[datetime]
    working: Optional[Calendar]


def axes(args: Namespace, text: str | None) -> Axes:
    """Returns the options of a page given by a command's arguments and a model's text (str or None). Empty if nothing gives the length of a tick and
    no argument needs it."""
    tick, start, _ = settings_in(text or "")
    if not (tick or calendar_words_in(args)):
        return {}
    days = calendar_of(args, text)
    return {"tick": days.tick / SECOND, "start": moment(days.wall(0)) if args.start or start else None, "working": days if days.working else None}


def _labelled(path: str, name: str) -> list[tuple[str, Report]]:
    """Yields pairs of a label and a report in a file: the label is the file's name, followed in a sweep by the number of the scenario."""
    loaded = load(path)
    return [(f"{name} {label}", it) for label, it in loaded.reports().items()] if isinstance(loaded, Sweep) else [(name, loaded)]


def _models(args: Namespace) -> list[str | None]:
    """Returns the model's text (str or None) for each report file. Raises ValueError unless there is one model, or one per report."""
    texts: list[str | None] = [text_of(item) for item in args.model] or [None]
    if len(texts) not in (1, len(args.reports)):
        raise ValueError(f"{len(texts)} models for {counted(len(args.reports), 'report')}: give --model once, or once per report")
    return texts * len(args.reports) if len(texts) == 1 else texts


def print_pools(reports: Iterable[Report]) -> None:
    """Prints which nodes of reports the page shows as pools."""
    for line in pool_lines(reports, lacks=True):
        say(line)


def main(args: Namespace) -> None:
    """Runs `mpplan page`."""
    judge_outputs([args.out], {"report": args.reports, "model": args.model})
    texts, labelled = _models(args), []
    resolve_within(args, texts[0])
    for at, (path, name) in enumerate(zip(args.reports, labels_of(args.reports))):
        for label, report in _labelled(path, name):
            try:
                report.model = texts[at]
            except ValueError as error:
                raise ValueError(f"{args.model[min(at, len(args.model) - 1)]}: {error}") from None
            if texts[at] is not None and (other := unlike(report)):
                words = "and its box shows the text of the model; give --model once per report"
                say(f"warning: {other} of {label} doesn't have the number of servers of the model, {words}")
            labelled.append((label, report))
    times, hour = axes(args, texts[0]), hour_of(args, texts[0])
    if args.out.endswith(".svg"):
        with written(args.out) as file:
            file.write(page.drawing(labelled[0][1]))
        return
    labels = [label for label, _ in labelled]
    title = args.title or (labels[0] if len(labels) == 1 else None)
    page.save(args.out, [it for _, it in labelled], labels, title, within=args.within, hour=hour, **times)
    print_pools([it for _, it in labelled])
