"""Longer calls and other loads, as a command's arguments ask for them."""

from __future__ import annotations

from typing import TYPE_CHECKING

from ..model import nodes_of
from ..tables.grids import Copying, unchanged, with_longer
from ..times.texts import DAY, given, length
from .messages import say

if TYPE_CHECKING:
    from argparse import ArgumentParser, Namespace

    from ..times.calendar import Calendar
    from ..traces.trace import Trace


def add_word(parser: ArgumentParser) -> None:
    """Declares the argument that makes calls longer."""
    says = "make each service longer, e.g. handling=20s, or shorter: handling=-20s; also a column of the trace by its name"
    parser.add_argument("--add", action="append", default=[], metavar="WHAT=TIME", help=says)


def lengthened(args: Namespace, trace: Trace, model: str, tick: int) -> Trace:
    """Returns a trace with the changes of --add, for the server --node of a model's text (str), and a tick of this many nanoseconds. It prints how
    many calls of 0 ticks stay so."""
    demand = next((node.arguments for node in nodes_of(model) if node.name == args.node and node.kind == "server"), "")
    for text in args.add:
        name, mark, time = text.partition("=")
        sign, time = (-1, time[1:]) if time[:1] == "-" else (1, time.removeprefix("+"))
        if not mark or not name:
            raise ValueError(f"--add {text}: expected handling=20s, or a column and a time")
        column = demand if name == "handling" and name not in trace.header[2:] else name
        if column.startswith("="):
            raise ValueError(f"--add {text}: the service time of {args.node} is the same for all calls ({demand}): change it in the model")
        more = sign * (given(f"--add {name}", length, time) // tick)
        for line in unchanged(trace.numbers(column), more):
            say(f"--add {text}: {line}")
        trace = with_longer(trace, column, more)
    return trace


def copying_of(trace: Trace, days: Calendar, shift: str | None = None) -> Copying:
    """Returns the Copying by a length of time (str), by default a week, or a day for a trace of less than two weeks, for a Calendar."""
    times = trace.times()
    span = days.wall(max(times, default=0)) - days.wall(min(times, default=0))
    nanos = given("--shift", length, shift) if shift else 7 * DAY if span >= 13 * DAY else DAY
    if nanos < days.tick:
        raise ValueError(f"--shift {shift}: it is shorter than a tick")
    return Copying("shift", nanos // days.tick, days if days.keeps_clock(nanos) else None)
