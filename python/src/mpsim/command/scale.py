"""The command `mpplan scale`."""

from __future__ import annotations

import re
from fractions import Fraction
from typing import TYPE_CHECKING

from ..files import judge_outputs, text_of, written
from ..limits import GREATEST_TIME, RECORDS
from ..stations.columns import made_warning
from ..times.calendar import settings_in
from ..times.texts import given, length
from ..traces.scale import count_of, means, scaled
from ..traces.trace import Trace
from ..wording import counted
from .messages import say
from .options import calendar_of, calendar_words, calendar_words_in

if TYPE_CHECKING:
    from argparse import ArgumentParser, Namespace

    from ..times.calendar import Calendar

EXAMPLE = """mpplan scale trace.csv --by 5/4 --shift 604800 --out more.csv
         mpplan scale trace.csv --by +12% --shift 7d --model model.txt --out more.csv"""


def words(parser: ArgumentParser) -> None:
    """Declares the arguments of `mpplan scale`."""
    parser.add_argument("trace", help="a trace")
    parser.add_argument("--by", required=True, metavar="K/N", help="factor for the load: 2, 3/2, 1.12, 112%% or +12%%")
    ways = parser.add_mutually_exclusive_group()
    says = "shift each copy by this many ticks, or by a time such as 7d, wrapping round at the end of the trace"
    ways.add_argument("--shift", metavar="TICKS", help=says)
    ways.add_argument("--times", action="store_true", help="make no copies: move the times closer together, or apart")
    ways.add_argument("--twins", action="store_true", help="copies arrive at the time of their record")
    parser.add_argument("--source", action="append", default=[], metavar="NAME", help="scale only this source; may be repeated")
    parser.add_argument("--out", metavar="FILE", help="write the scaled trace here; default: standard output")
    says = "a model whose comments give the tick, time 0 and the zone; a shift by whole days then keeps the time of day over a change of clocks"
    parser.add_argument("--model", metavar="FILE", help=says)
    calendar_words(parser)


def ratio(text: str) -> tuple[int, int]:
    """Returns the numbers (pair of int, without a common divisor unless the text has one) in `2`, `3/2`, `1.12`, `112%`, `+12%` or `-10%`. Raises
    ValueError for another text.

    >>> from mpsim.command.scale import ratio
    >>> ratio("3/2"), ratio("1.12"), ratio("+12%")
    ((3, 2), (28, 25), (28, 25))
    """
    found = re.fullmatch(r"([1-9]\d{0,5})(?:/([1-9]\d{0,5}))?", text)
    if found:
        return int(found[1]), int(found[2] or 1)
    found = re.fullmatch(r"(\d{1,3}(?:[.,]\d{1,5})?)|([+-]?)(\d{1,5}(?:[.,]\d{1,3})?)\s*%", text, re.ASCII)
    number = Fraction(0)
    if found and found[1]:
        number = Fraction(found[1].replace(",", "."))
    elif found:
        part = Fraction(found[3].replace(",", ".")) / 100
        number = {"": part, "+": 1 + part, "-": 1 - part}[found[2]]
    if number <= 0:
        raise ValueError(f"--by {text}: expected a factor above 0, such as 2, 3/2, 1.12, 112% or +12%")
    return number.numerator, number.denominator


def _shift_of(args: Namespace) -> tuple[int | None, Calendar | None]:
    """Returns the shift (int, ticks; None if none is given), and the Calendar by which copies keep their time of day (None if the shift isn't whole
    days, or if no zone is known and all time counts)."""
    text = text_of(args.model) if args.model else None
    known = bool(calendar_words_in(args)) or settings_in(text or "")[0] is not None
    if args.model and not known:
        raise ValueError(f"{args.model}: the model doesn't say what a tick is: give --tick and --start")
    days = calendar_of(args, text) if known else None
    if args.shift is None:
        return None, None
    if re.fullmatch(r"-?\d+", args.shift, re.ASCII):
        shift = int(args.shift)
    elif days is None:
        raise ValueError(f"--shift {args.shift}: expected a number of ticks; for a time, give --model, or --tick with --start and --zone")
    else:
        shift = given("--shift", length, args.shift) // days.tick
    if shift < 1:
        raise ValueError(f"--shift {args.shift}: expected a positive number of ticks, such as those of a day or a week")
    return shift, days if days and days.keeps_clock(shift * days.tick) else None


def main(args: Namespace) -> None:
    """Runs `mpplan scale`."""
    k, n = ratio(args.by)
    way = "times" if args.times else "shift" if args.shift is not None else "twins"
    if args.times and args.source:
        raise ValueError("--times and --source: the times of a single source would no longer fit the day of the others; use --shift")
    shift, days = _shift_of(args)
    if way == "twins" and not args.twins and k > n:
        raise ValueError(f"--by {args.by}: choose how: --shift TICKS (those of a day or a week), --times or --twins")
    judge_outputs([args.out], {"trace": [args.trace], "model": [args.model]})
    trace = Trace.read(args.trace)
    if (more := count_of(trace, k, n, way, args.source) - RECORDS) > 0:
        raise ValueError(f"--by {args.by}: {counted(more, 'record')} above the limit of {RECORDS}")
    made = scaled(trace, k, n, way, shift, args.source, days)
    if made.rows and (last := int(made.rows[-1][1])) > GREATEST_TIME:
        raise ValueError(f"--by {args.by}: the time {last} is above the limit of {GREATEST_TIME}")
    with written(args.out) as file:
        file.writelines(made.texts())
    if warning := made_warning(args.trace, trace.header):
        say(warning)
    say(f"{counted(len(made.rows), 'record')} (from {len(trace.rows):,}): {means(k, n, way, shift, args.source, days)}")
