"""What `mpplan validate --log` does."""

from __future__ import annotations

from typing import TYPE_CHECKING, Any

from ..exports.codes import codes_in
from ..exports.prepare import passages
from ..runs import run
from ..tables.passages import HEADS, Limits, of_log, of_model, places_of, rows_of, shifts_of, unmatched, verdict
from ..tables.sheets import write_table
from ..times.texts import given
from ..traces.trace import Trace, locating_errors
from .messages import say
from .options import calendar_of
from .prepare import recipe_options

if TYPE_CHECKING:
    from argparse import ArgumentParser, Namespace

LIMITS = Limits()
# The options of `mpplan validate` that are only for waits, and only for a log.
WAITS = ("node", "agents", "roster", "queue", "first", "then", "choose", "patience", "seed", "wait", "abandoned", "within", "by", "page")
WAITS_TRUST = "trust_overall", "trust_interval"
OWN = "recipe", "product", "per", "trust_lead", "trust_station", "trust_shift", "trust_units"


def log_words(parser: ArgumentParser) -> None:
    """Declares the arguments of `mpplan validate` for a log."""
    add = parser.add_argument_group("compare with an event log, in place of waits").add_argument
    add("--log", metavar="FILE", help="an event log of the line, as mpplan prepare --unit reads it")
    add("--recipe", metavar="FILE", help="the options of mpplan prepare for the log, as a TOML file")
    add("--product", metavar="COLUMN", help="a code of the trace, by whose words lead times are compared")
    says = "what throughput is counted per: shift (a stretch of working time), day or hour; default: shift if the model counts working time, else day"
    add("--per", choices=["shift", "day", "hour"], help=says)
    for name, what in ("lead", "lead times"), ("station", "times in stations"), ("shift", "units per shift"):
        says = f"trust a model whose {what} differ by at most this many percent (default: {100 * getattr(LIMITS, name):g})"
        add(f"--trust-{name}", metavar="PERCENT", help=says)
    says = f"judge products, stations and shifts with at least this many units (default: {LIMITS.units})"
    add("--trust-units", type=int, metavar="N", help=says)


def judge_words(args: Namespace) -> None:
    """Raises ValueError for arguments that don't go together."""
    if args.log is None:
        for name in OWN:
            if getattr(args, name) is not None:
                raise ValueError(f"--{name.replace('_', '-')} requires --log")
        if args.node is None:
            raise ValueError("give --node, or --log with an event log")
        if args.wait is None:
            raise ValueError("--wait is missing: the column with the recorded waits")
        return
    for name in (*WAITS, *WAITS_TRUST):
        if getattr(args, name, None) not in (None, []):
            raise ValueError(f"--{name.replace('_', '-')} can't be used with --log")
    if args.recipe is None:
        raise ValueError("--log requires --recipe: the options with which mpplan prepare reads the log")
    if args.trust_units is not None and args.trust_units < 1:
        raise ValueError(f"--trust-units {args.trust_units}: expected a number of units, 1 or more")


def _percent(text: str) -> float:
    try:
        value = float(text)
    except ValueError:
        value = -1
    if not 0 <= value <= 1000:
        raise ValueError("expected a percentage from 0 to 1000")
    return value / 100


def _limits_of(args: Namespace) -> Limits:
    def share(name: str, least: float) -> float:
        text = getattr(args, f"trust_{name}")
        return least if text is None else given(f"--trust-{name}", _percent, text)

    units = LIMITS.units if args.trust_units is None else args.trust_units
    return Limits(share("lead", LIMITS.lead), share("station", LIMITS.station), share("shift", LIMITS.shift), units)


def validate_log(args: Namespace, text: str) -> None:
    """Compares a log with a model, given its text."""
    limits, days, trace = _limits_of(args), calendar_of(args, text), Trace.read(args.trace)
    # Of the model, only the comments and the sources: it may name columns that the log doesn't have, such as those of pools.
    front = "\n".join(line for line in text.split("\n") if line.split()[:1] in (["model"], ["source"]) or line.lstrip().startswith("#"))
    options: dict[str, Any] = {**recipe_options(args.recipe), "model": front}
    units, place, told = passages(args.log, **options)
    is_in_ticks = options.get("format") == "ticks"
    if not is_in_ticks and not days.is_dated:
        raise ValueError(f"{args.model}: it doesn't say when time 0 is: give --start")
    if not is_in_ticks and place.name != days.place.name:
        raise ValueError(
            f"the log is read in the zone {place.name or 'of a clock that never changes'}, but the model has {days.place.name or 'none'}"
        )
    counts = [str(it) if it else "all hours" for it in (place.working, days.working)]
    if not is_in_ticks and counts[0] != counts[1]:
        raise ValueError(f"the log counts working time ({counts[0]}), but the model counts {counts[1]}: make both with one --calendar")
    with locating_errors(trace, model=args.model):
        report = run(text.encode(errors="surrogateescape"), trace.lines(), jobs=True)
    places = places_of(text)
    names = {number: word for word, number in codes_in(text).get(args.product or "", {}).items()}
    if args.product is not None and args.product not in trace.header[2:]:
        raise ValueError(f"--product {args.product}: no such column in {args.trace}; it has {', '.join(trace.header[2:])}")
    if args.product is not None and units and args.product not in units[0].codes:
        raise ValueError(f"--product {args.product}: the recipe has no code of this name")
    zero, tick = (0, 1) if is_in_ticks else (place.counted(days.begin), days.tick)
    log = of_log(units, places, zero, tick, names, args.product)
    model = of_model(report, places, trace, names, args.product)
    by = args.per or ("shift" if days.working else "day")
    if by == "shift" and not days.working:
        raise ValueError("--per shift: the model doesn't count working time, so it has no shifts: give --per day")
    rows = rows_of(log, model, shifts_of(days, max([*log.left, *model.left], default=0), by))
    for line in [*told, *unmatched(units, places, text), verdict(rows, limits), "the log is read beside the proved programs: tested, not proved"]:
        say(line)
    write_table([HEADS, *rows], args.format, args.csv_style)
