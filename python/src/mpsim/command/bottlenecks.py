"""The command `mpplan bottlenecks`."""

from __future__ import annotations

import re
from fractions import Fraction
from functools import partial
from typing import TYPE_CHECKING

from ..files import text_of
from ..model import columns
from ..parallel import in_order
from ..progress import Progress
from ..runs import run, scenarios
from ..stations.columns import ovens_in, worked_warning
from ..sweeps.investments import CAPACITY, SERVER, SERVICE, changes, traced
from ..tables.bottlenecks import FIGURES, UNITS, Trial, heads, per_of, read_costs, rows_of, worth
from ..tables.sheets import write_table
from ..times.calendar import settings_in, tick_of
from ..times.texts import given
from ..traces.trace import Trace, locating_errors
from ..wording import counted, listed
from .messages import say
from .options import positive, table_words

if TYPE_CHECKING:
    from argparse import ArgumentParser, Namespace
    from collections.abc import Iterator, Sequence

    from ..sweeps.investments import Change, Lack

EXAMPLE = """mpplan bottlenecks model.txt trace.csv >worth.csv
         mpplan bottlenecks model.txt trace.csv --service 10% --rank throughput --costs costs.csv --format md"""


def words(parser: ArgumentParser) -> None:
    """Declares the arguments of `mpplan bottlenecks`."""
    parser.add_argument("model", help="a model")
    parser.add_argument("trace", help="its trace; with pools, one that mpplan pool made")
    parser.add_argument("--service", default="10%", metavar="PERCENT", help="how much shorter each service gets; default: 10%%")
    says = f"the figure by which changes are in order: {', '.join(FIGURES)}; default: p90"
    parser.add_argument("--rank", choices=FIGURES, default="p90", metavar="FIGURE", help=says)
    says = f"what changes cost, as a CSV file station,change,cost; they are then in order of the gain per {UNITS:,} units of cost"
    parser.add_argument("--costs", metavar="FILE", help=says)
    parser.add_argument("--jobs", type=positive, default=1, metavar="N", help="run this many changes at once; default: 1")
    parser.add_argument(
        "--tick", metavar="LENGTH", help="length of a tick, e.g. 1s, for the throughput per hour; default: from the comments of the model"
    )
    table_words(parser)


def _percent(text: str) -> Fraction:
    found = re.fullmatch(r"(\d{1,2}(?:\.\d{1,4})?)\s*%?", text.strip(), re.ASCII)
    if not found or not Fraction(found[1]):
        raise ValueError("expected a percentage above 0% and below 100%, such as 10%")
    return Fraction(found[1])


def main(args: Namespace) -> int:
    """Runs `mpplan bottlenecks`, and returns its status."""
    percent = given("--service", _percent, args.service)
    text, trace = text_of(args.model), Trace.read(args.trace)
    if warning := worked_warning(args.trace, ["source", "time", *columns(text)]):
        raise ValueError(f"{warning.removeprefix('warning: ')}: give the model and the trace before that")
    # The model reads how long units wait for their batches, but not the numbers of these.
    if ovens := ovens_in(text):
        raise ValueError(f"{args.model}: the batches at {' and '.join(ovens)} hold only for this trace: give the model and the trace before that")
    tick = given("--tick", tick_of, args.tick) if args.tick else settings_in(text)[0]
    unit, per = per_of(tick)
    with locating_errors(trace, model=args.model):
        times = trace.times()
        base = worth(run(text.encode(errors="surrogateescape"), trace.lines(), jobs=True), times, per)
    found, lacks = changes(text, trace, percent)
    stations = list(dict.fromkeys([*(it.station for it in found), *(it.station for it in lacks)]))
    costs = read_costs(args.costs, stations) if args.costs else None

    def attempt(change: Change) -> Iterator[Trial]:
        return _trials(change, trace, percent, times, per)

    with Progress(len(found), "changes") as progress:
        trials = []
        for trial in in_order((partial(attempt, it) for it in found), args.jobs):
            trials.append(trial)
            progress(len(trials))
    write_table([heads(unit, costs is not None), *rows_of(base, trials, args.rank, costs)], args.format, args.csv_style)
    for line in [*_uneven(found, percent), *_without(lacks)]:
        say(line)
    if costs is not None and (free := [it for it in trials if (it.station, it.what) not in costs and ("*", it.what) not in costs]):
        say(f"{counted(len(free), 'change')} without a cost: {listed([f'{it.station} {it.what}' for it in free])}")
    say("changes are made beside the proved programs, which run them: tested, not proved")
    return 11 if any(it.refusal for it in trials) else 0


def _trials(change: Change, trace: Trace, percent: Fraction, times: Sequence[int], per: int) -> Iterator[Trial]:
    """Yields the Trial of a change."""
    mine = traced(change, trace, percent)
    for scenario in scenarios(mine.lines(), {change.station: change.model.encode(errors="surrogateescape")}, jobs=True):
        found = worth(scenario.report, times, per) if scenario.report is not None else None
        yield Trial(change.station, change.what, found, scenario.refusal.told if scenario.refusal else None)


def _uneven(found: Sequence[Change], percent: Fraction) -> Iterator[str]:
    """Yields notes on services that fall by another percentage, since ticks are whole."""
    for it in found:
        if it.fall is not None and abs(it.fall * 100 - percent) > percent / 20:
            fall = f"{float(it.fall * 100):.2f} % instead of {float(percent):g} %"
            yield f"warning: {it.station}: the service falls by {fall}, since it is rounded to whole ticks: choose a shorter tick"


def _without(lacks: Sequence[Lack]) -> Iterator[str]:
    """Yields a line per reason why stations lack a change."""
    reasons: dict[tuple[str, str], list[str]] = {}
    for it in lacks:
        reasons.setdefault((it.what, it.why), []).append(it.station)
    names = {SERVICE: "shorter service", CAPACITY: "further place", SERVER: "further server"}
    for (what, why), stations in reasons.items():
        yield f"no {names[what]} at {listed(stations)}: {why}"
