"""The command `mpplan decision`."""

from __future__ import annotations

import re
from datetime import date
from fractions import Fraction
from typing import TYPE_CHECKING

from ..agents.queues import Queue
from ..agents.rosters import patience_in
from ..agents.staffing import Goal
from ..agents.validation import compared, recorded, rows_of
from ..files import judge_outputs, text_of, written
from ..page.decisions import Case, Chart, Decision, Past, decision_page
from ..page.levels import levels_of
from ..page.parts import percent as percent_text
from ..page.parts import in_words
from ..progress import Progress
from ..stations.columns import judge_copies
from ..tables.decisions import Calls, Choice, Decider, recorded_of
from ..tables.grids import loads_of, unchanged, with_copies
from ..times.intervals import every_of, label
from ..times.texts import MINUTE, SECOND, WEEKDAYS, given, length
from ..traces.trace import Trace
from ..wording import counted
from .groups import group_of, group_words, priorities_of, queues_of, warn_of_idle_calls
from .loads import copying_of
from .messages import say
from .options import calendar_of, calendar_words, every_words
from .staff import goal_of, percent

if TYPE_CHECKING:
    from argparse import ArgumentParser, Namespace
    from collections.abc import Callable, Iterator, Sequence

    from ..agents.groups import Group

EXAMPLE = """mpplan decision model.txt trace.csv --node desk --goal 80/20 --cost 35/h --out decision.html
         mpplan decision model.txt calls.csv --node desk --roster roster.csv --wait wait --abandoned gone --shrinkage 30% --out decision.html"""
MONTHS = "January February March April May June July August September October November December".split()
WHAT_IFS = "load=110%", "handling=20s", "agents=-1", "agents=+1"


def words(parser: ArgumentParser) -> None:
    """Declares the arguments."""
    parser.add_argument("model", help="a model with a server in the place of the agents")
    parser.add_argument("trace", help="its trace")
    parser.add_argument("--node", required=True, metavar="NAME", help="the server to replace by agents who share its queue")
    parser.add_argument("--out", required=True, metavar="FILE", help="write the page here")
    parser.add_argument("--title", metavar="TEXT", help="title of the page; default: a question about the node")
    parser.add_argument("--goal", default="80/20", metavar="P/TIME", help="service level: 80/20 (the default) is 80 %% within 20 seconds")
    every_words(parser)
    parser.add_argument("--weekday", type=str.capitalize, choices=WEEKDAYS, metavar="DAY", help="only days of this weekday")
    parser.add_argument("--date", metavar="DATE", help="only this day, e.g. 2026-03-02")
    parser.add_argument("--agents", metavar="C", help="agents beside the proposal: a number, or by the time of day, e.g. 8:00=3,18:00=0")
    group_words(parser)
    parser.add_argument("--wait", metavar="COLUMN", help="column with the recorded wait in ticks, for what was")
    parser.add_argument("--abandoned", metavar="COLUMN", help="with --wait: column that isn't 0 for a call that was abandoned")
    parser.add_argument("--patience", metavar="TIME", help="callers leave after this time, as for mpplan staff")
    parser.add_argument("--seed", type=int, default=1, metavar="N", help="seed of random patience; default: 1")
    parser.add_argument("--shrinkage", default="0%", metavar="P", help="share of paid time in which people aren't available, e.g. 30%%")
    parser.add_argument("--cost", metavar="PRICE", help="price of a paid hour, e.g. 35/h or '35 EUR/h'")
    says = "a case beside the proposal: load=110%%, handling=20s, agents=-1; may be repeated; default: those and agents=+1"
    parser.add_argument("--what-if", action="append", default=[], metavar="CASE", help=says)
    parser.add_argument("--assume", action="append", default=[], metavar="TEXT", help="a further assumption for the page; may be repeated")
    says = "what the trace lacks, e.g. '12 rows: no time'; may be repeated"
    parser.add_argument("--missing", action="append", default=[], metavar="TEXT", help=says)
    calendar_words(parser)


def cost_of(text: str) -> tuple[float, str]:
    """Returns the price of an hour (float) and its unit (str) of a text such as `35/h` or `35.50 EUR/h`. Raises ValueError for another text.

    >>> cost_of("35/h"), cost_of("35,50 EUR/h")
    ((35.0, ''), (35.5, 'EUR'))
    """
    found = re.fullmatch(r"\s*(\d{1,9}(?:[.,]\d{1,4})?)\s*([^\d/]{0,12}?)\s*/\s*h", text)
    if not found:
        raise ValueError("expected a price per hour, such as 35/h or '35 EUR/h'")
    return float(found[1].replace(",", ".")), found[2].strip()


def _day(name: str) -> str:
    """Returns the name of a Day for reading: Monday, 23 March 2026."""
    if not re.fullmatch(r"\d{4}-\d\d-\d\d", name):
        return name
    found = date.fromisoformat(name)
    return f"{WEEKDAYS[found.weekday()]}, {found.day} {MONTHS[found.month - 1]} {found.year}"


class _Case:
    """A what-if: its text, and how it changes the calls or the agents."""

    def __init__(self, text: str) -> None:
        name, mark, value = text.partition("=")
        self.load: Fraction | None = None
        self.longer: int | None = None
        self.agents: int | None = None
        if name == "load" and mark:
            (self.load,) = given("--what-if load", loads_of, value) if "," not in value and ".." not in value else (None,)
            change = 100 * (self.load or Fraction(1)) - 100
            self.name = f"{float(abs(change)):g} % {'more' if change >= 0 else 'fewer'} calls"
        elif name == "handling" and mark:
            self.longer = (-1 if value[:1] == "-" else 1) * given("--what-if handling", length, value.lstrip("+-"))
            self.name = f"each call takes {in_words(abs(self.longer) / SECOND)} {'longer' if self.longer >= 0 else 'less'}"
        elif name == "agents" and re.fullmatch(r"[+-][1-9]\d{0,2}", value):
            self.agents = int(value)
            people = "person" if abs(self.agents) == 1 else "people"
            self.name = f"{abs(self.agents)} {people} {'more' if self.agents > 0 else 'fewer'} at any time"
        if (self.load, self.longer, self.agents) == (None, None, None):
            raise ValueError(f"--what-if {text}: expected load=110%, handling=20s or agents=-1")


def _calls(args: Namespace, queue: Queue, trace: Trace, text: str, tick: int) -> Calls:
    """Returns the Calls at a Queue, with the patience that the arguments ask for."""
    values = patience_in(args.patience, trace, tick, args.seed)[0] if args.patience else None
    every_queue = queues_of(args, trace, text)
    mine = [every_queue[job - 1] for job in queue.jobs]
    return Calls(queue.arrivals, queue.demands, values and [values[job - 1] for job in queue.jobs], mine)


def _past(args: Namespace, trace: Trace, queue: Queue, decider: Decider, calls: Calls, queues: Sequence[str], group: Group | None) -> Past | None:
    """Returns what was recorded, with its levels by time of day, beside those of a roster if there is one (Group)."""
    if not args.wait:
        return None
    waits, gone = recorded(trace, args.wait, args.abandoned)
    jobs = [job - 1 for job, is_mine in zip(queue.jobs, decider.chosen(calls)) if is_mine]
    within, tick = decider.goal.within, decider.calendar.tick
    it = recorded_of([waits[at] for at in jobs], [gone[at] for at in jobs], within)
    mean, p90 = (None if value is None else value * tick / SECOND for value in (it.mean, it.p90))
    cells = compared(queue, group, decider.days(calls), waits, gone, queues, decider.choice.has)
    levels = levels_of(rows_of(cells, within, max(1, SECOND // tick), decider.every, 12))
    shown = levels if group else [level.as_recorded() for level in levels]
    return Past(it.calls, it.gone, it.share, mean, p90, shown, decider.every // MINUTE)


def _cases(
    args: Namespace,
    text: str,
    trace: Trace,
    decider: Decider,
    calls: Calls,
    numbers: dict[str, list[int]],
    cases: Sequence[_Case],
    tell: Callable[[int], None],
) -> Iterator[Case]:
    """Yields the Case of each what-if."""
    calendar = decider.calendar
    for done, case in enumerate(cases):
        if case.agents:
            result = decider.result(decider.changed(numbers, case.agents), calls)
            yield Case(case.name, result.hours, result.share)
        else:
            if case.longer is not None:
                more = case.longer // calendar.tick
                for line in unchanged(calls.services, more):
                    say(f"{case.name}: {line}")
                changed = calls.longer(more)
            else:
                try:
                    if case.load != 1:
                        judge_copies(text)
                    made = with_copies(trace, case.load or Fraction(1), copying_of(trace, calendar))
                except ValueError as error:
                    if args.what_if:
                        raise
                    # Nobody asked for it, and a trace of one day has no other day for the copies.
                    say(f"the case of {case.name} is left out: {error}")
                    continue
                changed = _calls(args, Queue(args.model, made, args.node), made, text, calendar.tick)
            result = decider.result(decider.need(changed), changed)
            yield Case(f"{case.name}, and the goal is kept", result.hours, result.share, decider.result(numbers, changed).share)
        tell(done + 1)


def _assumptions(args: Namespace, decider: Decider, shrinkage: Fraction, days: int) -> Iterator[str]:
    yield "The calls are those that came, one by one, with the time that each took; other weeks bring other calls."
    yield "Whoever is free takes the next caller. A call that has begun is completed, even if the person's time is over."
    for number, name in enumerate([*args.first, *args.then]):
        yield f"Calls to {name} are answered {'next' if number >= len(args.first) else 'first'}."
    yield f"Callers who wait give up after {args.patience}." if args.patience else "Callers who wait don't give up."
    yield f"The number of people changes only every {in_words(decider.every / SECOND)}, and is the same on all days of a weekday."
    if not shrinkage:
        yield "Breaks, training and illness aren't included."
    if days < 8:
        yield f"Of some kind of day there {'is' if days == 1 else 'are'} only {days}: with so few, the numbers follow chance. Eight are better."
    yield "The numbers were found by trying; each was tested with the calls, and none is a guarantee."
    yield from args.assume


def _left_out(args: Namespace, trace: Trace, queue: Queue, chosen: Sequence[bool]) -> Iterator[str]:
    if away := len(trace.rows) - len(queue.jobs):
        yield f"{counted(away, 'record')} of {len(trace.rows):,}, which don't come to {args.node}."
    if other := sum(not it for it in chosen):
        yield f"{counted(other, 'call')} on other days."
    if idle := sum(it and not service for it, service in zip(chosen, queue.demands)):
        yield f"The work of {counted(idle, 'call')} that took no time: if these callers hung up, more people are needed than this page says."
    yield from args.missing
    if not args.missing:
        yield "Whether rows were left out before these calls were counted isn't known here."


def main(args: Namespace) -> None:
    """Runs `mpplan decision`."""
    judge_outputs([args.out], {"model": [args.model], "trace": [args.trace], "roster": [args.roster]})
    if args.agents and args.roster:
        raise ValueError("give --roster or --agents, not both")
    if args.abandoned and not args.wait:
        raise ValueError("--abandoned needs --wait")
    text, trace = text_of(args.model), Trace.read(args.trace)
    calendar, every = calendar_of(args, text), every_of(args.every)
    share, within = given("--goal", lambda goal: goal_of(goal, calendar.tick), args.goal)
    shrinkage = given("--shrinkage", percent, args.shrinkage)
    if shrinkage == 1:
        raise ValueError("--shrinkage 100%: nobody would ever be there")
    cost, cases = args.cost and given("--cost", cost_of, args.cost), [_Case(it) for it in args.what_if or WHAT_IFS]
    if args.weekday and not calendar.is_dated:
        raise ValueError("--weekday needs the date of time 0: give --start")
    queue = Queue(args.model, trace, args.node)
    calls, choice = _calls(args, queue, trace, text, calendar.tick), Choice(args.date, args.weekday)
    priorities = priorities_of(args, list(dict.fromkeys(queues_of(args, trace, text))))
    decider = Decider(calendar, choice, every, Goal(share, within), priorities)
    chosen_days = [day for day in decider.days(calls) if decider.choice.has(day)]
    chosen = decider.chosen(calls)
    if not any(chosen):
        raise ValueError(f"there are no calls at {args.node} on the chosen days")
    with Progress(len(cases) + 1, "cases") as progress:
        numbers = decider.need(calls)
        progress(1)
        shown = list(_cases(args, text, trace, decider, calls, numbers, cases, lambda done: progress(done + 1)))
    there, group, queues = None, None, queues_of(args, trace, text)
    if args.roster or args.agents:
        agents, group = group_of(args, calendar, max(queue.arrivals), queues)
        result, there = decider.of_group(group, agents, calls), decider.there(agents, calls)
        shown.insert(0, Case("the roster", result.hours, result.share))
    charts = []
    for name, (count, each) in decider.intervals(numbers, calls).items():
        times = [label(number, every) for number in range(len(each))]
        mean = [it.calls / count for it in each]
        charts.append(Chart(_day(name), times, mean, [it.agents for it in each], there[name] if there else None))
    proposal = decider.result(numbers, calls)
    period = _day(chosen_days[0].name) + (f" to {_day(chosen_days[-1].name)}" if len(chosen_days) > 1 else "")
    per = "week" if calendar.is_dated and not args.date and not args.weekday else "day"
    page = Decision(
        args.title or f"How many people does {args.node} need?",
        f"{period}: {chosen.count(True):,} calls.",
        per,
        (float(share), within * calendar.tick / SECOND),
        _past(args, trace, queue, decider, calls, queues, group),
        Case("as proposed", proposal.hours, proposal.share),
        shown,
        charts,
        cost,
        float(shrinkage),
        list(_assumptions(args, decider, shrinkage, min(len(part.days) for part in decider.groups(calls)))),
        list(_left_out(args, trace, queue, chosen)),
    )
    with written(args.out) as file:
        file.write(decision_page(page))
    say(f"{args.out}: {proposal.hours:g} hours per {per}, {percent_text(proposal.share or 0)} in time")
    warn_of_idle_calls(queue)
