"""Chooses shifts that cover a need of agents at least cost, and writes them as a roster.

A need is a number of agents per interval of some days; a form says which shifts are allowed (`mpsim.agents.forms`). A shift is one agent on one day,
with a break or without. It covers an interval only if the agent is there for all of it. An installed solver chooses (`mpsim.agents.solvers`); what it
chooses is checked in whole numbers."""

from __future__ import annotations

import math
from fractions import Fraction
from functools import reduce
from typing import TYPE_CHECKING, FrozenSet, NamedTuple, Optional

from ..wording import counted
from .forms import DAY, KINDS, clock_text, day_name
from .rosters import HEAD
from .solvers import Program, Row, canonical, least

if TYPE_CHECKING:
    from .forms import Form, Need


class Shift(NamedTuple):
    """A shift: the number of its day, the place of its form, and when it and its break begin (int; `pause` is None without a break) on that day."""

    day: int
    form: int
    begin: int
    pause: Optional[int] = None

    def spans(self, form: Form) -> list[tuple[int, int]]:
        """Returns when its agent is there: one or two pairs of times of its day."""
        end = self.begin + form.length
        spans = [(self.begin, end)] if self.pause is None else [(self.begin, self.pause), (self.pause + form.pause, end)]
        return [it for it in spans if it[0] < it[1]]


def covered(shift: Shift, form: Form, need: Need) -> frozenset[int]:
    """Returns the numbers of the intervals of a Need with agents that a shift covers.

    >>> from mpsim.agents.forms import Form, Need
    >>> sorted(covered(Shift(0, 0, 480, 570), Form("short", [480], 240, 30), Need("day", 60, {8: 1, 9: 1, 10: 1, 11: 1})))
    [8, 10, 11]
    """
    numbers = set()
    for begin, end in shift.spans(form):
        first, last = -((-begin - shift.day * DAY) // need.every), (end + shift.day * DAY) // need.every
        numbers |= {need.wrapped(number) for number in range(first, last)}
    return frozenset(number for number in numbers if need.agents.get(number, 0))


class Candidate(NamedTuple):
    """A shift that may be chosen, and the intervals that it covers."""

    shift: Shift
    covers: FrozenSet[int]


def candidates(need: Need, forms: list[Form]) -> list[Candidate]:
    """Returns the shifts that may be chosen, by day, form, begin and break. It leaves out those that cover nothing, and those that cover no more than
    another one of the same day and form."""
    found = []
    days = need.days()
    # A shift of the evening before covers the morning.
    for day in sorted({*days, *(_day_before(need.kind, day) for day in days)}):
        for place, form in enumerate(forms):
            shifts = [Shift(day, place, begin, pause) for begin in form.begins for pause in form.pauses(begin, need.every)]
            mine = [Candidate(shift, covered(shift, form, need)) for shift in shifts]
            for at, it in enumerate(mine):
                is_like_earlier = any(it.covers == other.covers for other in mine[:at])
                if it.covers and not is_like_earlier and not any(it.covers < other.covers for other in mine):
                    found.append(it)
    return found


def _day_before(kind: str, day: int) -> int:
    days = KINDS[kind]
    return day - 1 if days is None else (day - 1) % days


def chosen(need: Need, forms: list[Form], solver: str) -> list[Shift]:
    """Returns shifts (list of Shift, one per agent and day, in order) that cover a need at least cost, and the same ones with each solver: of several
    cheapest choices `mpsim.agents.solvers.canonical` takes one. Raises ValueError, with the interval, if the forms can't cover the need.

    >>> from mpsim.agents.forms import Form, Need
    >>> from mpsim.agents.solvers import solver_named
    >>> need = Need("day", 60, {8: 1, 9: 2, 10: 2, 11: 1})
    >>> chosen(need, [Form("short", [480, 540], 180)], solver_named())
    [Shift(day=0, form=0, begin=480, pause=None), Shift(day=0, form=0, begin=540, pause=None)]
    """
    every = candidates(need, forms)
    reached = {number for it in every for number in it.covers}
    for number, count in sorted(need.agents.items()):
        if count and number not in reached:
            raise ValueError(f"{need.name(number)} needs {counted(count, 'agent')}, and no shift covers it")
    unit = reduce(lambda one, other: one * other // math.gcd(one, other), (form.cost.denominator for form in forms))
    found = []
    for group in _groups(every):
        program = _program(need, forms, group)
        _judge(need, program, group, solver)
        costs = [int(forms[it.shift.form].cost * unit) for it in group]
        for it, count in zip(group, canonical(program, costs, solver)):
            found += [it.shift] * count
    return sorted(found, key=lambda it: (it.day, it.form, it.begin, it.pause or 0))


def _groups(every: list[Candidate]) -> list[list[Candidate]]:
    """Returns the candidates in groups that share no day and no interval, so that each can be chosen by itself."""
    groups: list[tuple[set[int], set[int], list[Candidate]]] = []
    for it in every:
        days, numbers, mine = {it.shift.day}, set(it.covers), [it]
        apart = []
        for group in groups:
            if group[0] & days or group[1] & numbers:
                days, numbers, mine = days | group[0], numbers | group[1], group[2] + mine
            else:
                apart.append(group)
        groups = [*apart, (days, numbers, mine)]
    return [mine for _, _, mine in groups]


def _program(need: Need, forms: list[Form], group: list[Candidate]) -> Program:
    """Returns the constraints: each interval has its agents, and no form is used more often on a day than it may."""
    rows = [
        Row({at: 1 for at, it in enumerate(group) if number in it.covers}, low=need.agents[number])
        for number in sorted({number for it in group for number in it.covers})
    ]
    kinds = sorted({(it.shift.day, it.shift.form) for it in group})
    for day, form in kinds:
        if forms[form].most is not None:
            rows.append(Row({at: 1 for at, it in enumerate(group) if it.shift[:2] == (day, form)}, high=forms[form].most))
    return Program([max(need.agents[number] for number in it.covers) for it in group], rows)


def _judge(need: Need, program: Program, group: list[Candidate], solver: str) -> None:
    """Raises ValueError, with the first interval that stays without enough agents, if the limits of the forms are too low for the need."""
    if all(row.high is None for row in program.rows):
        return
    numbers, count = sorted({number for it in group for number in it.covers}), len(group)
    # As many agents as are missing, per interval.
    rows = [row if row.low is None else Row({**row.parts, count + at: 1}, row.low) for at, row in enumerate(program.rows)]
    wider = Program([*program.highs, *(need.agents[number] for number in numbers)], rows)
    missing = [0] * count + [1] * len(numbers)
    if any(least(wider, missing, solver)[count:]):
        short = canonical(wider, missing, solver)[count:]
        number, lacks = next((number, lacks) for number, lacks in zip(numbers, short) if lacks)
        wanted = need.agents[number]
        why = f"the forms allow only {wanted - lacks}: allow more or other shifts"
        raise ValueError(f"{need.name(number)} needs {counted(wanted, 'agent')}, and {why}")


def cost_of(shifts: list[Shift], forms: list[Form]) -> Fraction:
    """Returns the cost of shifts."""
    return sum((forms[it.form].cost for it in shifts), Fraction(0))


def roster_of(shifts: list[Shift], forms: list[Form], kind: str, rest: int = 0) -> list[list[str]]:
    """Returns the rows of a roster, the header first, as `mpsim.agents.rosters.read_roster` reads them, for shifts in order and the kind of their
    days. Each form has its agents, such as "early 1", who have at most one shift a day, are never in two at once, and have at least `rest` minutes
    (int) between two. Raises ValueError if a shift that is the same every day leaves no such rest.

    >>> from mpsim.agents.forms import Form
    >>> for row in roster_of([Shift(0, 0, 480, 720), Shift(0, 0, 480, 750)], [Form("early", [480], 480, 30)], "weekday"):
    ...     print(",".join(row))
    agent,queues,from,to
    early 1,,mon 08:00,12:00
    early 1,,mon 12:30,16:00
    early 2,,mon 08:00,12:30
    early 2,,mon 13:00,16:00
    """
    agents: dict[tuple[int, int], list[Shift]] = {}
    for it in shifts:
        place, left = 1, DAY - forms[it.form].length
        if kind == "day" and left < rest:
            raise ValueError(f"the form {forms[it.form].name} every day leaves {left} minutes between two shifts, and {rest} are asked for")
        while any(_meet(it, other, forms, kind, rest) for other in agents.get((it.form, place), [])):
            place += 1
        agents.setdefault((it.form, place), []).append(it)
    rows = [HEAD]
    for (form, place), mine in sorted(agents.items()):
        for it in mine:
            rows += [[f"{forms[form].name} {place}", "", *_span(kind, it.day, *span)] for span in it.spans(forms[form])]
    return rows


def _meet(one: Shift, other: Shift, forms: list[Form], kind: str, rest: int) -> bool:
    """Returns whether two shifts are on the same day, or have less than `rest` minutes between them."""
    cycle = (KINDS[kind] or 0) * DAY
    begins = [it.day * DAY + it.begin for it in (one, other)]
    ends = [begin + forms[it.form].length + rest for begin, it in zip(begins, (one, other))]
    return one.day == other.day or any(begins[0] < ends[1] + by and begins[1] + by < ends[0] for by in {0, cycle, -cycle})


def _span(kind: str, day: int, begin: int, end: int) -> list[str]:
    day, begin, end = day + begin // DAY, begin % DAY, end - begin // DAY * DAY
    if kind == "date":
        return [f"{day_name(kind, day + at // DAY)}T{clock_text(at % DAY)}" for at in (begin, end)]
    return [f"{day_name(kind, day % 7)[:3].lower()} {clock_text(begin)}".strip(), clock_text(end % DAY)]
