"""Machines in a row with buffers between them.

A machine works on one part at a time, in order of arrival. A finished part stays at its machine until the next one has a place for it, and no other
part begins there meanwhile (blocking after service). The places of a machine count the part in work; the first machine has unlimited room before it.

A tandem of a model holds up to 4 places per stage. Stages without service add up: with stages of 4, 4 and 4 places, the last of which works, no part
leaves earlier or later than with one of 12. Whatever a tandem can't hold is worked out over a trace: each machine then is a server whose service time
is a column, the work on the part and the time for which it stays blocked.
"""

from __future__ import annotations

import itertools
import re
from typing import TYPE_CHECKING, NamedTuple

from ..agents.queues import calls_at
from ..builder import Model
from ..limits import PLACES, STAGES
from ..names import is_name
from ..runs import run
from ..traces.trace import locating_errors
from .columns import held_name, judge_departures, judge_names, judge_services

if TYPE_CHECKING:
    from collections.abc import Callable, Iterable, Mapping, Sequence

    from ..report import Report
    from ..traces.trace import Trace


class Line(NamedTuple):
    """Machines in a row: the name of each (list of str), its service time as a model writes it (list of str), and the places of each machine after
    the first, including the part in work (list of int)."""

    names: list[str]
    demands: list[str]
    places: list[int]

    def shown(self, places: Sequence[int], besides: int = 0) -> str:
        """Returns the words (str) of these machines with other places (sequence of int), as `line_of` reads them."""
        named = [name if name == demand else f"{name}:{demand}" for name, demand in zip(self.names, self.demands)]
        return " ".join([named[0], *(f"{own - besides} {name}" for own, name in zip(places, named[1:]))])


def line_of(words: Sequence[str], besides: int = 0) -> Line:
    """Returns the Line of words (list of str): a machine, the places between it and the next machine, the next machine, and so on.

    A machine is its name, which is also the column of its service times, or a name, a colon and a service time as a model writes it, such as
    `mill:mill_time` or `mill:=30`. `besides` (int) is added to each number of places: 1 if they don't count the part in work. Raises ValueError for
    other words.

    >>> from mpsim.stations.buffers import line_of
    >>> line_of(["cut", "12", "mill:=30"])
    Line(names=['cut', 'mill'], demands=['cut', '=30'], places=[12])
    """
    if len(words) < 3 or len(words) % 2 == 0:
        raise ValueError(f"{' '.join(words)!r} isn't a line: expected a machine, places, a machine and so on, such as cut 12 mill 4 drill")
    names, demands = [], []
    for word in words[::2]:
        name, mark, demand = word.partition(":")
        if not is_name(name) or mark and not (is_name(demand) or re.fullmatch(r"=\d{1,11}", demand, re.ASCII)):
            raise ValueError(f"{word!r} isn't a machine: expected a name such as mill, mill:column or mill:=30, with lower-case letters")
        if name in names:
            raise ValueError(f"two machines have the name {name}")
        names.append(name)
        demands.append(demand or name)
    for word in words[1::2]:
        if not re.fullmatch(r"\d{1,7}", word, re.ASCII) or int(word) + besides < 1:
            raise ValueError(f"{word!r} isn't a number of places: expected a whole number, {1 - besides} or more")
    return Line(names, demands, [int(word) + besides for word in words[1::2]])


def _stages(places: int) -> int:
    """Returns how many stages of a tandem hold this many places."""
    return -(-places // PLACES)


def fits(places: Sequence[int]) -> bool:
    """Returns whether a tandem can hold machines with these places, from the second machine on (sequence of int).

    >>> from mpsim.stations.buffers import fits
    >>> fits([12]), fits([13]), fits([8, 4]), fits([5, 5]), fits([4, 4, 4]), fits([1, 1, 1, 1])
    (True, False, True, False, True, False)
    """
    return 1 + sum(map(_stages, places)) <= STAGES


def nearest(places: Sequence[int]) -> list[list[int]]:
    """Returns the places (list of lists of int) that a tandem can hold with the fewest left out, none of them above the given ones; an empty list for
    more machines than a tandem has stages. With fewer places no part leaves a line earlier.

    >>> from mpsim.stations.buffers import nearest
    >>> nearest([12, 4]), nearest([6, 6]), nearest([1, 1, 1, 1])
    ([[8, 4]], [[6, 4], [4, 6]], [])
    """
    if len(places) > STAGES - 1:
        return []
    every = itertools.product(range(1, STAGES), repeat=len(places))
    held = [[min(own, PLACES * stages) for own, stages in zip(places, counts)] for counts in every if sum(counts) < STAGES]
    most = max(sum(it) for it in held)
    return [list(it) for it in sorted({tuple(it) for it in held if sum(it) == most}, reverse=True)]


def tandem(line: Line, besides: int = 0) -> list[tuple[int, str]]:
    """Returns the stages (pairs of int and str) of a tandem after the first, for a Line: the places of each and its service time, which is =0 for a
    stage that only adds places. Raises ValueError for a line that no tandem can hold, with the nearest ones as `line_of` reads them with `besides`.

    >>> from mpsim.stations.buffers import line_of, tandem
    >>> tandem(line_of(["cut", "9", "mill"]))
    [(1, '=0'), (4, '=0'), (4, 'mill')]
    """
    if not fits(line.places):
        others = " or ".join(line.shown(it, besides) for it in nearest(line.places))
        more = f"the nearest that it holds: {others}" if others else f"a tandem holds {STAGES} machines at most"
        raise ValueError(f"no tandem holds {line.shown(line.places, besides)}: {more} (with --trace, the line is worked out over a trace)")
    found = []
    for places, demand in zip(line.places, line.demands[1:]):
        first, stages = places - PLACES * (_stages(places) - 1), _stages(places)
        found += [(PLACES if stage else first, demand if stage == stages - 1 else "=0") for stage in range(stages)]
    return found


def with_tandem(line: Line, name: str, inputs: Sequence[str], model: Model, besides: int = 0) -> Model:
    """Adds a tandem that holds a Line, with this name (str) and inputs (sequence of str), to a Model, and returns the model. Raises what `tandem`
    and `judge_services` do.

    >>> import mpsim
    >>> from mpsim.stations.buffers import line_of, with_tandem
    >>> print(with_tandem(line_of(["cut", "5", "mill"]), "line", ["parts"], mpsim.Model.parse("model 1\\nsource parts\\n")), end="")
    model 1
    source parts
    tandem line cut / 1 =0 / 4 mill from parts
    """
    judge_services(line.demands)
    model.tandem(name, _demand(line.demands[0]), *((places, _demand(it)) for places, it in tandem(line, besides)), *inputs)
    return model


def _demand(text: str) -> str | int:
    """Returns a service time as `Model` takes it."""
    return int(text[1:]) if text.startswith("=") else text


class Held(NamedTuple):
    """What the machines of a line do, each a list per machine with a number per part, in order of arrival: when it begins (ticks), when it departs,
    and its work."""

    begin: list[list[int]]
    depart: list[list[int]]
    work: list[list[int]]


def held(
    arrivals: Sequence[int], services: Iterable[Sequence[int]], places: Sequence[int], finish: Mapping[int, Callable[[int, int], int]] | None = None
) -> Held:
    """Returns what machines in a row do (Held) with parts that come at these times (sequence of int, rising), for the service times of each machine
    (sequences of int) and the places of each machine after the first (sequence of int). `finish` gives for some machines, from 0, a function that
    returns when work is finished (int), from when it begins and its ticks (int); the others finish after these ticks.

    >>> from mpsim.stations.buffers import held
    >>> held([0, 0, 0], [[1, 1, 1], [5, 5, 5]], [1]).depart
    [[1, 6, 11], [6, 11, 16]]
    """
    work, finish = [list(it) for it in services], finish or {}
    begin: list[list[int]] = [[] for _ in work]
    depart: list[list[int]] = [[] for _ in work]
    for part, time in enumerate(arrivals):
        for machine, ticks in enumerate(work):
            gone = depart[machine]
            begin[machine].append(max(time, gone[-1] if gone else 0))
            if machine in finish:
                ticks[part] = finish[machine](begin[machine][-1], ticks[part]) - begin[machine][-1]
            time = begin[machine][-1] + ticks[part]
            if machine < len(places) and part >= places[machine]:
                # The place is that of an earlier part, whose departure is known.
                time = max(time, depart[machine + 1][part - places[machine]])
            gone.append(time)
    return Held(begin, depart, work)


class Worked(NamedTuple):
    """A line that was worked out over a trace: the model (str) with a server per machine, the trace (Trace) with the column `NAME_held` of each, what
    the machines do (Held), and the Report of a run of both, with visits."""

    model: str
    trace: Trace
    held: Held
    report: Report


def worked_out(line: Line, inputs: Sequence[str], model: str, trace: Trace) -> Worked:
    """Returns a line of any machines and places (Line) that was worked out over a trace (Trace), as a Worked. The line reads these outputs (sequence
    of str) of a model's text (str). Raises what `mpsim.run` and `judge_services` do, and ValueError for a column that the trace lacks, or if a job
    comes more than once.

    >>> from mpsim.stations.buffers import line_of, worked_out
    >>> from mpsim.traces import Trace
    >>> trace = Trace("t.csv", ["source", "time", "cut", "mill"], [["parts", "0", "1", "5"], ["parts", "0", "1", "5"], ["parts", "0", "1", "5"]])
    >>> made = worked_out(line_of(["cut", "1", "mill"]), ["parts"], "model 1\\nsource parts\\n", trace)
    >>> [row[-2:] for row in made.trace.rows]
    [['1', '5'], ['5', '5'], ['5', '5']]
    """
    judge_services(line.demands)
    first = line.names[0]
    probe = Model.parse(model)
    probe.delay(first, 0, *inputs)
    with locating_errors(trace):
        report = run(str(probe), trace.lines(), jobs=True)
    every = [calls_at(report, first, first, demand, trace) for demand in line.demands]
    jobs, arrivals, _ = every[0]
    found = held(arrivals, [services for _, _, services in every], line.places)
    for name in line.names:
        judge_names(name, [held_name(name)])
    columns = {held_name(name): [0] * len(trace.rows) for name in line.names}
    for column, begin, depart in zip(columns.values(), found.begin, found.depart):
        for job, since, until in zip(jobs, begin, depart):
            column[job - 1] = until - since
    made, whole = Model.parse(model), trace.with_columns(**columns)
    for name in line.names:
        inputs = [str(made.server(name, held_name(name), *inputs))]
    with locating_errors(whole):
        report = run(str(made), whole.lines(), jobs=True)
    judge_departures(report, dict(zip(line.names, found.depart)))
    return Worked(str(made), whole, found, report)
