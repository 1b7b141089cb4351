"""Batches: an oven that takes several units at once.

Units collect in order of arrival. An oven takes them once `size` of them are there, or once the first has waited as long as it may; then it takes
all that are there, at most `size`. They stay for the same time and leave together. Of several ovens, any that is empty takes the next batch. Within a
tick, batches leave first, then units arrive, then batches begin: a unit that arrives at the tick at which a batch begins may be in it.

No node of a model does this. When each unit's batch begins is worked out and becomes a column of the trace: in the model, units wait in a delay, and
then stay in a trunk group whose servers are the places of the ovens. The proved program so finds that no more units are inside than fit.
"""

from __future__ import annotations

from bisect import bisect_right
from heapq import heapreplace
from typing import TYPE_CHECKING, NamedTuple, Optional

from ..agents.networks import inputs_of
from ..agents.queues import calls_at
from ..limits import TRUNK
from ..model import nodes_of, with_node
from ..runs import run
from ..traces.trace import locating_errors
from ..wording import counted
from .columns import batch_name, fill_name, judge_departures, judge_names, judge_order

if TYPE_CHECKING:
    from collections.abc import Sequence

    from ..report import Report
    from ..traces.trace import Trace


class Oven(NamedTuple):
    """How batches are made: the places of an oven and the ticks for which it takes a batch (int), the number of ovens (int), the longest that the
    first unit of a batch waits while an oven is empty (int, ticks; None without a limit), and whether the units left at the end, too few for a batch,
    begin when the last has arrived."""

    size: int
    ticks: int
    ovens: int = 1
    wait_at_most: Optional[int] = None
    last: bool = False


class Batch(NamedTuple):
    """A batch: its first unit, from 0, in order of arrival, how many units it has, and when it begins (int, ticks)."""

    first: int
    units: int
    begin: int


def batches(arrivals: Sequence[int], oven: Oven) -> list[Batch]:
    """Returns the batches (list of Batch, in the order in which they begin) of units that arrive at these ticks (sequence of int, rising). Raises
    ValueError if units are left that never begin.

    >>> from mpsim.stations.batches import Oven, batches
    >>> batches([0, 1, 2, 30], Oven(size=2, ticks=10, wait_at_most=20))
    [Batch(first=0, units=2, begin=1), Batch(first=2, units=1, begin=22), Batch(first=3, units=1, begin=50)]
    """
    found, free, first, count = [], [0] * oven.ovens, 0, len(arrivals)
    while first < count:
        full = first + oven.size <= count
        ready = [arrivals[first + oven.size - 1]] if full else [arrivals[-1]] if oven.last else []
        if oven.wait_at_most is not None:
            ready.append(arrivals[first] + oven.wait_at_most)
        if not ready:
            left = f"{counted(count - first, 'unit')} at the end fill no batch of {oven.size}"
            raise ValueError(f"{left}: give --wait-at-most, or --last-batch to let them begin when the last has arrived")
        begin = max(min(ready), free[0])
        units = min(oven.size, bisect_right(arrivals, begin) - first)
        found.append(Batch(first, units, begin))
        heapreplace(free, begin + oven.ticks)
        first += units
    return found


class Batched(NamedTuple):
    """Batches at a node: the model (str) and the trace (Trace) with its columns, the arrivals of the units (sequence of int), their batches (list of
    Batch), and the Report of a run, with visits."""

    model: str
    trace: Trace
    arrivals: Sequence[int]
    batches: list[Batch]
    report: Report

    def waits(self) -> list[int]:
        """Returns how long each unit waits until its batch begins (list of int, ticks), in order of arrival."""
        return [it.begin - self.arrivals[at] for it in self.batches for at in range(it.first, it.first + it.units)]


class Collecting:
    """Units that come to a node of a model, over a trace (Trace), where ovens of any size can be tried. The model is a text (str). Raises what
    `mpsim.run` does, and ValueError if the node is neither a server nor a delay, if a job visits it more than once, or if columns that hold only for
    other times of arrival are at it or downstream of it.

    >>> from mpsim.stations.batches import Collecting, Oven
    >>> from mpsim.traces import Trace
    >>> trace = Trace("t.csv", ["source", "time"], [["units", "0"], ["units", "3"], ["units", "4"], ["units", "9"]])
    >>> made = Collecting("model 1\\nsource units\\nserver oven =20 from units\\n", trace, "oven").batched(Oven(2, 20))
    >>> [row[2:] for row in made.trace.rows], made.waits()
    ([['1', '3'], ['1', '0'], ['2', '19'], ['2', '14']], [3, 0, 19, 14])
    """

    def __init__(self, model: str, trace: Trace, node: str) -> None:
        self.text, self.trace, self.node = model, trace, node
        report = self._run(model, trace)
        nodes = {item.name: item for item in nodes_of(model)}
        if node not in nodes or nodes[node].kind not in ("server", "delay"):
            names = ", ".join(item.name for item in nodes.values() if item.kind in ("server", "delay")) or "none"
            raise ValueError(f"{node} isn't a server or a delay of the model, so no oven can replace it; its servers and delays: {names}")
        self.made = fill_name(node), batch_name(node), f"{node}_wait"
        judge_names(node, self.made)
        if self.made[0] in nodes:
            raise ValueError(f"the model already has a node {self.made[0]!r}, a name that the oven at {node} needs")
        judge_order(nodes, node, "the batches")
        self._inputs, self.demand = inputs_of(nodes[node]), nodes[node].arguments
        self.jobs, self.arrivals, _ = calls_at(report, node, node, self.demand, trace)

    def __repr__(self) -> str:
        return f"<Collecting of {len(self.jobs)} units at {self.node}>"

    def _run(self, model: str, trace: Trace) -> Report:
        with locating_errors(trace):
            return run(model.encode(errors="surrogateescape"), trace.lines(), jobs=True)

    def batched(self, oven: Oven) -> Batched:
        """Returns the model and the trace with an Oven in place of the node, as a Batched. Raises what `batches` and `mpsim.run` do."""
        found = batches(self.arrivals, oven)
        fill, batch, wait = self.made
        columns = {batch: [0] * len(self.trace.rows), wait: [0] * len(self.trace.rows)}
        for number, it in enumerate(found, 1):
            for at in range(it.first, it.first + it.units):
                columns[batch][self.jobs[at] - 1] = number
                columns[wait][self.jobs[at] - 1] = it.begin - self.arrivals[at]
        places = oven.size * oven.ovens
        kind = f"trunk {self.node} {places}" if places <= TRUNK else f"delay {self.node}"
        lines = [f"delay {fill} {wait} from {self._inputs}", f"{kind} ={oven.ticks} from {fill}"]
        model = with_node(self.text, self.node, lines, 2 if places <= TRUNK else 1)
        trace = self.trace.with_columns(**columns)
        report = self._run(model, trace)
        departs = [it.begin + oven.ticks for it in found for _ in range(it.units)]
        judge_departures(report, {self.node: departs})
        return Batched(model, trace, self.arrivals, found, report)
