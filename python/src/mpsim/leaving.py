"""Finds when and where jobs leave the network, from the visits after which they may."""

from __future__ import annotations

from array import array
from itertools import compress
from operator import ge, sub
from typing import TYPE_CHECKING, Any

from .node_visits import HELD, numpy_for
from .report import Report

if TYPE_CHECKING:
    from collections.abc import Sequence

    from .node_visits import NodeVisits
    from .report import Reading


def leaving(report: Report | Reading) -> ByNumpy | ByPython:
    """Returns when and where the jobs of a report with visits left: of a Report, or of a Reading, of which only the visits after which jobs may leave
    are read. It is computed with numpy if there are many visits and it is installed.

    >>> import mpsim
    >>> from mpsim.leaving import leaving
    >>> with mpsim.visits("model 1\\nsource door\\nserver desk =4 from door\\n", [("door", 0), ("door", 1)]) as reading:
    ...     list(leaving(reading).gone[1:])
    [4, 8]
    """
    ends = ends_of(report)
    numpy = numpy_for(sum(node.in_ for node in report.nodes if node.name in ends))
    found: ByNumpy | ByPython = ByNumpy(numpy, report.jobs + 1) if numpy else ByPython(report.jobs + 1)
    numbers = {node.name: number for number, node in enumerate(report.nodes) if node.name in ends}
    sources = {node.name for node in report.nodes if node.kind == "source"}
    # The jobs of a source that isn't an exit go on to another node.
    passed = sources - {item.name for item in report.exits}
    # Nodes are in the order of the network: a job visits later nodes later, and leaves at the last of its visits with the latest end.
    for visits in report.visits.values() if isinstance(report, Report) else report.pieces(numbers):
        if visits.node in sources:
            found.begin(numbers[visits.node], visits)
        if visits.node in ends - passed:
            found.add(numbers[visits.node], visits)
    return found


def ends_of(report: Report | Reading) -> set[str]:
    """Returns the nodes (set of str) whose visits say where jobs come from, which are held, and where they leave the network.

    >>> import mpsim
    >>> from mpsim.leaving import ends_of
    >>> sorted(ends_of(mpsim.run("model 1\\nsource door\\nserver desk =4 from door\\ndelay out =1 from desk\\n", [("door", 0)])))
    ['door', 'out']
    """
    return {item.name for item in report.exits} | {node.name for node in report.nodes if node.kind in ("source", "join")}


class ByPython:
    """Finds from the visits of jobs, by record: `came` and `source`, when and at which source they arrived; `gone` and `end`, when and at which node
    they left (`tables.sojourns.Ways` says how); and `stays`, false if a join holds a part of the job, whose visit then ends when it begins. Visits
    are added node by node, in the order of the report."""

    def __init__(self, count: int) -> None:
        self.jobs = array("i", range(count))
        self.came, self.source = array("q", [-1]) * count, array("b", [0]) * count
        self.gone, self.end = array("q", [-1]) * count, array("h", [0]) * count
        self.stays = bytearray(b"\1") * count

    def _run_of(self, visits: NodeVisits) -> slice | None:
        """Returns which jobs these are (slice), if each is the next after the one before it; else None. Their values are then written all at once."""
        begin = visits.job[0] if visits.job else 0
        run = slice(begin, begin + len(visits.job))
        return run if self.jobs[run] == visits.job else None

    def begin(self, number: int, visits: NodeVisits) -> None:
        """Adds the arrivals at the source of this number."""
        came, source, run = self.came, self.source, self._run_of(visits)
        if run:
            came[run], source[run] = visits.arrive, array("b", [number]) * len(visits)
            return
        for job, arrive in zip(visits.job, visits.arrive):
            came[job], source[job] = arrive, number

    def add(self, number: int, visits: NodeVisits) -> None:
        """Adds visits to the node of this number."""
        departs, mark = visits.raw_depart, 2 * number
        marks = array("h", [mark]) * len(visits)
        if visits.raw_wait and min(visits.raw_wait) < 0:
            for job, wait in zip(visits.job, visits.raw_wait):
                if wait == HELD:
                    self.stays[job] = 0
            departs = array("q", [arrive if wait < 0 else depart for arrive, wait, depart in zip(visits.arrive, visits.raw_wait, departs)])
            marks = array("h", [mark + (wait < 0) for wait in visits.raw_wait])
        gone, end, run = self.gone, self.end, self._run_of(visits)
        if run and all(map(ge, departs, gone[run])):
            gone[run], end[run] = departs, marks
            return
        for job, depart, left in zip(visits.job, departs, marks):
            if depart >= gone[job]:
                gone[job], end[job] = depart, left

    def ways(self) -> Sequence[array[int]]:
        """Returns the columns of `tables.sojourns.Ways`, of all jobs without held visits."""
        self.stays[0] = 0
        columns: list[array[int]] = [self.jobs, self.source, self.came, self.end, self.gone]
        if self.stays.count(0) == 1:
            columns = [column[1:] for column in columns]
        else:
            columns = [array(column.typecode, compress(column, self.stays)) for column in columns]
        jobs, sources, arrivals, ends, departures = columns
        return jobs, sources, arrivals, ends, array("q", map(sub, departures, arrivals))


class ByNumpy:
    """Does what ByPython does, with numpy."""

    def __init__(self, numpy: Any, count: int) -> None:
        self.numpy = numpy
        self.came, self.source = numpy.full(count, -1, "i8"), numpy.zeros(count, "i1")
        self.gone, self.end = numpy.full(count, -1, "i8"), numpy.zeros(count, "i2")
        self.stays = numpy.ones(count, bool)

    def begin(self, number: int, visits: NodeVisits) -> None:
        """Adds the arrivals at the source of this number."""
        job = self.numpy.asarray(visits.job)
        self.came[job], self.source[job] = self.numpy.asarray(visits.arrive), number

    def add(self, number: int, visits: NodeVisits) -> None:
        """Adds visits to the node of this number."""
        numpy = self.numpy
        job, arrive, wait, depart = (numpy.asarray(column) for column in (visits.job, visits.arrive, visits.raw_wait, visits.raw_depart))
        lost = wait < 0
        if lost.any():
            self.stays[job[wait == HELD]] = False
            depart = numpy.where(lost, arrive, depart)
        # Of several visits of a job, the last with the latest end counts: it comes last in this order, and numpy keeps the last of them.
        order = numpy.argsort(depart, kind="stable")
        order = order[depart[order] >= self.gone[job[order]]]
        self.gone[job[order]], self.end[job[order]] = depart[order], 2 * number + lost[order]

    def ways(self) -> Sequence[array[int]]:
        """Returns the columns of `tables.sojourns.Ways`, of all jobs without held visits."""
        self.stays[0] = False
        kept = self.numpy.flatnonzero(self.stays)
        columns = kept, self.source[kept], self.came[kept], self.end[kept], self.gone[kept] - self.came[kept]
        return [array("q", column.astype("i8").tobytes()) for column in columns]
