"""Breakdowns of servers: from a time on a server does no work for some ticks. The job in work stays and then goes on.

A server that is down from tick `begin` for `ticks` ticks works until `begin` and again from `begin + ticks` on. A job that is finished at `begin`
leaves. Jobs that come meanwhile queue up as always. This module adds the ticks of the repair to the service time of the job in work. If there is
none, it adds those that are left when the next job would begin to that job's. No other service time changes, so a run with the new column is exact.
"""

from __future__ import annotations

import csv
import io
from bisect import bisect_left, bisect_right
from collections import deque
from typing import TYPE_CHECKING, NamedTuple, Optional

from ..agents.networks import in_front
from ..agents.queues import calls_at
from ..files import bytes_of
from ..model import nodes_of
from ..runs import run
from ..traces.trace import locating_errors
from .buffers import held
from .columns import down_name, judge_departures, judge_names, judge_order
from .ticks import tick_in, ticks_in

if TYPE_CHECKING:
    from collections.abc import Callable, Iterable, Sequence

    from ..model import ModelNode
    from ..report import Report
    from ..shapes import Path
    from ..times.calendar import Calendar
    from ..traces.trace import Trace

# Why a node of another kind can't break down.
REASONS = {
    "delay": "in a delay each job is served on its own, so it has no server that could stop",
    "trunk": "a trunk group has several servers, and which one stops decides who is served; for agents use mpplan pool --roster",
    "forkjoin": "a fork-join has several servers; write it as a fork, servers and a join",
}


class Breakdown(NamedTuple):
    """A breakdown: the node (str), the tick at which it begins and its ticks (int), and for a tandem the stage, from 1 (int or None)."""

    node: str
    begin: int
    ticks: int
    stage: Optional[int] = None

    @property
    def end(self) -> int:
        """The tick at which the server works again."""
        return self.begin + self.ticks

    @property
    def place(self) -> str:
        """The node, with the stage after a point."""
        return self.node if self.stage is None else f"{self.node}.{self.stage}"


class Change(NamedTuple):
    """What a breakdown changed: the record whose service it prolongs (int, from 1), when that service begins and ends (ticks), and the ticks added to
    it. If nothing is in work or begins during the breakdown, `record` is None and `added` 0."""

    breakdown: Breakdown
    record: Optional[int]
    begin: Optional[int]
    end: Optional[int]
    added: int


class Repairs:
    """The times at which one server is down: breakdowns (iterable of Breakdown). Raises ValueError if two of them overlap.

    >>> from mpsim.stations.breakdowns import Breakdown, Repairs
    >>> repairs = Repairs([Breakdown("mill", 10, 5)])
    >>> [repairs.finished(begin, 3) for begin in (7, 8, 10, 14, 15)]
    [10, 16, 18, 18, 18]
    """

    def __init__(self, breakdowns: Iterable[Breakdown]) -> None:
        self.all = sorted(breakdowns, key=lambda it: it.begin)
        for one, other in zip(self.all, self.all[1:]):
            if other.begin < one.end:
                raise ValueError(f"two breakdowns at {one.place} overlap, from {one.begin} to {one.end} and from {other.begin} on: join them")
        self._ends = [it.end for it in self.all]

    def finished(self, begin: int, ticks: int) -> int:
        """Returns when a job leaves its work (int) that begins at a tick and takes this many ticks (int) of work."""
        now, left = begin, ticks
        for at in range(bisect_right(self._ends, begin), len(self.all)):
            down = self.all[at]
            if now < down.begin and now + left <= down.begin:
                break
            left -= max(0, down.begin - now)
            now = down.end
        return now + left

    def changes(self, jobs: Sequence[int], begins: Sequence[int], ends: Sequence[int]) -> list[Change]:
        """Returns what each breakdown changed (list of Change), given the records of the jobs served, and when their services begin and end
        (sequences of int, in their order)."""
        found = []
        for down in self.all:
            at = bisect_left(ends, down.end)
            if at < len(jobs) and begins[at] < down.end:
                found.append(Change(down, jobs[at], begins[at], ends[at], down.end - max(down.begin, begins[at])))
            else:
                found.append(Change(down, None, None, None, 0))
        return found


class _Served(NamedTuple):
    """The jobs that a node serves: at which places they are among its visits, and when their services begin and end (lists of int)."""

    at: list[int]
    begin: list[int]
    end: list[int]


def served(arrivals: Sequence[int], services: Sequence[int], repairs: Repairs, places: int | None = None) -> _Served:
    """Returns what a server does with jobs that come at these times (sequence of int, rising) and need these services: at which places the jobs that
    it serves are, and when their services begin and end (lists of int). With `places` (int), including the one in service, a job that finds all of
    them taken is lost, and isn't among them.

    >>> from mpsim.stations.breakdowns import Breakdown, Repairs, served
    >>> served([0, 1, 2], [4, 4, 4], Repairs([Breakdown("mill", 2, 10)]), places=2)
    _Served(at=[0, 1], begin=[0, 14], end=[14, 18])
    """
    found, inside, free = _Served([], [], []), deque[int](), 0
    for at, (arrive, ticks) in enumerate(zip(arrivals, services)):
        while inside and inside[0] <= arrive:
            inside.popleft()
        if places is not None and len(inside) == places:
            continue
        begin = max(arrive, free)
        free = repairs.finished(begin, ticks)
        inside.append(free)
        for column, value in zip(found, (at, begin, free)):
            column.append(value)
    return found


def read_breakdowns(path: Path, days: Callable[[], Calendar]) -> list[Breakdown]:
    """Returns the breakdowns (list of Breakdown) in a CSV file with the columns node, at, for and perhaps stage. `at` is a tick or a date with a
    time, `for` a number of ticks or a length such as 2h; `days` (function) returns the Calendar, if it is needed. Raises OSError if the file can't be
    read, and ValueError for an invalid row, with its number (the header is row 1).

    >>> import tempfile
    >>> from mpsim.stations.breakdowns import read_breakdowns
    >>> from mpsim.times.calendar import Calendar
    >>> with tempfile.NamedTemporaryFile("w") as file:
    ...     print("node,at,for\\nmill,100,20", file=file, flush=True)
    ...     read_breakdowns(file.name, lambda: Calendar(10**9))
    [Breakdown(node='mill', begin=100, ticks=20, stage=None)]
    """
    text = bytes_of(path).decode("utf-8-sig", "surrogateescape")
    rows = csv.reader(io.StringIO(text, newline=""), delimiter=";" if ";" in text.split("\n", 1)[0] else ",")
    found: list[Breakdown] = []
    head: list[str] = []
    for number, row in enumerate(rows, 1):
        row = [it.strip() for it in row]
        if not head:
            head = row
            if sorted(head) not in (["at", "for", "node"], ["at", "for", "node", "stage"]):
                raise ValueError(f"{path}: row 1: expected the columns node, at, for and perhaps stage, not {','.join(row)!r}")
        elif any(row):
            try:
                if len(row) != len(head):
                    raise ValueError(f"{len(row)} fields instead of {len(head)}")
                item = dict(zip(head, row))
                found.append(Breakdown(item["node"], tick_in(item["at"], days), ticks_in(item["for"], days), stage_in(item.get("stage") or None)))
            except ValueError as error:
                raise ValueError(f"{path}: row {number}: {error}") from None
    return found


def stage_in(text: str | None) -> int | None:
    """Returns the number of a stage (int), from 1, in a text; None for None. Raises ValueError for another text."""
    if text is None or text.isascii() and text.isdigit() and len(text) < 4 and int(text) > 0:
        return None if text is None else int(text)
    raise ValueError(f"the stage {text!r} isn't a number from 1")


class Broken(NamedTuple):
    """A model (str) and a trace (Trace) with breakdowns, what each of these changed (list of Change), and the Report of a run, with visits."""

    model: str
    trace: Trace
    changes: list[Change]
    report: Report


def with_breakdowns(model: str, trace: Trace, breakdowns: Iterable[Breakdown]) -> Broken:
    """Returns a model and a trace with breakdowns (iterable of Breakdown), as a Broken. Each node gets a column of its own, NODE_down or
    NODE_STAGE_down, with the service times that include repairs. Nodes that are upstream go first. Raises what `mpsim.run` does, and ValueError for a
    node that can't break down, for breakdowns that overlap, if a job visits a node more than once, and if columns that hold only for other times of
    arrival are at the node or downstream of it.

    >>> from mpsim.stations.breakdowns import Breakdown, with_breakdowns
    >>> from mpsim.traces import Trace
    >>> trace = Trace("t.csv", ["source", "time", "mill"], [["parts", "0", "4"], ["parts", "1", "4"], ["parts", "30", "4"]])
    >>> made = with_breakdowns("model 1\\nsource parts\\nserver mill mill from parts\\n", trace, [Breakdown("mill", 6, 10)])
    >>> [row[-1] for row in made.trace.rows], [it[1:] for it in made.changes]
    (['4', '14', '4'], [(2, 4, 18, 10)])
    """
    every: dict[tuple[str, int | None], list[Breakdown]] = {}
    for item in breakdowns:
        every.setdefault((item.node, item.stage), []).append(item)
    nodes = {node.name: node for node in nodes_of(model)}
    for name, stage in every:
        _judge(nodes, name, stage)
    found: list[Change] = []
    report = _run(model, trace)
    # Stages of one tandem go together: each decides when jobs come to the others.
    for name in sorted({name for name, _ in every}, key=lambda name: len(in_front(nodes, [name]))):
        repairs = {stage: Repairs(mine) for (node, stage), mine in every.items() if node == name}
        trace, changes, departs = _at(nodes[name], repairs, report, trace)
        model, found = _renamed(model, nodes[name], repairs), found + changes
        report = _run(model, trace)
        judge_departures(report, {name: departs})
    return Broken(model, trace, sorted(found, key=lambda it: it.breakdown.begin), report)


def _run(model: str, trace: Trace) -> Report:
    with locating_errors(trace):
        return run(model.encode(errors="surrogateescape"), trace.lines(), jobs=True)


def _judge(nodes: dict[str, ModelNode], name: str, stage: int | None) -> None:
    """Raises ValueError unless a node, or a stage of a tandem, can break down."""
    if name not in nodes:
        raise ValueError(f"no node {name!r}; the model has {', '.join(nodes)}")
    node = nodes[name]
    if node.kind not in ("server", "loss", "tandem"):
        raise ValueError(f"{name} can't break down: {REASONS.get(node.kind, f'a {node.kind} serves nobody')}")
    if node.kind == "tandem":
        demands = _demands(node)
        stages = ", ".join(f"{at} ({demand})" for at, demand in enumerate(demands, 1) if demand != "=0")
        if stage is None or stage > len(demands):
            raise ValueError(f"{name} is a tandem: say which of its stages breaks down: {stages}")
        if demands[stage - 1] == "=0":
            raise ValueError(f"stage {stage} of {name} has no service, so it is only room before the next one: say which stage breaks down: {stages}")
    elif stage is not None:
        raise ValueError(f"{name} is a {node.kind}, which has no stages")
    if any(word.endswith("_down") for word in node.arguments.split()):
        raise ValueError(f"{name} has breakdowns already: give all of them in one call, for the trace without any")
    for source, _ in node.inputs:
        words = nodes[source].arguments.split()
        if nodes[source].kind == "split" and words[0] == "cut" and words[1].endswith("_agent"):
            pool = words[1].removesuffix("_agent")
            raise ValueError(f"{name} is an agent of the pool {pool}: who is served there depends on the roster (mpplan pool)")
    judge_names(name, [down_name(name, stage)])
    judge_order(nodes, name, "breakdowns")


def _demands(node: ModelNode) -> list[str]:
    """Returns the service times of a node as the model writes them, one per stage of a tandem."""
    words = node.arguments.split()
    return words[::3] if node.kind == "tandem" else words[-1:]


def _at(node: ModelNode, repairs: dict[int | None, Repairs], report: Report, trace: Trace) -> tuple[Trace, list[Change], list[int]]:
    """Returns the trace with the columns of a node's breakdowns, what these change, and when the jobs that the node serves leave it."""
    calls = [calls_at(report, node.name, node.name, demand, trace) for demand in _demands(node)]
    jobs, arrivals, services = calls[0]
    columns, changes = {}, []
    if node.kind == "tandem":
        finish = {stage - 1: mine.finished for stage, mine in repairs.items() if stage}
        line = held(arrivals, [services for _, _, services in calls], [int(word) for word in node.arguments.split()[2::3]], finish)
        for stage, mine in repairs.items():
            begins, work = line.begin[(stage or 1) - 1], line.work[(stage or 1) - 1]
            columns[down_name(node.name, stage)] = _column(trace, _demands(node)[(stage or 1) - 1], jobs, work)
            changes += mine.changes(jobs, begins, [begin + ticks for begin, ticks in zip(begins, work)])
        departs = line.depart[-1]
    else:
        places = int(node.arguments.split()[0]) if node.kind == "loss" else None
        found = served(arrivals, services, repairs[None], places)
        admitted = [jobs[at] for at in found.at]
        work = [end - begin for begin, end in zip(found.begin, found.end)]
        columns[down_name(node.name)] = _column(trace, _demands(node)[0], admitted, work)
        changes, departs = repairs[None].changes(admitted, found.begin, found.end), found.end
    return trace.with_columns(**columns), changes, departs


def _column(trace: Trace, demand: str, jobs: Sequence[int], work: Sequence[int]) -> list[int]:
    """Returns the service time of each record, those of some jobs replaced."""
    values = [int(demand[1:])] * len(trace.rows) if demand.startswith("=") else trace.numbers(demand)
    for job, ticks in zip(jobs, work):
        values[job - 1] = ticks
    return values


def _renamed(text: str, node: ModelNode, stages: Iterable[int | None]) -> str:
    """Returns a model's text in which a node, or these stages of a tandem, read the columns with repairs."""
    lines = text.split("\n")
    for at, line in enumerate(lines):
        words = line.split()
        if words[:2] == [node.kind, node.name]:
            for stage in stages:
                words[3 if node.kind == "loss" else 2 + 3 * ((stage or 1) - 1)] = down_name(node.name, stage)
            lines[at] = " ".join(words)
    return "\n".join(lines)
