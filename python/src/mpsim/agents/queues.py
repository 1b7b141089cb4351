"""Agents who share one queue.

No node of a model is such a queue: which agent is free first is a minimum over the agents. This module works out which agent serves each call and how
long the call waits, and writes both into the trace. The model gets a pool in place of a server, and the proved program runs it. Its trunk group would
lose a call if more calls were served at once than there are agents. That no call waits while an agent is free is tested; none of this is proved."""

from __future__ import annotations

import os
from array import array
from heapq import heapreplace
from typing import TYPE_CHECKING

from ..errors import BoundError
from ..inputs import model_text
from ..limits import GREATEST_VALUE, NODES
from ..model import nodes_of, with_node
from ..node_visits import NodeVisits
from ..runs import run
from ..stations.columns import judge_order
from ..traces.trace import locating_errors
from ..wording import counted
from .networks import ROSTERED, agent_lines, front, in_front, inputs_of, roster_lines, trunk_lines
from .pools import agent_name, pooled, queue_name

if TYPE_CHECKING:
    from collections.abc import Sequence
    from typing import Tuple

    from ..report import Report
    from ..shapes import ModelInput, Path
    from ..times.calendar import Calendar
    from ..traces.trace import Trace

    Calls = Tuple[Sequence[int], Sequence[int], Sequence[int]]


def pool(arrivals: Sequence[int], demands: Sequence[int], agents: int) -> tuple[array[int], array[int]]:
    """Returns the agent of each call (array of int, from 1) and its wait (array of int), for arrivals and service times (sequences of int, in ticks)
    and a number of agents (int). Calls are served in order of arrival, at equal times in their given order. Each gets the agent who is free first, or
    the one with the lowest number among several. Raises ValueError if there is no agent.

    >>> from mpsim.agents.queues import pool
    >>> who, waits = pool([0, 1, 2, 3], [6, 1, 1, 1], 2)
    >>> list(who), list(waits)
    ([1, 2, 2, 2], [0, 0, 0, 0])
    """
    if agents < 1:
        raise ValueError(f"a pool has one agent or more, not {agents}")
    who, waits = array("i", bytes(4 * len(arrivals))), array("q", bytes(8 * len(arrivals)))
    free = [(0, number) for number in range(1, agents + 1)]
    for at in sorted(range(len(arrivals)), key=arrivals.__getitem__):
        begin = arrivals[at]
        moment, who[at] = free[0]
        if moment > begin:
            waits[at], begin = moment - begin, moment
        heapreplace(free, (begin + demands[at], who[at]))
    return who, waits


class Queue:
    """The queue at a server of a model, over a trace (Trace), where pools with any number of agents can be tried. The model is a Model, a text or a
    path. Raises what `mpsim.run` does, and ValueError if the node isn't a server, or if a job visits it more than once.

    >>> from mpsim.agents.queues import Queue
    >>> from mpsim.traces import Trace
    >>> trace = Trace("t.csv", ["source", "time", "talk"], [["door", "0", "9"], ["door", "1", "9"], ["door", "2", "4"]])
    >>> queue = Queue("model 1\\nsource door\\nserver desk talk from door\\n", trace, "desk")
    >>> [list(queue.visits(agents).wait) for agents in (1, 2, 3)]
    [[0, 8, 16], [0, 0, 7], [0, 0, 0]]
    """

    path: Path | None

    def __repr__(self) -> str:
        return f"<Queue of {len(self.jobs)} calls at {self.node}>"

    def __init__(self, model: ModelInput, trace: Trace, node: str) -> None:
        self.text, self.trace, self.node = model_text(model), trace, node
        self.path = model if isinstance(model, os.PathLike) or isinstance(model, str) and "\n" not in model else None
        report = self._with_one()
        self.nodes = nodes_of(self.text)
        found = [item for item in self.nodes if item.name == node]
        if not found or found[0].kind != "server":
            servers = ", ".join(node.name for node in self.nodes if node.kind == "server") or "none"
            raise ValueError(f"{node} isn't a server of the model, so no pool can replace it; its servers: {servers}")
        self._judge_order()
        self.demand = found[0].arguments
        self.jobs, self.arrivals, self.demands = calls_at(report, node, node, self.demand, trace)

    def _judge_order(self) -> None:
        """Raises ValueError if a pool is already downstream: the arrivals there depend on who serves here."""
        nodes = {node.name: node for node in self.nodes}
        for item in self.nodes:
            name, arguments = item.name.removesuffix(queue_name("")), item.arguments.split()
            is_pool = item.kind == "delay" and arguments == [f"{name}_wait"] or item.kind == "split" and arguments[:2] == ["cut", f"{name}_agent"]
            if is_pool and self.node in in_front(nodes, [item.name]):
                why = f"make the pool at {self.node} first, since it decides when calls arrive at {name}"
                raise ValueError(f"the pool at {name} is downstream of {self.node}: {why}")
        judge_order(nodes, self.node, "the pool")

    def _with_one(self) -> Report:
        """Returns the report of the model as it is, for the arrivals at the server, which don't depend on who serves. If a single server exceeds the
        bound of the model, it runs `front` instead; the bound is checked when the pool runs."""
        with locating_errors(self.trace, model=self.path):
            try:
                return run(self.text.encode(errors="surrogateescape"), self.trace.lines(), jobs=True)
            except BoundError:
                return run(front(self.text, [self.node]), self.trace.lines(), jobs=True)

    def idle_calls(self) -> str | None:
        """Returns a line (str) on calls that need no service, None if there are none. Many exports have abandoned calls as such."""
        if not (zeros := self.demands.count(0)):
            return None
        those = f"{zeros:,} of {counted(len(self.demands), 'call')} at {self.node} need 0 ticks"
        return f"{those}: if these callers hung up, they count as no work, so fewer agents seem to be enough"

    def with_pool(self, agents: int, by: str = "trunk") -> tuple[str, Trace]:
        """Returns the model (str) and the trace (Trace) with a pool of this many agents (int) in place of the server. The trace gets two columns,
        NODE_agent and NODE_wait: the agent of each record's call, from 1, and its wait; both are 0 if it has no call there. `by` is "trunk" (up to
        255 agents) or "agents", a server per agent (up to the model's limit of nodes). Raises ValueError for too many agents, and for names that the
        model already has."""
        model = self._model_of(agents, by)
        calls = self.jobs, self.arrivals, self.demands
        return model, self.trace.with_columns(**columns_of(self.node, agents, calls, len(self.trace.rows)))

    def run(self, agents: int, by: str = "trunk") -> Report:
        """Returns the report (Report), with visits, of a pool of this many agents (int)."""
        model, trace = self.with_pool(agents, by)
        with locating_errors(trace, model=self.path):
            return run(model, trace.lines(), jobs=True)

    def visits(self, agents: int, by: str = "trunk") -> NodeVisits:
        """Returns the visits (NodeVisits) of a pool of this many agents (int)."""
        return pooled(self.run(agents, by), self.node)

    def judge_waits(self, days: Calendar, who: Sequence[int], waits: Sequence[int]) -> None:
        """Checks the agents and waits of the calls (sequences of int, as `Group.assigned` returns them). Raises ValueError if a call is never served,
        with its time in a Calendar, or waits longer than a column can say."""
        if never := [at for at, (agent, wait) in enumerate(zip(who, waits)) if not agent and wait < 0]:
            first = min(never, key=lambda at: self.arrivals[at])
            time = self.arrivals[first]
            when = f" ({days.shown(time)})" if days.is_dated else ""
            why = f"nobody serves {counted(len(never), 'call')} at {self.node}, since no agent comes after them who serves their queue"
            raise ValueError(f"{why}; the first is record {self.jobs[first]} at {time}{when}: extend the roster or give --patience")
        if (longest := max(waits, default=0)) > GREATEST_VALUE:
            raise ValueError(f"at {self.node} a call waits {longest} ticks; the limit of a column is {GREATEST_VALUE}")

    def with_group(self, count: int, who: Sequence[int], waits: Sequence[int], patience: Sequence[int] | None = None) -> tuple[str, Trace]:
        """Returns the model (str) and the trace (Trace) with a pool of this many agents (int) in place of the server, given the agent and the wait of
        each call, as `Group.assigned` returns them. `patience` (list of int, one per record, or None) becomes a column too."""
        this = next(it for it in self.nodes if it.name == self.node)
        lines = roster_lines(self.node, count, self.demand, inputs_of(this), any(agent == 0 for agent in who))
        self._judge(lines, None)
        served, waited = [0] * len(self.trace.rows), [0] * len(self.trace.rows)
        for job, agent, wait in zip(self.jobs, who, waits):
            served[job - 1], waited[job - 1] = agent, wait
        columns = {f"{self.node}_patience": patience} if patience else {}
        columns |= {f"{self.node}_agent": served, f"{self.node}_wait": waited}
        text = with_node(self.text, self.node, [ROSTERED.format(node=self.node), *lines], version=2)
        return text, self.trace.with_columns(**columns)

    def _model_of(self, agents: int, by: str) -> str:
        this = next(node for node in self.nodes if node.name == self.node)
        inputs = inputs_of(this)
        is_read = any(name == self.node for node in self.nodes for name, _ in node.inputs)
        lines = trunk_lines(self.node, agents, self.demand, inputs) if by == "trunk" else agent_lines(self.node, agents, self.demand, inputs, is_read)
        self._judge(lines, None if by == "trunk" else agent_name(self.node, agents + 1))
        return with_node(self.text, self.node, lines, version=2 if by == "trunk" else 1)

    def _judge(self, lines: Sequence[str], one_more: str | None) -> None:
        """Checks the names of lines to be added to the model, and that no server has the name of a further agent, as which it would be counted."""
        there = {node.name for node in self.nodes} - {self.node}
        made = [line.split()[1] for line in lines]
        for name in (*made, queue_name(self.node), *(node.name for node in self.nodes if node.name == one_more and node.kind == "server")):
            if name in there:
                raise ValueError(f"the model already has a node {name!r}, a name that the pool at {self.node} needs")
        for name in made:
            if len(name) > 32:
                raise ValueError(f"the pool needs a node {name!r}, which is longer than 32 characters: give {self.node} a shorter name")
        if len(there) + len(made) > NODES:
            raise ValueError(f"the model would have {len(there) + len(made)} nodes; the limit is {NODES}: with --by trunk a pool takes two")


def calls_at(report: Report, node: str, pool: str, demand: str, trace: Trace) -> Calls:
    """Returns the calls of a pool (str) that arrive at a node (str), from a report with visits: their records (from 1), their arrivals, and their
    service times in the trace (Trace) of the run (lists of int). Raises ValueError if a job arrives there more than once."""
    # A network without jobs has no job lines.
    visits = report.visits[node] if report.has_visits and report.visits else NodeVisits(node)
    jobs = list(visits.job)
    if len(set(jobs)) < len(jobs):
        raise ValueError(f"a job visits {pool} more than once, but its record has room for only one wait")
    values = [int(demand[1:])] * len(trace.rows) if demand.startswith("=") else trace.numbers(demand)
    return jobs, list(visits.arrive), [values[job - 1] for job in jobs]


def columns_of(node: str, agents: int, calls: Calls, records: int) -> dict[str, list[int]]:
    """Returns the columns of a pool (dict of str to lists of int) for this many records: the agent of each record's call, and its wait; both are 0 if
    it has no call there. `calls` is what `calls_at` returns. Raises ValueError if a wait exceeds the limit of a column."""
    jobs, arrivals, demands = calls
    served, waited = [0] * records, [0] * records
    for job, agent, wait in zip(jobs, *pool(arrivals, demands, agents)):
        served[job - 1], waited[job - 1] = agent, wait
    if (longest := max(waited, default=0)) > GREATEST_VALUE:
        why = f"a call waits {longest} ticks; the limit of a column is {GREATEST_VALUE}"
        raise ValueError(f"with {counted(agents, 'agent')} at {node} {why}")
    return {f"{node}_agent": served, f"{node}_wait": waited}
