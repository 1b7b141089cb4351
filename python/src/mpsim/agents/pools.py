"""Finds pools in reports and models by the names that `mpplan pool` gives their nodes, and treats all agents of a pool together."""

from __future__ import annotations

import contextlib
from array import array
from typing import TYPE_CHECKING

from ..limits import INPUTS
from ..lines import Node
from ..model import nodes_of
from ..node_visits import LOST, NodeVisits, percentile_of

if TYPE_CHECKING:
    from collections.abc import Collection, Iterable, Iterator, Mapping, Sequence

    from ..node_visits import Visits
    from ..report import Report
    from ..shapes import Nodes


def visits_in(report: Report) -> Visits:
    """Returns the visits of a report. Raises ValueError if it has none."""
    if not report.has_visits:
        raise ValueError("the report has no job lines: run mpsim with --jobs")
    return report.visits


def queue_name(pool: str) -> str:
    """Returns the node where the calls of a pool arrive: they wait there, or are divided among the agents."""
    return f"{pool}_queue"


def agent_name(pool: str, number: int) -> str:
    """Returns the node of an agent, from 1."""
    return f"{pool}_{number}"


def left_name(pool: str) -> str:
    """Returns the split that sends callers who leave before their call begins to `gone_name`, the delay in which they wait until they leave."""
    return f"{pool}_left"


def gone_name(pool: str) -> str:
    """Returns the delay in which callers who leave a pool's queue wait until they leave."""
    return f"{pool}_gone"


def _loses(nodes: Nodes, pool: str) -> bool:
    """Returns whether callers may leave the queue of a pool, among the nodes of a report or of a model."""
    return _kind(nodes, left_name(pool)) == "split" and _kind(nodes, gone_name(pool)) == "delay"


def end_names(pool: str, agents: int) -> list[str]:
    """Returns the delays of 0 (list of str) that gather the outputs of this many agents, eight at a time, before the delay that has the pool's
    name."""
    return [f"{pool}_end{number}" for number in range(1, -(-max(agents - INPUTS, 0) // (INPUTS - 1)) + 1)]


def pooled(report: Report, pool: str) -> NodeVisits:
    """Returns the visits of a pool (NodeVisits) from a report (Report) with visits: for each call its arrival at the queue, its wait and the end of
    its service. Raises ValueError if the report has no such pool, or if more calls were served at once than it has agents: the trace was then made
    for another number.

    >>> import mpsim
    >>> from mpsim.agents.pools import pooled
    >>> model = "model 2\\nsource door\\ndelay desk_queue desk_wait from door\\ntrunk desk 1 talk from desk_queue\\n"
    >>> report = mpsim.run(model, [("source", "time", "talk", "desk_wait"), ("door", 0, 9, 0), ("door", 2, 4, 7)], jobs=True)
    >>> [(it.arrive, it.wait, it.depart) for it in pooled(report, "desk")]
    [(0, 0, 9), (2, 7, 13)]
    """
    if _kind(report.by_name, pool) == "trunk" and _kind(report.by_name, queue_name(pool)) == "delay":
        return _of_trunk_group(report, pool)
    visits = visits_in(report)
    agents = [visits[agent] for agent in agents_of(report.by_name, pool)]
    if not agents:
        names = ", ".join(node.name for node in report.nodes)
        raise ValueError(f"the report has no pool {pool!r}, neither as a trunk group nor as a server per agent; its nodes are {names}")
    if len(agents) > 1 and queue_name(pool) not in report.by_name:
        more = f"which mpplan pool would have put upstream of the servers {agent_name(pool, 1)} to {agent_name(pool, len(agents))}"
        raise ValueError(f"the report has no pool {pool!r}: it lacks the node {queue_name(pool)}, {more}")
    # A pool of one agent has no split.
    return _of_agents(pool, visits.get(queue_name(pool), agents[0]), agents)


def _kind(nodes: Nodes, name: str) -> str | None:
    return nodes[name].kind if name in nodes else None


def agents_of(nodes: Nodes, pool: str) -> list[str]:
    """Returns the servers (list of str) of a pool with a server per agent, from the nodes of a report (`by_name`) or of a model (dict of ModelNode by
    name)."""
    agents: list[str] = []
    while _kind(nodes, agent_name(pool, len(agents) + 1)) == "server":
        agents.append(agent_name(pool, len(agents) + 1))
    return agents


def _named_as_pools(report: Report) -> Iterator[str]:
    """Yields the names that a queue shows to be pools: its output goes to a trunk group or to servers. If the model is known, the delay before a
    trunk group must use the column of waits."""
    for item in report.nodes:
        if not item.name.endswith(queue_name("")):
            continue
        pool = item.name.removesuffix(queue_name(""))
        if item.kind == "delay" and _kind(report.by_name, pool) == "trunk":
            arguments = [node.arguments for node in nodes_of(report.model) if node.name == item.name] if report.model else []
            if arguments not in ([], [f"{pool}_wait"]):
                continue
            agents = [pool]
        elif item.kind == "split":
            agents = agents_of(report.by_name, pool)
        else:
            continue
        if agents and item.out == sum(report.by_name[name].in_ for name in agents):
            yield pool


def pools(report: Report) -> list[str]:
    """Returns the pools of a report (list of str), in the order of its nodes, found by the names that `mpplan pool` gives: a trunk group after a
    delay, or servers after a split. A trunk group that loses a call isn't a pool: its trace was made for another number of agents.

    >>> import mpsim
    >>> from mpsim.agents.pools import pools
    >>> model = "model 2\\nsource door\\ndelay desk_queue desk_wait from door\\ntrunk desk 1 talk from desk_queue\\n"
    >>> pools(mpsim.run(model, [("source", "time", "talk", "desk_wait"), ("door", 0, 9, 0), ("door", 2, 4, 7)]))
    ['desk']
    """
    return [named_as_pool for named_as_pool in _named_as_pools(report) if not _lost(report, named_as_pool)]


def know_model(report: Report, text: str) -> None:
    """Gives a report with names of pools the text (str) of its model, which tells a pool's queue from any other delay."""
    if report.model is None and any(_named_as_pools(report)):
        # A model that this reader can't parse leaves the report as it was.
        with contextlib.suppress(ValueError):
            report.model = text.removeprefix("\ufeff")


def _lost(report: Report, pool: str) -> int:
    return report.by_name[pool].lost if _kind(report.by_name, pool) == "trunk" else 0


class PoolLines:
    """Collects what to print about the pools of reports, seen one at a time; only about the pools in `names` if there are any."""

    _where: dict[str, str]
    _lost: dict[str, int]

    def __init__(self, names: Collection[str] = ()) -> None:
        self._names, self._where, self._lost, self._lacks = names, {}, {}, False

    def see(self, report: Report) -> None:
        """Adds a report (Report), without keeping it."""
        for pool in _named_as_pools(report):
            if self._names and pool not in self._names:
                continue
            agents = agents_of(report.by_name, pool)
            where = queue_name(pool) if _kind(report.by_name, pool) == "trunk" else f"{agents[0]} to {agents[-1]}"
            self._where.setdefault(pool, where)
            self._lost[pool] = max(self._lost.get(pool, 0), _lost(report, pool))
            self._lacks |= not report.has_visits and not _lost(report, pool)

    def lines(self) -> Iterator[str]:
        """Yields a line (str) per pool."""
        for pool, where in self._where.items():
            if lost := self._lost[pool]:
                why = "if it is a pool, its trace was made for another number of agents, and its figures are invalid"
                yield f"warning: {pool} loses {lost} calls: {why}"
            else:
                yield f"{pool} is a pool: its waits are those of {where}"

    def lacks(self, how: str = "run mpsim with --jobs") -> Iterator[str]:
        """Yields a line (str) that says why figures of pools are missing and how to get them, if any are."""
        if self._lacks:
            yield f"a pool's max, p50, p90 and p99 need job lines: {how}"


def pool_lines(reports: Iterable[Report], names: Collection[str] = (), lacks: bool = False) -> Iterator[str]:
    """Yields the lines (str) to print about the pools of reports, only about those in `names` if there are any; with `lacks` (bool), also about
    missing figures."""
    found = PoolLines(names)
    for report in reports:
        found.see(report)
    yield from found.lines()
    if lacks:
        yield from found.lacks()


def parts(report: Report, pool: str) -> list[str]:
    """Returns the nodes (list of str) that a pool replaces: its queue, and its trunk group or the delays that gather its agents' outputs."""
    # If nothing reads the agents' outputs, no node has the pool's name.
    ends = end_names(pool, len(agents_of(report.by_name, pool))) if _kind(report.by_name, pool) == "delay" else ()
    return [queue_name(pool), pool, *ends, *((left_name(pool), gone_name(pool)) if _loses(report.by_name, pool) else ())]


def names_of(report: Report, nodes: Collection[str] = ()) -> list[str]:
    """Returns the names of the nodes of a report (list of str), in its order, with each pool's name in place of its `parts`; only those in `nodes` if
    there are any, which may be parts too. Raises ValueError for an unknown name.

    >>> import mpsim
    >>> from mpsim.agents.pools import names_of
    >>> model = "model 2\\nsource door\\ndelay desk_queue desk_wait from door\\ntrunk desk 1 talk from desk_queue\\n"
    >>> report = mpsim.run(model, [("source", "time", "talk", "desk_wait"), ("door", 0, 9, 0), ("door", 2, 4, 7)])
    >>> names_of(report), names_of(report, ["desk_queue"])
    (['door', 'desk'], ['desk_queue'])
    """
    place = {part: pool for pool in pools(report) for part in parts(report, pool)}
    names = list(dict.fromkeys(place.get(node.name, node.name) for node in report.nodes))
    if not nodes:
        return names
    every = dict.fromkeys([*(node.name for node in report.nodes), *names])
    for name in nodes:
        if name not in every:
            raise ValueError(f"no node {name!r}; the report has {', '.join(node.name for node in report.nodes)}")
    return [name for name in every if name in nodes]


def pool_nodes(report: Report) -> dict[str, Node]:
    """Returns the pools of a report (dict of Node by name), each with the figures of the whole."""
    return {pool: _node(report, pool) for pool in pools(report)}


def with_pools(report: Report, nodes: Collection[str] = ()) -> dict[str, Node]:
    """Returns the nodes of a report that `names_of` gives (dict of str to Node), with a Node of kind "pool" in place of each pool's `parts`. Without
    visits its percentiles and `max` are None; its `peak` always is.

    >>> import mpsim
    >>> from mpsim.agents.pools import with_pools
    >>> model = "model 2\\nsource door\\ndelay desk_queue desk_wait from door\\ntrunk desk 1 talk from desk_queue\\n"
    >>> report = mpsim.run(model, [("source", "time", "talk", "desk_wait"), ("door", 0, 9, 0), ("door", 2, 4, 7)], jobs=True)
    >>> with_pools(report)["desk"].kind, with_pools(report)["desk"].p90
    ('pool', 7)
    """
    return {name: report[name] for name in names_of(report, nodes)}


def beside_pools(report: Report) -> list[Node]:
    """Returns all nodes of a report (list of Node), in its order, with each pool in place of the node of its name, or before its queue if there is
    none. The pool's other nodes stay, because the network shows them."""
    made = pool_nodes(report)
    before = {queue_name(name): it for name, it in made.items() if name not in report.by_name}
    return [node for item in report.nodes for node in (before.get(item.name), made.get(item.name, item)) if node is not None]


def visits_at(report: Report, names: Iterable[str]) -> list[NodeVisits]:
    """Returns the visits (list of NodeVisits) to nodes or pools of a report with visits, by name."""
    known, visits = pools(report), visits_in(report)
    return [pooled(report, name) if name in known else visits[name] for name in names]


def _node(report: Report, pool: str) -> Node:
    """Returns a pool as a Node."""
    queue, is_trunk = report.by_name[queue_name(pool)], _kind(report.by_name, pool) == "trunk"
    agents = [report.by_name[agent] for agent in ([pool] if is_trunk else agents_of(report.by_name, pool))]
    # Jobs in the delay are waiting.
    wait = queue.area if is_trunk else sum(agent.wait for agent in agents)
    busy, area = sum(agent.busy for agent in agents), sum(agent.area for agent in [queue, *agents])
    util = agents[0].util if is_trunk else 10**4 * busy // (len(agents) * report.span) / 10**4 if report.span else None
    waits = pooled(report, pool).waits() if report.has_visits else None
    longest, p50, p90, p99 = (None if waits is None else percentile_of(waits, item) for item in (100, 50, 90, 99))
    gone = report.by_name[gone_name(pool)].in_ if _loses(report.by_name, pool) else 0
    out, held = sum(agent.out for agent in agents), agents[0].held
    return Node(pool, "pool", queue.in_ + gone, out, gone, held, wait, longest, p50, p90, p99, busy, area, None, util)


def _of_trunk_group(report: Report, pool: str) -> NodeVisits:
    lost = report.by_name[pool].lost
    if lost:
        raise ValueError(f"{lost} calls find no free agent at {pool}: the trace was made for another number of agents")
    visits = visits_in(report)
    queue, group = visits[queue_name(pool)], visits[pool]
    waits = map(int.__sub__, queue.raw_depart, queue.arrive)
    found = _together(pool, queue, waits, dict(zip(group.job, group.raw_depart)))
    return _with_gone(found, visits[gone_name(pool)]) if _loses(report.by_name, pool) else found


def _with_gone(found: NodeVisits, gone: NodeVisits) -> NodeVisits:
    """Returns the visits of a pool with those of callers who left, in order of arrival: they count as lost."""
    rows = [*zip(found.arrive, found.job, found.raw_wait, found.raw_depart)]
    rows += [(arrive, job, LOST, LOST) for arrive, job in zip(gone.arrive, gone.job)]
    every = NodeVisits(found.node)
    for name, column in zip(("arrive", "job", "raw_wait", "raw_depart"), zip(*sorted(rows, key=lambda row: row[:2]))):
        setattr(every, name, array(getattr(found, name).typecode, column))
    return every


def _of_agents(pool: str, queue: NodeVisits, agents: Sequence[NodeVisits]) -> NodeVisits:
    waits = {job: wait for agent in agents for job, wait in zip(agent.job, agent.raw_wait)}
    ends = {job: depart for agent in agents for job, depart in zip(agent.job, agent.raw_depart)}
    return _together(pool, queue, map(waits.__getitem__, queue.job), ends)


def _together(pool: str, queue: NodeVisits, waits: Iterable[int], ends: Mapping[int, int]) -> NodeVisits:
    """Returns the visits of a pool from those to its queue (NodeVisits), with their waits and, by record, the ends of their services."""
    found = NodeVisits(pool)
    found.job, found.arrive, found.raw_wait = queue.job, queue.arrive, array("q", waits)
    found.raw_depart = array("q", map(ends.__getitem__, queue.job))
    return found
