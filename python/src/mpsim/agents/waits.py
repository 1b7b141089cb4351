"""Finds the pools in a model and recomputes their agents and waits for part of a trace that `mpplan pool` made."""

from __future__ import annotations

import contextlib
from bisect import bisect_left, bisect_right
from typing import TYPE_CHECKING, NamedTuple

from ..errors import BoundError, ModelError, TraceError, VisitsError
from ..inputs import model_input
from ..model import nodes_of
from ..node_visits import NodeVisits
from ..runs import run
from .networks import ROSTERED, agent_lines, front, in_front, inputs_of, trunk_lines
from .pools import agents_of, gone_name, queue_name
from .queues import calls_at, columns_of

if TYPE_CHECKING:
    from collections.abc import Iterable, Iterator, Mapping, Sequence

    from ..model import ModelNode
    from ..report import Report
    from ..shapes import ModelInput
    from ..traces.trace import Trace


class ModelPool(NamedTuple):
    """A pool in a model: its name (str), its number of agents (int), the service time of its calls (str), and the model (str) of everything upstream
    of it, as returned by `front`."""

    name: str
    agents: int
    demand: str
    front: str


def model_pools(model: ModelInput, trace: Trace) -> list[ModelPool]:
    """Returns the pools (list of ModelPool) in a model whose lines are those that `mpplan pool` writes, upstream pools first.

    A trunk group that loses a call of the trace (Trace) isn't a pool, since the trace was made for another number of agents; if the trace is
    rejected, it counts as one. The model is any that `mpsim.run` accepts. An invalid model, or one that can't be read twice, has no pools. Nor does
    it have those with a roster, patience or priorities, whose waits don't follow from a number of agents (`rostered_pools`). Raises ValueError if
    one of those is downstream of another pool: its arrivals would change.

    >>> from mpsim.agents.waits import model_pools
    >>> from mpsim.traces import Trace
    >>> model = "model 2\\nsource door\\ndelay desk_queue desk_wait from door\\ntrunk desk 1 talk from desk_queue\\n"
    >>> trace = Trace("t.csv", ["source", "time", "talk", "desk_wait"], [["door", "0", "9", "0"], ["door", "2", "4", "7"]])
    >>> [it[:3] for it in model_pools(model, trace)]
    [('desk', 1, 'talk')]
    """
    with contextlib.closing(model_input(model)) as given:
        text = given.text() or ""
    found, lost = [], {}
    # Models that this reader can't parse are left to the runs that reject them.
    with contextlib.suppress(ValueError):
        nodes = {node.name: node for node in nodes_of(text)}
        found = sorted(_named(nodes), key=lambda item: len(in_front(nodes, [queue_name(item[0])])))
    rostered = rostered_pools(text)
    found = [it for it in found if it[0] not in rostered]
    for name in rostered:
        if above := [it[0] for it in found if it[0] in in_front(nodes, [queue_name(name)])]:
            raise ValueError(_rules_error(name, f"run mpplan pool for each part, since it is downstream of the pool {above[0]}"))
    if groups := [name for name, *_, end in found if name == end]:
        with contextlib.suppress(ModelError, TraceError, BoundError, VisitsError):
            report = run(front(text, groups), trace.lines())
            lost = {name: report.by_name[name].lost for name in groups}
    return [ModelPool(name, agents, demand, front(text, [end])) for name, agents, demand, end in found if not lost.get(name)]


def _has_more_rules(text: str, name: str) -> bool:
    """Returns whether a pool in a model has a roster, patience or priorities, so that its waits don't follow from its number of agents."""
    return ROSTERED.format(node=name) in text.splitlines() or any(node.name == gone_name(name) for node in nodes_of(text))


def _rules_error(name: str, then: str) -> str:
    return f"{name} is a pool with a roster, patience or priorities: its waits hold only for the whole trace; {then}"


def rostered_pools(text: str) -> list[str]:
    """Returns the pools (list of str) of a model's text that have a roster, patience or priorities.

    >>> from mpsim.agents.waits import rostered_pools
    >>> front = "model 2\\n# desk is a pool with a roster, patience or priorities: its waits hold only for this trace\\nsource door\\n"
    >>> rostered_pools(front + "delay desk_queue desk_wait from door\\ntrunk desk 1 talk from desk_queue\\n")
    ['desk']
    """
    with contextlib.suppress(ValueError):
        nodes = {node.name: node for node in nodes_of(text)}
        return [name for name, *_ in _named(nodes) if _has_more_rules(text, name)]
    return []


def carried(report: Report, pool: str, pieces: Sequence[Sequence[int]]) -> int:
    """Returns how many of some pieces of a trace (sequences of int, the records of each, from 0) share the agents of a pool with another piece, in a
    report with visits of the whole trace: a call from elsewhere is waiting or served between the first arrival and the last beginning of a call of
    the piece. The waits of all other pieces are those that each would have alone, if free agents are alike or their intervals begin with the piece.

    >>> import mpsim
    >>> from mpsim.agents.waits import carried
    >>> model = "model 2\\nsource door\\ndelay desk_queue desk_wait from door\\ntrunk desk 1 talk from desk_queue\\n"
    >>> rows = [("source", "time", "talk", "desk_wait"), ("door", 0, 9, 0), ("door", 2, 4, 7), ("door", 20, 4, 0)]
    >>> report = mpsim.run(model, rows, jobs=True)
    >>> carried(report, "desk", [[0], [1], [2]]), carried(report, "desk", [[0, 1], [2]])
    (1, 0)
    """
    came = {job: (arrive, depart) for job, arrive, depart in _columns(report, queue_name(pool))}
    ends = {job: depart for job, _, depart in _columns(report, pool)}
    calls = [(arrive, ends[job], begin, job) for job, (arrive, begin) in came.items()]
    if gone_name(pool) in report.by_name:
        calls += [(arrive, depart, arrive, job) for job, arrive, depart in _columns(report, gone_name(pool))]
    calls.sort()
    piece_of = {record + 1: number for number, records in enumerate(pieces) for record in records}
    arrivals = [call[0] for call in calls]
    latest: list[int] = []
    mine: dict[int, tuple[int, int]] = {}
    for arrive, depart, begin, job in calls:
        latest.append(max(depart, latest[-1] if latest else 0))
        if job in piece_of:
            first, last = mine.get(piece_of[job], (arrive, begin))
            mine[piece_of[job]] = min(first, arrive), max(last, begin)
    shared = 0
    for number, (first, last) in mine.items():
        before, behind = bisect_left(arrivals, first), bisect_right(arrivals, last)
        others = any(piece_of.get(calls[at][3]) != number for at in range(before, behind))
        shared += others or before > 0 and latest[before - 1] > first
    return shared


def _columns(report: Report, node: str) -> Iterator[tuple[int, int, int]]:
    visits = report.visits[node] if report.has_visits and report.visits else NodeVisits(node)
    return zip(visits.job, visits.arrive, visits.raw_depart)


def _named(nodes: Mapping[str, ModelNode]) -> Iterator[tuple[str, int, str, str]]:
    """Yields the name, the number of agents, the service time and a serving node of each pool among `nodes` (dict of ModelNode by name). The serving
    node is the trunk group of the pool's name, or the first agent."""
    for node in nodes.values():
        name = node.name.removesuffix(queue_name(""))
        if node.kind == "delay" and name in nodes and nodes[name].kind == "trunk":
            number, demand = nodes[name].arguments.split()
            agents, end = int(number), name
            lines = trunk_lines(name, agents, demand, inputs_of(node))
        elif node.kind == "split" and (servers := agents_of(nodes, name)):
            agents, demand, end = len(servers), nodes[servers[0]].arguments, servers[0]
            lines = agent_lines(name, agents, demand, inputs_of(node), is_read=False)
        else:
            continue
        if all(nodes.get(made.name) == made for made in nodes_of("\n".join(lines))):
            yield name, agents, demand, end


def pools_in(text: str, trace: Trace) -> list[ModelPool]:
    """Returns the pools (list of ModelPool) in the lines of a model (str) whose agents and waits are columns of a trace (Trace), upstream pools
    first, whatever number of agents the trace was made for."""
    with contextlib.suppress(ValueError):
        nodes = {node.name: node for node in nodes_of(text)}
        found = sorted(_named(nodes), key=lambda item: len(in_front(nodes, [queue_name(item[0])])))
        there = [it for it in found if f"{it[0]}_agent" in trace.header and f"{it[0]}_wait" in trace.header]
        return [ModelPool(name, agents, demand, front(text, [end])) for name, agents, demand, end in there]
    return []


def varied(texts: Iterable[str], trace: Trace) -> list[str]:
    """Returns the names of pools (list of str) that have different numbers of agents in these models (iterable of str), and whose agents and waits
    are columns of a trace (Trace): the trace holds for one of the numbers at most. Raises ValueError if there are some, and a pool of these models
    has a roster, patience or priorities, since its waits can't be worked out again.

    >>> from mpsim.agents.waits import varied
    >>> from mpsim.traces import Trace
    >>> models = [f"model 2\\nsource door\\ndelay desk_queue desk_wait from door\\ntrunk desk {agents} talk from desk_queue\\n" for agents in (1, 2)]
    >>> trace = Trace("t.csv", ["source", "time", "talk", "desk_agent", "desk_wait"], [])
    >>> varied(models, trace), varied(models[:1], trace)
    (['desk'], [])
    """
    numbers: dict[str, set[int]] = {}
    ruled: set[str] = set()
    for text in texts:
        for pool in pools_in(text, trace):
            numbers.setdefault(pool.name, set()).add(pool.agents)
            ruled |= {pool.name} if _has_more_rules(text, pool.name) else set()
    found = [name for name, counts in numbers.items() if len(counts) > 1]
    if found and ruled:
        raise ValueError(_rules_error(min(ruled), "run mpplan pool for each number of agents"))
    return found


def recomputed(trace: Trace, pools: Iterable[ModelPool]) -> Trace:
    """Returns the trace (Trace) with the agents and waits at `pools` (list of ModelPool, from `model_pools`) recomputed from its own records, in a
    network that is empty at time 0. Raises what `mpsim.run` does, and ValueError if a job visits a pool more than once.

    >>> from mpsim.agents.waits import recomputed, model_pools
    >>> from mpsim.agents.queues import Queue
    >>> from mpsim.traces import Trace
    >>> trace = Trace("t.csv", ["source", "time", "talk"], [["door", "0", "9"], ["door", "2", "4"], ["door", "3", "4"]])
    >>> model, whole = Queue("model 1\\nsource door\\nserver desk talk from door\\n", trace, "desk").with_pool(1)
    >>> later = Trace("later.csv", whole.header, whole.rows[1:])
    >>> [[row[-1] for row in it.rows] for it in (later, recomputed(later, model_pools(model, whole)))]
    [['7', '10'], ['0', '3']]
    """
    for pool in pools:
        calls = calls_at(run(pool.front, trace.lines(), jobs=True), queue_name(pool.name), pool.name, pool.demand, trace)
        trace = trace.with_values(**columns_of(pool.name, pool.agents, calls, len(trace.rows)))
    return trace
