"""Makes a table of how much the figures of a node vary over resampled traces."""

from __future__ import annotations

from typing import TYPE_CHECKING, Callable, Dict, Iterator, List, Optional, Sequence, Tuple

from ..agents.queues import Queue
from ..agents.waits import model_pools, recomputed, rostered_pools
from ..node_visits import NodeVisits, percentile_of
from ..runs import run
from ..stations.columns import judge_copies
from ..traces.resample import Days
from ..traces.trace import Trace
from .service import PERCENTS, figures_of, heads
from .visits import Parts, places_of, visits_to

if TYPE_CHECKING:
    from ..shapes import Row

# The percentiles over the traces.
SPREAD = 5, 50, 95
HEADS = "node", "agents", "figure", "trace", *(f"p{percent}" for percent in SPREAD)


def spreads(
    model: str,
    days: Days,
    nodes: Sequence[str],
    count: int,
    seed: int,
    agents: Sequence[int] = (),
    within: Sequence[int] = (20,),
    percents: Sequence[float] = PERCENTS,
    tell: Callable[[int], None] = lambda done: None,
    parts: Optional[Parts] = None,
) -> Iterator[Row]:
    """Yields the header and the rows (lists, as in HEADS) of a table with a row per node, number of agents and figure: the figure in the trace
    itself, and percentiles of it over this many resampled traces with this seed. With numbers of agents, the one node is a server that pools replace,
    as `mpplan pool` does; pools in the model are pooled again for each trace. With Parts each has a row for "all", and one per part. `tell` is called
    with the number of runs done. Raises what `mpsim.run` does, and ValueError for a pool with a roster, patience or priorities, and for columns of a
    line, an oven or a breakdown.

    >>> from mpsim.times.calendar import Calendar
    >>> rows = [["door", str(time), "9"] for time in (10, 86400, 86401, 86402)]
    >>> days = Days(Trace("t.csv", ["source", "time", "talk"], rows), Calendar(10**9), "any")
    >>> model = "model 1\\nsource door\\nserver desk talk from door\\n"
    >>> for row in list(spreads(model, days, ["desk"], 20, 7, within=[5], percents=[90]))[1:]:
    ...     print(*row[2:])
    came 4 2 4 6
    departed 4 2 4 6
    lost 0 0 0 0
    held 0 0 0 0
    mean_wait 6.0 0.0 6.0 8.0
    p90 16 0 16 16
    max 16 0 16 16
    within_5_of_all 0.5 0.333333 0.5 1.0
    within_5_of_departed 0.5 0.333333 0.5 1.0
    """
    if special := rostered_pools(model):
        raise ValueError(f"{special[0]} is a pool with a roster, patience or priorities: run mpplan pool for each trace")
    judge_copies(model, but_pools=True)
    # Found by the trace itself: with the waits of other days a trunk group may lose calls.
    known = model_pools(model.encode(errors="surrogateescape"), days.trace)
    seen: Dict[Tuple[str, Optional[int], str], List[Row]] = {}
    for number in range(count + 1):
        tell(number)
        trace = days.resampled(seed, number) if number else days.trace
        for visits, many, used in _visits(model, recomputed(trace, known), nodes, agents):
            for name, mine in [("all", visits), *(parts.each(visits, used) if parts else ())]:
                seen.setdefault((visits.node, many, name), []).append([*figures_of(mine, mine.raw_wait, within, percents)])
    yield [*HEADS[:2], *([parts.head] if parts else []), *HEADS[2:]]
    for (node, many, part), (own, *others) in seen.items():
        for at, name in enumerate(heads(within, percents)):
            values = sorted(value for row in others if isinstance(value := row[at], (int, float)))
            found: Row = [values[percentile_of(range(len(values)), percent)] for percent in SPREAD] if values else [None] * len(SPREAD)
            yield [node, many, *([part] if parts else []), name, own[at], *found]


def _visits(model: str, trace: Trace, nodes: Sequence[str], agents: Sequence[int]) -> Iterator[tuple[NodeVisits, int | None, Trace]]:
    """Yields the visits to each node, the number of agents or None, and the trace, for a trace."""
    if agents:
        queue = Queue(model, trace, nodes[0])
        yield from ((queue.visits(many), many, trace) for many in agents)
        return
    report = run(model.encode(errors="surrogateescape"), trace.lines(), jobs=True)
    yield from ((visits, None, trace) for visits in visits_to(report, places_of(report, nodes)))
