"""Makes a table of pools with different numbers of agents."""

from __future__ import annotations

from typing import TYPE_CHECKING, Optional

from ..agents.pools import pooled
from .service import PERCENTS, figures, heads

if TYPE_CHECKING:
    from collections.abc import Iterable, Iterator, Sequence

    from ..agents.queues import Queue
    from ..shapes import Row
    from .visits import Parts


def staffing(
    queue: Queue,
    agents: Iterable[int],
    within: Sequence[int] = (20,),
    percents: Sequence[float] = PERCENTS,
    by: str = "trunk",
    parts: Optional[Parts] = None,
) -> Iterator[Row]:
    """Yields the header and the rows (lists) of a table of pools at a Queue, a row per number of agents (iterable of int): the share of the span
    during which they worked, and the `figures`. With Parts, each number has a row for "all", and one per part, without the share of the span.

    >>> from mpsim.agents.queues import Queue
    >>> from mpsim.tables.pools import staffing
    >>> from mpsim.traces import Trace
    >>> trace = Trace("t.csv", ["source", "time", "talk"], [["door", "0", "9"], ["door", "1", "9"], ["door", "2", "4"]])
    >>> queue = Queue("model 1\\nsource door\\nserver desk talk from door\\n", trace, "desk")
    >>> for row in staffing(queue, [1, 2], percents=[90]):
    ...     print(row)
    ['agents', 'util', 'came', 'departed', 'lost', 'held', 'mean_wait', 'p90', 'max', 'within_20_of_all', 'within_20_of_departed']
    [1, '1.0000', 3, 3, 0, 0, 8.0, 16, 16, 1.0, 1.0]
    [2, '0.8461', 3, 3, 0, 0, 2.333, 7, 7, 1.0, 1.0]
    """
    yield ["agents", *([parts.head] if parts else []), "util", *heads(within, percents)]
    for count in agents:
        report = queue.run(count, by)
        visits = pooled(report, queue.node)
        worked = sum(visits.raw_depart) - sum(visits.arrive) - sum(visits.raw_wait)
        # Truncated to four digits, as in a report.
        util = 10**4 * worked // (count * report.span) if report.span else 0
        yield [count, *(["all"] if parts else []), f"{util / 10**4:.4f}", *figures(visits.raw_wait, within, percents)]
        for name, mine in parts.each(visits, queue.trace) if parts else ():
            yield [count, name, None, *figures(mine.raw_wait, within, percents)]
