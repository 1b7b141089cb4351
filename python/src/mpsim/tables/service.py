"""Reports the service level: how many were served, how soon, and how long the others waited."""

from __future__ import annotations

from bisect import bisect_right
from typing import TYPE_CHECKING

from ..node_visits import HELD, LOST, percentile_of
from .visits import Passing, of_source

if TYPE_CHECKING:
    from collections.abc import Iterable, Iterator, Sequence

    from ..node_visits import NodeVisits
    from ..shapes import Row

PERCENTS = 50, 90, 95, 99


def heads(within: Sequence[int] = (20,), percents: Sequence[float] = PERCENTS) -> list[str]:
    """Returns the names (list of str) of what `figures` returns."""
    shares = [f"within_{item}_of_{whom}" for item in within for whom in ("all", "departed")]
    return ["came", "departed", "lost", "held", "mean_wait", *(f"p{percent:.15g}" for percent in percents), "max", *shares]


def figures(waits: Sequence[int], within: Sequence[int] = (20,), percents: Sequence[float] = PERCENTS) -> list[float | None]:
    """Returns the figures (list of int, float or None) of waits as in a NodeVisits, including lost and held visits.

    They are the numbers of visits that arrived, departed, were lost and are held; the mean wait of those that departed, to three decimals, their
    percentiles and the longest, None if none departed; and for each of `within` the visits that departed after a wait of at most this many ticks, as
    a share of all arrivals and of all departures, to six decimals, None if there are none. Lost and held visits aren't served.

    >>> from mpsim.tables.service import figures
    >>> figures([0, 3, -1, 7], within=[3], percents=[50])
    [4, 3, 1, 0, 3.333, 3, 7, 0.5, 0.666667]
    """
    departed = sorted(wait for wait in waits if wait >= 0)
    counts = [len(waits), len(departed), sum(wait == LOST for wait in waits), sum(wait == HELD for wait in waits)]
    found: list[int | None] = [percentile_of(departed, percent) if departed else None for percent in percents]
    mean, greatest = (round(sum(departed) / len(departed), 3), departed[-1]) if departed else (None, None)
    shares = [round(bisect_right(departed, item) / count, 6) if count else None for item in within for count in (len(waits), len(departed))]
    return [*counts, mean, *found, greatest, *shares]


def figures_of(visits: NodeVisits, waits: Sequence[int], within: Sequence[int] = (20,), percents: Sequence[float] = PERCENTS) -> list[float | None]:
    """Returns the `figures` of some waits among visits; of visits to a delay only the counts, since nobody waits there for a server."""
    found = figures(waits, within, percents)
    return [*found[:4], *[None] * (len(found) - 4)] if isinstance(visits, Passing) else found


def service(
    visits: Iterable[NodeVisits], within: Sequence[int] = (20,), percents: Sequence[float] = PERCENTS, sources: dict[int, str] | None = None
) -> Iterator[Row]:
    """Yields the header and the rows (lists) of a table of visits (list of NodeVisits), a row each, with what `figures` returns. With the source of
    each job, as `sources_in` returns it, each has a row for "all" and a row per source.

    >>> import mpsim
    >>> from mpsim.tables.service import service
    >>> model = "model 1\\nsource door\\nloss desk 2 =4 from door\\n"
    >>> visits = mpsim.run(model, [("door", 0), ("door", 0), ("door", 0)], jobs=True).visits
    >>> for row in service([visits["desk"]], within=[3], percents=[90]):
    ...     print(row)
    ['node', 'came', 'departed', 'lost', 'held', 'mean_wait', 'p90', 'max', 'within_3_of_all', 'within_3_of_departed']
    ['desk', 3, 2, 1, 0, 2.0, 4, 4, 0.333333, 0.5]
    """
    yield ["node", *([] if sources is None else ["source"]), *heads(within, percents)]
    for visit in visits:
        yield [visit.node, *([] if sources is None else ["all"]), *figures_of(visit, visit.raw_wait, within, percents)]
        for name in () if sources is None else sorted({sources[job] for job in visit.job}):
            mine = of_source(visit, sources or {}, [name])
            yield [visit.node, name, *figures_of(mine, mine.raw_wait, within, percents)]
