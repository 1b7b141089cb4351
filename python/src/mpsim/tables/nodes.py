"""Makes tables for spreadsheets from a report or a sweep."""

from __future__ import annotations

from typing import TYPE_CHECKING

from ..agents.pools import names_of, visits_at, with_pools
from ..lines import NUMBERS
from ..node_visits import Visit
from ..sweeps.results import Sweep

if TYPE_CHECKING:
    from collections.abc import Collection, Iterable, Iterator, Sequence

    from ..report import Report
    from ..shapes import Row
    from ..sweeps.results import Scenario


def heads(of: str = "nodes") -> list[str]:
    """Returns the names of the columns (list of str)."""
    return {"nodes": ["node", "kind", *NUMBERS], "exits": ["node", "output", "jobs", "sojourn"], "visits": list(Visit._fields)}[of]


def rows(report: Report, of: str = "nodes", nodes: Collection[str] = ()) -> Iterator[Row]:
    """Returns the rows (lists) of a report's nodes, exits or visits, in its order; only those of `nodes` if there are any. A pool replaces its queue
    and its trunk group, except for exits (`agents.pools.with_pools`). Missing figures are None. Raises ValueError for an unknown node, and if there
    are no visits."""
    names = names_of(report, nodes)
    if of == "visits" and not report.has_visits and report.jobs:
        raise ValueError("the report has no job lines: run mpsim with --jobs")
    if of == "visits":
        return (row for visits in (visits_at(report, names) if report.has_visits else ()) for row in visits.rows())
    if of == "exits":
        return (list(item) for item in report.exits if not nodes or item.name in nodes)
    return ([*with_pool[:-1], None if with_pool.util is None else f"{with_pool.util:.4f}"] for with_pool in with_pools(report, nodes).values())


def table(told: Report | Sweep, of: str = "nodes", nodes: Collection[str] = (), head: str = "scenario") -> Iterator[Row]:
    """Yields the header and the rows (lists) of a report or a sweep. Rows of a sweep begin with the label, the status and the span of their scenario,
    and end with the error line of a refused one, which has one row.

    >>> import mpsim
    >>> from mpsim.tables.nodes import table
    >>> report = mpsim.run("model 1\\nsource door\\nserver desk =4 from door\\n", [("door", 0), ("door", 1)])
    >>> for row in table(report, "exits"):
    ...     print(row)
    ['node', 'output', 'jobs', 'sojourn']
    ['desk', 0, 2, 11]
    """
    names = heads(of)
    if not isinstance(told, Sweep):
        return _with_head(names, rows(told, of, nodes))
    # All scenarios are checked before a row is written.
    found = [(item, rows(item.report, of, nodes) if item.report is not None else None) for item in told.values()]
    return _with_head([head, "status", "span", *names, "refusal"], _of_scenarios(found, len(names)))


def _with_head(names: Sequence[str], found: Iterable[Row]) -> Iterator[Row]:
    yield list(names)
    yield from found


def _of_scenarios(found: Iterable[tuple[Scenario, Iterable[Row] | None]], count: int) -> Iterator[Row]:
    for it, mine in found:
        if mine is None or it.report is None:
            yield [it.label, it.status, *[None] * (count + 1), it.refusal.told if it.refusal else None]
        else:
            yield from ([it.label, it.status, it.report.span, *row, None] for row in mine)
