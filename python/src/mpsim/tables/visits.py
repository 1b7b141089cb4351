"""Finds the visits to nodes and pools of a report."""

from __future__ import annotations

from bisect import bisect_right
from typing import TYPE_CHECKING, Callable, List, NamedTuple, Optional, Tuple

from ..agents.pools import names_of, pooled, pools, queue_name, visits_at
from ..lines import PASSED
from ..node_visits import FIELDS, NodeVisits, Visits
from ..times.texts import WEEKDAYS
from ..traces.trace import Trace

if TYPE_CHECKING:
    from collections.abc import Collection, Iterable, Iterator, Sequence

    from ..report import Report
    from ..times.calendar import Calendar


class Passing(NodeVisits):
    """The visits to a node at which no job waits for a server, such as a delay: it has no waits to report."""

    __slots__ = ()


def _of_delays(report: Report, found: list[NodeVisits]) -> list[NodeVisits]:
    """Returns visits (list of NodeVisits) with those to delays as Passing."""
    for at, visits in enumerate(found):
        if visits.node in report.by_name and report.by_name[visits.node].kind == "delay":
            found[at] = Passing(visits.node)
            found[at].extend(visits)
    return found


def places_of(report: Report, nodes: Collection[str] = ()) -> list[str]:
    """Returns the names (list of str) of these nodes and pools of a report, by default of all where jobs may stay, with each pool in place of its
    queue and its trunk group. Raises ValueError for an unknown name."""
    known = pools(report)
    if not nodes:
        return [name for name in names_of(report) if name in known or report.by_name[name].kind not in PASSED]
    for name in nodes:
        if name not in report and name not in known:
            raise ValueError(f"no node {name!r}; it has {', '.join(node.name for node in report.nodes)}")
    # A delay that holds the waits of a pool is the pool.
    queues = {queue_name(pool): pool for pool in known}
    return [queues.get(name, name) for name in nodes]


def visits_to(report: Report, names: Iterable[str]) -> list[NodeVisits]:
    """Returns the visits (list of NodeVisits) to these nodes and pools of a report with visits, those to delays as Passing."""
    known = pools(report)
    return [it for name in names for it in ([pooled(report, name)] if name in known else _of_delays(report, visits_at(report, [name])))]


def sources_in(report: Report) -> dict[int, str]:
    """Returns the source (str) of each job of a report with visits, by its record (int, from 1).

    >>> import mpsim
    >>> report = mpsim.run("model 1\\nsource phone\\nsource mail\\nserver desk =4 from phone mail\\n", [("phone", 0), ("mail", 1)], jobs=True)
    >>> sources_in(report)
    {1: 'phone', 2: 'mail'}
    """
    visits = report.visits if report.has_visits else Visits()
    return {job: node.name for node in report.nodes if node.kind == "source" and node.name in visits for job in visits[node.name].job}


def of_source(visits: NodeVisits, sources: dict[int, str], names: Sequence[str]) -> NodeVisits:
    """Returns those of some visits whose jobs come from sources of these names; `sources` is what `sources_in` returns."""
    kept = [at for at, job in enumerate(visits.job) if sources[job] in names]
    found = type(visits)(visits.node)
    for name in FIELDS:
        column = getattr(visits, name)
        getattr(found, name).extend([column[at] for at in kept])
    return found


class Parts(NamedTuple):
    """What a table has rows of, beside all visits: the name of the column (`head`), the names in order (list of str), and the name of each visit,
    from some NodeVisits and the trace (Trace) of their run."""

    head: str
    names: List[str]
    of: Callable[[NodeVisits, Trace], List[str]]

    def each(self, visits: NodeVisits, trace: Trace) -> Iterator[Tuple[str, NodeVisits]]:
        """Yields each name and its visits, which may be none.

        >>> from mpsim.times.calendar import Calendar
        >>> visits, days = NodeVisits("desk"), Calendar(10**9, "2026-03-02T00:00")
        >>> for name, column in zip(FIELDS, ([1, 2, 3], [0, 86500, 9], [0, 0, 5], [1, 1, 1])):
        ...     getattr(visits, name).extend(column)
        >>> trace = Trace("t.csv", ["source", "time"], [["b", "0"], ["a", "86500"], ["b", "9"]])
        >>> for parts in parts_by("source", trace), parts_by("weekday", trace, days):
        ...     print(parts.head, [(name, list(mine.job)) for name, mine in parts.each(visits, trace)])
        source [('a', [2]), ('b', [1, 3])]
        weekday [('Monday', [1, 3]), ('Tuesday', [2])]
        """
        places: dict[str, list[int]] = {name: [] for name in self.names}
        for at, name in enumerate(self.of(visits, trace)):
            places[name].append(at)
        for name, kept in places.items():
            found = type(visits)(visits.node)
            for field in FIELDS:
                column = getattr(visits, field)
                getattr(found, field).extend([column[at] for at in kept])
            yield name, found


def parts_by(by: str, trace: Trace, days: Optional[Calendar] = None) -> Parts:
    """Returns the Parts of visits of traces like this one: by "source", or by "weekday" in a Calendar, with all weekdays up to the last record.
    Raises ValueError for weekdays without dates."""
    if by == "source":

        def sources(visits: NodeVisits, trace: Trace) -> List[str]:
            every = trace.sources()
            return [every[job - 1] for job in visits.job]

        return Parts(by, sorted(set(trace.sources())), sources)
    if days is None or not days.is_dated:
        raise ValueError("--by weekday needs the date of time 0: give --start")
    calendar = days

    def weekdays(visits: NodeVisits, trace: Trace) -> List[str]:
        begins, names = calendar.parts("weekday", max(visits.arrive, default=0))
        return [names[bisect_right(begins, arrive) - 1] for arrive in visits.arrive]

    return Parts(by, sorted(set(calendar.parts("weekday", max(trace.times(), default=0))[1]), key=WEEKDAYS.index), weekdays)


def together(names: dict[str, Iterable[str]]) -> str | None:
    """Returns a line (str) that says at which nodes the figures are those of several sources, from the sources of the jobs at each node; None if each
    has one.

    >>> together({"desk": ["phone", "mail", "phone"], "wrap": ["mail"]})
    'figures of several sources together (mail, phone) at desk'
    """
    several = {node: set(mine) for node, mine in names.items() if len(set(mine)) > 1}
    every = sorted(set().union(*several.values()))
    return f"figures of several sources together ({', '.join(every)}) at {', '.join(several)}" if several else None
