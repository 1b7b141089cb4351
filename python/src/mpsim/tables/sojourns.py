"""Reports how long jobs were in the network, from the source where they arrived to the node where they left."""

from __future__ import annotations

from bisect import bisect_right
from collections import defaultdict
from itertools import chain
from typing import TYPE_CHECKING, NamedTuple

from ..leaving import leaving
from ..node_visits import numpy_for, percentile_of
from .service import PERCENTS

if TYPE_CHECKING:
    from collections.abc import Iterator, Sequence
    from typing import Any

    from ..report import Reading, Report
    from ..shapes import Row
    from ..traces.groups import Groups


class Ways(NamedTuple):
    """The ways of all jobs of a report, by column: their records (from 1), the numbers of their sources in the report, their arrivals, and twice the
    number of the node where they left, plus 1 if they were lost there, and their times in the network."""

    job: Sequence[int]
    source: Sequence[int]
    came: Sequence[int]
    end: Sequence[int]
    sojourn: Sequence[int]


class Sojourn(NamedTuple):
    """A job's way: its record (int, from 1), its source (str), its arrival (int, ticks), the node where it left (str), whether it was lost there, and
    its time in the network (int, ticks)."""

    job: int
    source: str
    came: int
    left_at: str
    lost: bool
    sojourn: int


def sojourns(report: Report | Reading) -> Iterator[Sojourn]:
    """Returns the way (Sojourn) of each job of a report with visits, or of a Reading, in the order of records. A forked job is done when its last
    part leaves; of several nodes left at that time, the last in the report counts. A job with a part that a join holds to the end has no sojourn and
    is left out.

    >>> import mpsim
    >>> from mpsim.tables.sojourns import sojourns
    >>> model = "model 1\\nsource door\\nloss desk 2 =4 from door\\ndelay out =1 from desk\\n"
    >>> for it in sojourns(mpsim.run(model, [("door", 0), ("door", 0), ("door", 1)], jobs=True)):
    ...     print(it.job, it.left_at, it.lost, it.sojourn)
    1 out False 5
    2 out False 9
    3 desk True 0
    """
    every, names = ways(report), [node.name for node in report.nodes]
    return (Sojourn(job, names[source], came, names[end // 2], bool(end % 2), sojourn) for job, source, came, end, sojourn in zip(*every))


def ways(report: Report | Reading) -> Ways:
    """Returns the ways (Ways) of the jobs of a report with visits, as `sojourns` defines them, computed with numpy if there are many visits and it is
    installed. Of a Reading (`mpsim.visits`) only the visits after which jobs may leave are read.

    >>> import mpsim
    >>> from mpsim.tables.sojourns import ways
    >>> report = mpsim.run("model 1\\nsource door\\nloss desk 1 =4 from door\\n", [("door", 0), ("door", 1)], jobs=True)
    >>> [list(column) for column in ways(report)]
    [[1, 2], [0, 0], [0, 1], [2, 3], [4, 0]]
    """
    return Ways(*leaving(report).ways())


def table(report: Report | Reading, by: str | Groups = "both", within: Sequence[int] = (), percents: Sequence[float] = PERCENTS) -> Iterator[Row]:
    """Yields the header and the rows (lists) of a table of a report with visits, or of a Reading, in the order of its nodes. Rows are per source and
    node where jobs left (`by` "both"), per source ("source"), per node ("end"), for all jobs ("all"), or per group of records (Groups of
    `traces.groups`). Each has the number of jobs, the mean of their sojourns to three decimals, percentiles and the longest, and the share of at most
    each of `within` ticks, to six decimals. Rows by node list lost jobs separately. Others have their number, `lost`: sojourns are those of the jobs
    that weren't lost, and shares are those of all. Raises ValueError if the groups are those of another number of records.

    >>> import mpsim
    >>> from mpsim.tables.sojourns import table
    >>> report = mpsim.run("model 1\\nsource door\\nloss desk 2 =4 from door\\n", [("door", 0), ("door", 0), ("door", 0)], jobs=True)
    >>> for by in "both", "source":
    ...     for row in table(report, by, within=[4], percents=[90]):
    ...         print(*row)
    source left_at how jobs mean_sojourn p90 max within_4
    door desk left 2 6.0 8 8 0.5
    door desk lost 1 0.0 0 0 1.0
    source jobs lost mean_sojourn p90 max within_4
    door 3 1 6.0 8 8 0.333333
    """
    names, figures = [node.name for node in report.nodes], ["mean_sojourn", *(f"p{percent:.15g}" for percent in percents), "max"]
    figures += [f"within_{item}" for item in within]
    every = ways(report)
    if by in ("both", "end"):
        yield [*(["source"] if by == "both" else []), "left_at", "how", "jobs", *figures]
        for key, times in grouped([every.source, every.end] if by == "both" else [every.end], every.sojourn):
            shown: Row = [names[key[0]]] if by == "both" else []
            yield [*shown, names[key[-1] // 2], "lost" if key[-1] % 2 else "left", len(times), *_figures(times, len(times), within, percents)]
        return
    head, labels, column = _groups(by, names, every, report.jobs)
    yield [*head, "jobs", "lost", *figures]
    losses = [end % 2 for end in every.end] if any(end % 2 for end in set(every.end)) else [0] * len(every.end)
    found = dict(grouped([column, losses], every.sojourn))
    for number in sorted({key[0] for key in found}):
        times, lost = found.get((number, 0), []), len(found.get((number, 1), []))
        yield [*labels[number : number + len(head)], len(times) + lost, lost, *_figures(times, len(times) + lost, within, percents)]


def _groups(by: str | Groups, names: list[str], every: Ways, jobs: int) -> tuple[list[str], list[str], Sequence[int]]:
    """Returns the head of the column of groups, if there is one, their labels, and the number of each job's group."""
    if by == "source":
        return ["source"], names, every.source
    if isinstance(by, str):
        return [], [], [0] * len(every.job)
    if len(by.numbers) != jobs:
        raise ValueError(f"the column {by.name!r} has {len(by.numbers)} values, but {jobs} jobs were run")
    return [by.name], by.labels, [by.numbers[job - 1] for job in every.job]


def _figures(times: list[int], jobs: int, within: Sequence[int], percents: Sequence[float]) -> Row:
    """Returns the figures of sojourns in rising order, and shares of this many jobs."""
    shares = [round(bisect_right(times, item) / jobs, 6) for item in within]
    if not times:
        return [*(None for _ in (0, 1, *percents)), *shares]
    return [round(sum(times) / len(times), 3), *(percentile_of(times, percent) for percent in percents), times[-1], *shares]


def grouped(keys: Sequence[Sequence[int]], times: Sequence[int]) -> list[tuple[tuple[int, ...], list[int]]]:
    """Returns pairs of a key (tuple of int) and its times in rising order (list of int), in the order of the keys. `keys` has one or two columns of
    numbers below 2^31.

    >>> from mpsim.tables.sojourns import grouped
    >>> grouped([[1, 0, 1]], [9, 5, 4])
    [((0,), [5]), ((1,), [4, 9])]
    """
    # In most networks a column has one value, and needs no sorting.
    only = [column[0] if len(set(column)) == 1 else None for column in keys]
    varying = [column for column, value in zip(keys, only) if value is None]
    numpy, made = numpy_for(len(times)), []
    for found, mine in _by_numpy(numpy, varying, times) if numpy else _by_python(varying, times):
        parts = iter(found)
        made.append((tuple(next(parts) if value is None else value for value in only), mine))
    return made


def _by_python(keys: Sequence[Sequence[int]], times: Sequence[int]) -> list[tuple[tuple[int, ...], list[int]]]:
    """Does what `grouped` does, with any number of columns."""
    if not keys:
        return [((), sorted(times))]
    found: dict[tuple[int, ...], list[int]] = defaultdict(list)
    for key, time in zip(zip(*keys), times):
        found[key].append(time)
    return sorted((key, sorted(mine)) for key, mine in found.items())


def _by_numpy(numpy: Any, keys: Sequence[Sequence[int]], times: Sequence[int]) -> list[tuple[tuple[int, ...], list[int]]]:
    """Does what _by_python does, with numpy."""
    every = numpy.asarray(times)
    if not keys:
        return [((), numpy.sort(every).tolist())]
    columns = [numpy.asarray(column, "i8") for column in keys]
    codes = sum(column << 31 * at for at, column in enumerate(reversed(columns)))
    order = numpy.lexsort((every, codes))
    begins = [0, *(numpy.flatnonzero(numpy.diff(codes[order])) + 1).tolist(), len(order)]
    return [(tuple(int(column[order[begin]]) for column in columns), every[order[begin:end]].tolist()) for begin, end in zip(begins, begins[1:])]


def each(report: Report | Reading) -> Iterator[Row]:
    """Returns the header and the rows (lists) of a table with a row per job."""
    rows = ([it.job, it.source, it.came, it.left_at, "lost" if it.lost else "left", it.sojourn] for it in sojourns(report))
    return chain([["job", "source", "came", "left_at", "how", "sojourn"]], rows)
