"""Compares a figure of each node across reports."""

from __future__ import annotations

from typing import TYPE_CHECKING

from ..agents.pools import with_pools
from ..sweeps.results import Sweep, load

if TYPE_CHECKING:
    from collections.abc import Collection, Iterable, Iterator, Sequence

    from ..errors import Error
    from ..report import Report
    from ..shapes import Row


def compare(reports: Iterable[Report], figure: str = "p90", nodes: Collection[str] = ()) -> list[tuple[str, list[float | None]]]:
    """Returns pairs of a node's name and its figure in each report (list of int, float or None if the report lacks the node or the figure), for each
    node in the order of the reports. A pool replaces its queue and its trunk group (`agents.pools.with_pools`). Raises AttributeError for an unknown
    figure, ValueError for a node that no report has.

    >>> import mpsim
    >>> from mpsim.tables.comparison import compare
    >>> runs = [mpsim.run(f"model 1\\nsource door\\nserver desk ={it} from door\\n", [("door", 0), ("door", 1)]) for it in (4, 3)]
    >>> compare(runs, "max", ["desk"])
    [('desk', [3, 2])]
    """
    held = [with_pools(report) for report in reports]
    names = list(dict.fromkeys(name for item in held for name in item))
    if nodes:
        # The queue of a pool can be requested by its own name.
        held = [{**{node.name: node for node in report.nodes}, **mine} for report, mine in zip(reports, held)]
        every = list(dict.fromkeys(name for item in held for name in item))
        for name in nodes:
            if name not in every:
                raise ValueError(f"no report has a node {name!r}; they have {', '.join(names)}")
        names = [name for name in every if name in nodes]
    return [(name, [item[name].figure(figure) if name in item else None for item in held]) for name in names]


def _number(value: float | None) -> str:
    """Formats a figure: means with six significant digits, or all digits before the point."""
    if isinstance(value, float):
        return f"{value:.6g}" if abs(value) < 10**6 else f"{value:.0f}"
    return "-" if value is None else str(value)


def _difference(value: float | None, first: float | None) -> float | None:
    if value is None or first is None:
        return None
    return round(value - first, 6) if isinstance(value - first, float) else value - first


def aligned(labels: Sequence[str], found: Iterable[tuple[str, Sequence[float | None]]]) -> Iterator[str]:
    """Yields the lines of an aligned table, in which each figure but the first is followed by its difference from the first."""
    rows = [["", *labels]]
    for name, values in found:
        shown = [_number(values[0])]
        for value in values[1:]:
            more = _difference(value, values[0])
            shown.append(_number(value) + ("" if more is None else f" ({'+' if more >= 0 else ''}{_number(more)})"))
        rows.append([name, *shown])
    widths = [max(map(len, column)) for column in zip(*rows)]
    for name, *rest in rows:
        yield "  ".join([name.ljust(widths[0]), *(it.rjust(width) for it, width in zip(rest, widths[1:]))]).rstrip() + "\n"


def differences(labels: Sequence[str], found: Iterable[tuple[str, Sequence[float | None]]]) -> Iterator[Row]:
    """Yields the header and the rows of a CSV table."""
    yield ["node", *labels, *(f"{label} less {labels[0]}" for label in labels[1:])]
    for name, values in found:
        yield [name, *values, *(_difference(value, values[0]) for value in values[1:])]


def labelled_in(paths: Sequence[str]) -> Iterator[tuple[str, Report | Error]]:
    """Yields pairs of a label and a report. A report is labelled with its path, the scenarios of a single sweep with their numbers. For a refused
    scenario the report is its Error."""
    for path in paths:
        loaded = load(path)
        if isinstance(loaded, Sweep):
            for label, it in loaded.items():
                if found := it.report or it.refusal:
                    yield f"{path} {label}" if len(paths) > 1 else str(label), found
        else:
            yield path, loaded
