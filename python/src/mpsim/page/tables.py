"""Makes the tables of a page and formats their figures."""

from __future__ import annotations

from html import escape
from typing import TYPE_CHECKING, Callable, NamedTuple, Optional

from ..agents.pools import pooled, visits_in
from ..lines import PASSED, Node

if TYPE_CHECKING:
    from ..report import Report
    from collections.abc import Iterable, Sequence


class Column(NamedTuple):
    """A column of the table of nodes: its head, the explanation of the head, and the figure (int or float, or None) of a node of a report."""

    name: str
    says: str
    of: Callable[[Report, Node], Optional[float]]


def _rounded(value: float | None, digits: int) -> float | None:
    return None if value is None else round(value, digits)


COLUMNS = [
    Column("in", "visits", lambda report, node: node.in_),
    Column("out", "visits that departed", lambda report, node: node.out),
    Column("lost", "visits that were turned away", lambda report, node: node.lost),
    Column("held", "visits held by a join to the end", lambda report, node: node.held),
    Column("share lost", "lost / in", lambda report, node: _rounded(node.share_lost, 4)),
    Column("mean wait", "Wq: wait / out", lambda report, node: _rounded(node.mean_wait, 3)),
    Column("p50", "half waited no longer", lambda report, node: node.p50),
    Column("p90", "9 of 10 waited no longer", lambda report, node: node.p90),
    Column("p99", "99 of 100 waited no longer", lambda report, node: node.p99),
    Column("max", "the longest wait", lambda report, node: node.max),
    Column("util", "busy / (servers × span)", lambda report, node: node.util),
    Column("in node", "L: mean number of jobs, area / span", lambda report, node: _rounded(node.area / report.span, 3) if report.span else None),
    Column("peak", "most jobs just after an arrival", lambda report, node: node.peak),
]


def columns_of(reports: Iterable[Report], within: int | None = None) -> list[Column]:
    """Returns the columns of a page, with the share served within this many ticks if requested. Raises ValueError if a report lacks the visits for
    that."""
    if within is None:
        return COLUMNS
    if not all(report.has_visits for report in reports):
        raise ValueError("the share within a time needs job lines: use jobs=True or --jobs")
    most = within
    says = f"share of all arrivals served after at most {most} ticks"
    return [Column(f"within {most}", says, lambda report, node: _rounded(_share(report, node, most), 4)), *COLUMNS]


def _share(report: Report, node: Node, within: int) -> float | None:
    """Returns the share served within this many ticks; None if jobs never wait or get lost there."""
    if node.kind == "pool":
        return pooled(report, node.name).share_within(within)
    return None if node.kind in (*PASSED, "delay") else visits_in(report)[node.name].share_within(within)


def shown(value: float | None) -> str:
    """Formats a figure for reading (str)."""
    if value is None:
        return "–"
    if isinstance(value, int):
        return f"{value:,}"
    return f"{value:,.4f}".rstrip("0").rstrip(".")


def _cell(value: float | None) -> str:
    return f'<td data-v="{"" if value is None else value}">{shown(value)}</td>'


def head_of(words: Iterable[tuple[str, str]], is_still: bool = False) -> str:
    """Returns the row at the head of a table, from pairs of a word and its explanation: buttons that sort, except in a still table."""
    if is_still:
        return "<tr>" + "".join(f'<th scope="col" title="{escape(says)}">{escape(word)}</th>' for word, says in words) + "</tr>"
    cells = (f'<th scope="col" aria-sort="none"><button type="button" title="{escape(says)}">{escape(word)}</button></th>' for word, says in words)
    return f"<tr>{''.join(cells)}</tr>"


def _table(name: str, caption: str, words: Iterable[tuple[str, str]], rows: Iterable[str], is_still: bool) -> str:
    identity = "" if is_still else f' id="{name}"'
    head = head_of(words, is_still)
    return f"<table{identity}><caption>{caption}</caption><thead>{head}</thead><tbody>{''.join(rows)}</tbody></table>"


def nodes_table(report: Report, nodes: Iterable[Node], columns: Sequence[Column], is_still: bool = False) -> str:
    """Returns the table of these nodes (list of Node) of a report."""
    rows = []
    for item in nodes:
        cells = "".join(_cell(column.of(report, item)) for column in columns)
        rows.append(f'<tr data-node="{item.name}"><th scope="row">{item.name}</th><td>{item.kind}</td>{cells}</tr>')
    words = [("node", "name"), ("kind", "kind"), *((column.name, column.says) for column in columns)]
    return _table("nodes", "Nodes, times in ticks", words, rows, is_still)


def exits_table(report: Report, is_still: bool = False) -> str:
    """Returns the table of the outputs that no node reads."""
    rows = []
    for item in report.exits:
        mean = _rounded(item.sojourn / item.jobs, 3) if item.jobs else None
        rows.append(f'<tr><th scope="row">{item.name}.{item.output}</th>{_cell(item.jobs)}{_cell(mean)}</tr>')
    words = [("exit", "output that no node reads"), ("jobs", "jobs that left"), ("mean sojourn", "from arriving in the network to leaving it")]
    return _table("exits", "Where jobs left the network", words, rows, is_still)


def facts(report: Report) -> str:
    """Returns a line about the whole run."""
    mean = report.mean_sojourn
    return f"{report.jobs:,} jobs, span {report.span:,} ticks" + ("" if mean is None else f", mean time in the network {mean:,.1f} ticks")


def legend() -> str:
    """Returns the legend of the network's colours."""
    steps = "".join(f'<span class="load{number}">{20 * number - 20}–{20 * number} %</span>' for number in range(1, 6))
    return f'<p class="legend">Utilisation: {steps}<span class="load0">no servers</span> The width of a line shows how many jobs took it.</p>'
