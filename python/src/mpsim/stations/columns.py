"""The columns that the modules of this package, and pools, write into a trace: which they are, and whether they hold."""

from __future__ import annotations

import contextlib
from typing import TYPE_CHECKING

from ..agents.networks import in_front
from ..agents.pools import queue_name
from ..model import nodes_of
from ..node_visits import NodeVisits
from ..traces.trace import pool_warning

if TYPE_CHECKING:
    from collections.abc import Collection, Iterable, Iterator, Mapping, Sequence

    from ..model import ModelNode
    from ..report import Report


# What `_made` says of the columns of pools begins with.
POOLED = "the queue ", "the pool "


def held_name(machine: str) -> str:
    """Returns the column with the time that a part spends at a machine of a line: its work, and the time for which it stays blocked."""
    return f"{machine}_held"


def down_name(node: str, stage: int | None = None) -> str:
    """Returns the column with the service times of a node, or of a stage of a tandem (int, from 1), that include repairs."""
    return f"{node}_down" if stage is None else f"{node}_{stage}_down"


def batch_name(node: str) -> str:
    """Returns the column with the number of the batch in which a unit is, from 1."""
    return f"{node}_batch"


def fill_name(node: str) -> str:
    """Returns the delay in which units wait until their batch begins; the name differs from that of a pool's queue."""
    return f"{node}_fill"


def judge_names(node: str, names: Iterable[str]) -> None:
    """Raises ValueError if one of these names (iterable of str), which are made from a node's, is too long for a node or a column."""
    for name in names:
        if len(name) > 32:
            raise ValueError(f"the name {name!r} is longer than 32 characters: give {node} a shorter name")


def _made(node: ModelNode) -> str | None:
    """Returns what worked out the columns that a node reads: a pool, a batch, a line or a breakdown; None if nothing did."""
    words = node.arguments.split()
    name = node.name.removesuffix(queue_name(""))
    if node.kind == "delay" and node.name == queue_name(name) and words == [f"{name}_wait"]:
        return f"the queue at {name}"
    if node.kind == "delay" and node.name.endswith(fill_name("")) and words == [f"{node.name.removesuffix(fill_name(''))}_wait"]:
        return f"the oven {node.name.removesuffix(fill_name(''))}"
    if node.kind == "split" and words[:1] == ["cut"] and words[1].endswith("_agent"):
        return f"the pool at {words[1].removesuffix('_agent')}"
    if node.kind == "server" and words == [held_name(node.name)]:
        return f"the line of {node.name}"
    if any(word in (down_name(node.name), *(down_name(node.name, stage) for stage in range(1, 5))) for word in words):
        return f"the breakdown at {node.name}"
    return None


def _nodes(text: str) -> dict[str, ModelNode]:
    """Returns the nodes of a model's text by name; none for a text that this reader can't parse, which is left to the run that rejects it."""
    with contextlib.suppress(ValueError):
        return {node.name: node for node in nodes_of(text)}
    return {}


def ovens_in(text: str) -> list[str]:
    """Returns the ovens (list of str) in a model's text whose batches `mpplan batch` worked out.

    >>> from mpsim.stations.columns import ovens_in
    >>> ovens_in("model 2\\nsource units\\ndelay oven_fill oven_wait from units\\ntrunk oven 2 =20 from oven_fill\\n")
    ['oven']
    """
    return [node.name.removesuffix(fill_name("")) for node in nodes_of(text) if (_made(node) or "").startswith("the oven ")]


def judge_copies(text: str, but_pools: bool = False) -> None:
    """Raises ValueError if nodes of a model's text read columns that were worked out for the trace as it is, which its records must then keep; with
    `but_pools` (bool) columns of pools may be among them, whose waits are worked out again."""
    for node in _nodes(text).values():
        made = _made(node)
        if made and not (but_pools and made.startswith(POOLED)):
            raise ValueError(f"{made}: its columns hold only for this trace; change the model and the trace before that, then work them out again")


def judge_order(nodes: Mapping[str, ModelNode], name: str, what: str) -> None:
    """Raises ValueError if columns that were worked out before are read at the node of this name, or downstream of it: they hold only for the times
    at which jobs come there. `nodes` are those of the model by name (dict of ModelNode); `what` (str) is what is to be worked out at the node."""
    for item in nodes.values():
        made = _made(item)
        if made and item.name == name:
            raise ValueError(f"{made} is at {name}: its columns hold only without {what}; give the model and the trace before that")
        if made and name in in_front(nodes, [item.name]):
            why = "its columns hold only for the times at which jobs come there"
            raise ValueError(f"{made} is downstream of {name}: {why}; work out {what} at {name} first")


def judge_services(demands: Iterable[str]) -> None:
    """Raises ValueError if the service times of machines in a line (iterable of str, as a model writes them) are columns that `mpplan line` or `down`
    worked out: these hold only for the times at which parts came there without this line."""
    for name in _worked([*demands]):
        how = "with breakdowns" if name.endswith(down_name("")) else "with the time for which parts are blocked"
        why = f"it has the service times {how}, which hold only for the times at which parts came there before"
        raise ValueError(f"{name} is a column that mpplan worked out: {why}; give the column before that (if this one is your own, rename it)")


def judge_varied(text: str, pools: Collection[str]) -> None:
    """Raises ValueError if a model's text has an oven, a line or a breakdown downstream of one of these pools (collection of str), whose number of
    agents varies: its columns hold for one of the numbers."""
    nodes = _nodes(text)
    for item in nodes.values():
        made, above = _made(item), in_front(nodes, [item.name])
        if made and not made.startswith(POOLED):
            for pool in pools:
                if queue_name(pool) in above:
                    raise ValueError(f"{made} is downstream of the pool {pool}: its columns hold for one number of agents; work it out for each")


def judge_departures(report: Report, departs: Mapping[str, Sequence[int]]) -> None:
    """Raises ValueError if the jobs that some nodes serve leave them at other times, in a report with visits (Report), than those worked out
    (sequences of int by the name of the node, in order of arrival)."""
    for name, times in departs.items():
        # A network without jobs has no job lines.
        visits = report.visits[name] if report.has_visits and report.visits else NodeVisits(name)
        if list(times) != [end for end, wait in zip(visits.raw_depart, visits.raw_wait) if wait >= 0]:
            raise ValueError(f"jobs leave {name} at other times than those worked out: this is a mistake in mpplan")


def worked_warning(path: str, header: Sequence[str]) -> str | None:
    """Returns a warning (str) about a trace with columns that `mpplan line`, `down` or `batch` may have written, given by its path and header; None
    for any other trace.

    >>> from mpsim.stations.columns import worked_warning
    >>> worked_warning("parts.csv", ["source", "time", "mill", "mill_held"])
    'warning: parts.csv has columns that mpplan worked out (mill_held): they hold only for this trace; change it first, then work them out again'
    >>> worked_warning("parts.csv", ["source", "time", "mill"])
    """
    if not (found := list(_worked(header[2:]))):
        return None
    why = "they hold only for this trace; change it first, then work them out again"
    return f"warning: {path} has columns that mpplan worked out ({', '.join(found)}): {why}"


def made_warning(path: str, header: Sequence[str]) -> str | None:
    """Returns a warning (str) about a trace with columns that `mpplan` worked out, for a pool or as `worked_warning` finds them, given by its path
    and header; None for any other trace."""
    return pool_warning(path, header) or worked_warning(path, header)


def _worked(names: Sequence[str]) -> Iterator[str]:
    for name in names:
        base, _, end = name.rpartition("_")
        if base and (end in ("held", "down") or end == "batch" and f"{base}_wait" in names):
            yield name
