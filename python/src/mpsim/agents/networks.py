"""The nodes of a pool in a model: its lines, and what is upstream of it."""

from __future__ import annotations

from typing import TYPE_CHECKING

from ..limits import INPUTS, OUTPUTS, TRUNK
from ..model import nodes_of
from .pools import agent_name, end_names, gone_name, left_name, queue_name

if TYPE_CHECKING:
    from collections.abc import Iterable, Mapping, Sequence

    from ..model import ModelNode

# What tells a model with such a pool from one whose waits can be worked out again from a number of agents.
ROSTERED = "# {node} is a pool with a roster, patience or priorities: its waits hold only for this trace"


def inputs_of(node: ModelNode) -> str:
    """Returns the inputs of a node (ModelNode) as text."""
    return " ".join(name + (f".{output}" if output else "") for name, output in node.inputs)


def front(text: str, names: Iterable[str]) -> str:
    """Returns the model (str) of the nodes with these names, everything upstream of them, and the sources, without a bound. Jobs arrive at the same
    times in it, and none is late. Lines keep their numbers."""
    kept = in_front({node.name: node for node in nodes_of(text)}, names)
    lines = [(line, line.split()) for line in text.split("\n")]
    return "\n".join(line if words[:1] in (["model"], ["source"]) or kept.intersection(words[1:2]) else "" for line, words in lines)


def in_front(nodes: Mapping[str, ModelNode], names: Iterable[str]) -> set[str]:
    """Returns the names (set of str) of nodes and of everything upstream of them; `nodes` are those of the model by name (dict of ModelNode)."""
    found, left = set(), [name for name in names if name in nodes]
    while left:
        name = left.pop()
        if name not in found:
            found.add(name)
            left += [it for it, _ in nodes[name].inputs if it in nodes]
    return found


def trunk_lines(node: str, agents: int, demand: str, inputs: str) -> list[str]:
    """Returns the lines of a pool (list of str) as a delay, in which calls wait, and a trunk group, where each call then finds a free server."""
    if not 1 <= agents <= TRUNK:
        raise ValueError(f"a pool as a trunk group has 1 to {TRUNK} agents, not {agents}")
    return [f"delay {queue_name(node)} {node}_wait from {inputs}", f"trunk {node} {agents} {demand} from {queue_name(node)}"]


def agent_lines(node: str, agents: int, demand: str, inputs: str, is_read: bool) -> list[str]:
    """Returns the lines of a pool (list of str) with a server per agent, after one split, or two levels of splits for more than 8. If the pool's
    output is read, delays of 0 gather the agents' outputs; the last of them has the pool's name."""
    if not 1 <= agents <= OUTPUTS * OUTPUTS:
        raise ValueError(f"a pool with a server per agent has 1 to {OUTPUTS * OUTPUTS} agents, not {agents}")
    names = [agent_name(node, number) for number in range(1, agents + 1)]
    lines: list[str] = []
    ends = {names[0]: inputs}
    if agents > 1:
        lines, ends = _splits(node, names, inputs)
    lines += [f"server {name} {demand} from {ends[name]}" for name in names]
    return lines + _gathered(node, names) if is_read else lines


def _splits(node: str, names: Sequence[str], inputs: str) -> tuple[list[str], dict[str, str]]:
    """Returns the splits by the column of agents, and each agent's input. As few outputs of the first split as possible lead to further splits."""
    outputs = min(len(names), OUTPUTS)
    teams, left = [], list(names)
    for at in range(outputs):
        # Each output after this one needs at least one agent.
        size = min(OUTPUTS, len(left) - (outputs - 1 - at))
        teams.append(left[:size])
        del left[:size]
    firsts = [1 + sum(map(len, teams[:at])) for at in range(outputs)]
    lines = [f"split {queue_name(node)} cut {node}_agent {' '.join(map(str, firsts[1:]))} from {inputs}"]
    ends: dict[str, str] = {}
    for at, (first, team) in enumerate(zip(firsts, teams)):
        end = _output(queue_name(node), at)
        if len(team) > 1:
            name = f"{node}_team{at + 1}"
            lines.append(f"split {name} cut {node}_agent {' '.join(map(str, range(first + 1, first + len(team))))} from {end}")
            ends.update((it, _output(name, number)) for number, it in enumerate(team))
        else:
            ends[team[0]] = end
    return lines, ends


def _output(name: str, number: int) -> str:
    return f"{name}.{number}" if number else name


def _gathered(node: str, names: Sequence[str]) -> list[str]:
    lines = []
    for end in end_names(node, len(names)):
        lines.append(f"delay {end} =0 from {' '.join(names[:INPUTS])}")
        names = [*names[INPUTS:], end]
    return [*lines, f"delay {node} =0 from {' '.join(names)}"]


def roster_lines(node: str, agents: int, demand: str, inputs: str, leave: bool) -> list[str]:
    """Returns the lines of a pool (list of str) with this many agents. If callers leave, a split sends them to a delay of their own, where they spend
    their patience and then leave the network."""
    if not leave:
        return [f"delay {queue_name(node)} {node}_wait from {inputs}", f"trunk {node} {agents} {demand} from {queue_name(node)}"]
    return [
        f"split {left_name(node)} cut {node}_agent 1 from {inputs}",
        f"delay {queue_name(node)} {node}_wait from {left_name(node)}.1",
        f"trunk {node} {agents} {demand} from {queue_name(node)}",
        f"delay {gone_name(node)} {node}_wait from {left_name(node)}",
    ]
