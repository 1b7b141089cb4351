"""Lays out a network: nodes in layers, from the sources to the right, and the lines between them."""

from __future__ import annotations

from typing import TYPE_CHECKING, NamedTuple, Tuple

if TYPE_CHECKING:
    from collections.abc import Iterable, Mapping, Sequence

    from ..model import ModelNode

# The box of a node, and the gaps between boxes.
WIDE, HIGH, GAP_X, GAP_Y = 150, 62, 64, 20
# The height of a line that crosses a layer, and of the end of one that leaves; the width of the text after that; the margin.
PASSING, LEAVING, LEAVES, AROUND = 12, 20, 70, 12


class Line(NamedTuple):
    """A line from an output (its node's name and number): the names of the places it passes, beginning with its node, and whether a node reads it
    (else it leaves the network)."""

    output: Tuple[str, int]
    path: Tuple[str, ...]
    is_read: bool


class Layout:
    """The left edge and the middle of each place, by name (`places`); the lines; and the width and height of the drawing."""

    def __init__(self, nodes: Sequence[ModelNode]) -> None:
        columns, self.lines = _columns(nodes, _layers(nodes))
        high = {name: height for column in columns for name, height in column.items()}
        middle = _middles(columns, self.lines, high)
        top = min(middle[name] - high[name] / 2 for name in middle) - AROUND
        left = {name: AROUND + at * (WIDE + GAP_X) for at, column in enumerate(columns) for name in column}
        self.places = {name: (left[name], middle[name] - top) for name in middle}
        self.height = max(y + high[name] / 2 for name, (_, y) in self.places.items()) + AROUND
        last = LEAVES if all(name not in {node.name for node in nodes} for name in columns[-1]) else WIDE
        self.width = 2 * AROUND + (len(columns) - 1) * (WIDE + GAP_X) + last


def _layers(nodes: Sequence[ModelNode]) -> dict[str, int]:
    """Returns the number of each node's layer: after everything it reads; a source comes just before its reader."""
    layers: dict[str, int] = {}
    left = list(nodes)
    while left:
        for item in left:
            if all(name in layers for name, _ in item.inputs):
                layers[item.name] = max((layers[name] + 1 for name, _ in item.inputs), default=0)
        if len(before := left) == len(left := [item for item in left if item.name not in layers]):
            raise ValueError(f"node {before[0].name} of the model reads what isn't there, or itself")
    for node in nodes:
        near = [layers[item.name] for item in nodes if any(name == node.name for name, _ in item.inputs)]
        if not node.inputs and near:
            layers[node.name] = min(near) - 1
    return layers


def _columns(nodes: Sequence[ModelNode], layers: Mapping[str, int]) -> tuple[list[dict[str, int]], list[Line]]:
    """Returns, for each layer, the heights of its places by name (dict), and the lines. A line that crosses a layer has a place there."""
    readers = {item: node.name for node in nodes for item in node.inputs}
    columns: list[dict[str, int]] = [{} for _ in range(max(layers.values()) + 2)]
    for each in nodes:
        columns[layers[each.name]][each.name] = HIGH
    lines = []
    for node in nodes:
        for number in range(node.outputs):
            reader, name = readers.get((node.name, number)), f"{node.name}.{number}"
            last = layers[reader] if reader else layers[node.name] + 1
            passed = [(f"{name}>{at}", at) for at in range(layers[node.name] + 1, last)]
            for place, at in passed:
                columns[at][place] = PASSING
            if not reader:
                columns[last][name] = LEAVING
            lines.append(Line((node.name, number), (node.name, *(it for it, _ in passed), reader or name), reader is not None))
    return [column for column in columns if column], lines


def _middles(columns: Sequence[Mapping[str, int]], lines: Iterable[Line], high: Mapping[str, int]) -> dict[str, float]:
    """Returns the vertical middle of each place: as near to its neighbours as the others in its layer allow."""
    beside: dict[str, list[str]] = {name: [] for name in high}
    for line in lines:
        for one, other in zip(line.path, line.path[1:]):
            beside[one].append(other)
            beside[other].append(one)
    middle: dict[str, float] = {}
    for column in columns:
        _spread(column, {name: at for at, name in enumerate(column)}, middle)
    # Forth by the places before, back by those after; then by both.
    for turn in range(10):
        order = range(len(columns)) if turn % 2 == 0 else range(len(columns) - 1, -1, -1)
        for at in order:
            near: set[str] = set()
            if turn > 5 or turn % 2 == 0:
                near.update(*columns[max(at - 1, 0) : at])
            if turn > 5 or turn % 2 == 1:
                near.update(*columns[at + 1 : at + 2])
            wanted = {}
            for name in columns[at]:
                found = [middle[item] for item in beside[name] if item in near]
                wanted[name] = sum(found) / len(found) if found else middle[name]
            _spread(columns[at], wanted, middle)
    return middle


def _spread(column: Mapping[str, int], wanted: Mapping[str, float], middle: dict[str, float]) -> None:
    """Places those of a layer in the order of their wanted positions, with at least the gap between them, and on average where they want to be."""
    end: float | None = None
    moved: dict[str, float] = {}
    for name in sorted(column, key=wanted.__getitem__):
        moved[name] = wanted[name] if end is None else max(wanted[name], end + GAP_Y + column[name] / 2)
        end = moved[name] + column[name] / 2
    shift = sum(wanted[name] - moved[name] for name in moved) / len(moved)
    middle.update({name: at + shift for name, at in moved.items()})
