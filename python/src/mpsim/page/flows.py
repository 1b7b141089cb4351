"""Finds how many jobs took each output of a network, as far as a report shows it."""

from __future__ import annotations

from typing import TYPE_CHECKING


if TYPE_CHECKING:
    from collections.abc import Iterable, Sequence

    from ..model import ModelNode
    from ..report import Report


def flows(nodes: Iterable[ModelNode], report: Report) -> dict[tuple[str, int], int]:
    """Returns the number of jobs (int) on the outputs of a model's nodes: a dict by pairs of a node's name and an output. Missing pairs are unknown:
    for a split and a join the report counts all outputs together, so each is derived from the node that reads it."""
    known = {(item.name, item.output): item.jobs for item in report.exits}
    for node in nodes:
        line = report.by_name[node.name]
        if node.kind in ("loss", "trunk"):
            known[node.name, 0], known[node.name, 1] = line.out, line.lost
        elif node.kind == "fork":
            known.update({(node.name, number): line.out for number in range(node.outputs)})
        elif node.kind not in ("split", "join"):
            known[node.name, 0] = line.out
    before = -1
    while len(known) > before:
        before = len(known)
        for node in nodes:
            _by_sum(known, node.inputs, report.by_name[node.name].in_)
            if node.kind == "split":
                _by_sum(known, [(node.name, number) for number in range(node.outputs)], report.by_name[node.name].out)
    return known


def _by_sum(known: dict[tuple[str, int], int], outputs: Sequence[tuple[str, int]], count: int) -> None:
    """If all but one of these outputs are known, and their sum, derives the missing one."""
    left = [output for output in outputs if output not in known]
    if len(left) == 1:
        known[left[0]] = count - sum(known[output] for output in outputs if output != left[0])
