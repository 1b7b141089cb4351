"""Puts the reports of consecutive pieces of a trace together into one."""

from __future__ import annotations

from array import array
from bisect import bisect_right
from collections import Counter
from itertools import accumulate
from typing import TYPE_CHECKING

from ..lines import Exit, Node
from ..model import nodes_of, servers_of
from ..report import Report

if TYPE_CHECKING:
    from collections.abc import Mapping

    from ..report import Reading


class Waits:
    """The waits of the visits to a node that departed, counted: 16 bytes per piece and different wait above 0.

    >>> from mpsim.sweeps.whole import Waits
    >>> waits = Waits()
    >>> waits.add(3, {0: 1, 7: 2})
    >>> waits.add(2, {4: 2})
    >>> [waits.percentile(percent) for percent in (20, 50, 60, 61)]
    [0, 4, 4, 7]
    """

    _pieces: list[tuple[array[int], array[int]]]

    def __init__(self) -> None:
        self._count, self._pieces = 0, []

    def add(self, count: int, waits: Mapping[int, int]) -> None:
        """Adds this many waits (int), of which a mapping has the numbers of those above 0 by wait, and perhaps others."""
        self._count += count
        if known := sorted(item for item in waits.items() if item[0] > 0):
            lengths, numbers = zip(*known)
            self._pieces.append((array("q", lengths), array("q", accumulate(numbers))))

    def percentile(self, percent: int) -> int:
        """Returns the smallest of the waits (int) that at least this percentage of them doesn't exceed; 0 without waits."""
        above = self._count - -(-percent * self._count // 100)
        # At most this many waits are longer.
        low, high = -1, max((lengths[-1] for lengths, _ in self._pieces), default=0)
        while high - low > 1:
            middle = (low + high) // 2
            if sum(numbers[-1] - self._up_to(middle, lengths, numbers) for lengths, numbers in self._pieces) <= above:
                high = middle
            else:
                low = middle
        return high

    @staticmethod
    def _up_to(wait: int, lengths: array[int], numbers: array[int]) -> int:
        place = bisect_right(lengths, wait)
        return numbers[place - 1] if place else 0


class Sums:
    """The figures of a node so far."""

    def __init__(self) -> None:
        self.in_ = self.out = self.lost = self.held = self.wait = self.max = self.busy = self.peak = 0
        # The area without that of held visits after time 0.
        self.area = 0
        self.waits = Waits()

    def add(self, node: Node, span: int, waits: Mapping[int, int]) -> None:
        """Adds the figures of a piece with this span (int) and the numbers of its waits."""
        held = node.held or 0
        # Visits that a join holds stay there.
        self.peak = max(self.peak, self.held + (node.peak or 0))
        self.in_, self.out, self.lost, self.held = self.in_ + node.in_, self.out + node.out, self.lost + node.lost, self.held + held
        self.wait, self.max, self.busy = self.wait + node.wait, max(self.max, node.max or 0), self.busy + node.busy
        self.area += node.area - held * span
        self.waits.add(node.out, waits)

    def node(self, name: str, kind: str, servers: int, span: int) -> Node:
        """Returns the node of the whole report, by its name, kind and number of servers, and the span of all pieces."""
        util = None if not servers else 10**4 * self.busy // (servers * span) / 10**4 if span else 0.0
        p50, p90, p99 = (self.waits.percentile(percent) for percent in (50, 90, 99))
        area = self.area + self.held * span
        return Node(name, kind, self.in_, self.out, self.lost, self.held, self.wait, self.max, p50, p90, p99, self.busy, area, self.peak, util)


class Whole:
    """The report of a trace that is run in pieces, each in a network that is empty, from the reports of these; `base` (Report) is that of a run
    without records. `places` (dict of int) are the outputs to which splits by turns would send their next job (`model.turned`).

    Each piece is run by the proved program; what is computed here is tested, not proved. Counts, sums and exits are added up, greatest values and the
    last moment are the greatest of all. Utilisation is `busy` by the whole span. Held visits stay to the end of the run: they count in the area and
    the peak of later pieces. Percentiles need the waits of all visits, so the pieces are run with job lines.
    """

    def __init__(self, base: Report) -> None:
        self._base, self.jobs, self.span = base, 0, 0
        model = nodes_of(base.model or "")
        self._servers = {node.name: servers_of(node) for node in model}
        self._outputs = {node.name: node.outputs for node in model if node.kind == "split" and node.arguments.split()[1:2] == ["turn"]}
        self._sums = {node.name: Sums() for node in base.nodes}
        self._exits = {(item.name, item.output): (0, 0) for item in base.exits}
        self.places = dict.fromkeys(self._outputs, 0)

    def count(self, name: str) -> int:
        """Returns the number of visits to a node so far (int)."""
        return self._sums[name].in_

    def rank(self, name: str) -> int:
        """Returns the place of a node in the report (int)."""
        return [node.name for node in self._base.nodes].index(name)

    def add(self, reading: Reading) -> None:
        """Adds the report of the next piece, run through the model turned by `places`."""
        waits: dict[str, Counter[int]] = {node.name: Counter() for node in reading.nodes if node.wait}
        for visits in reading.pieces(waits):
            waits[visits.node].update(visits.raw_wait)
        self.jobs, self.span = self.jobs + reading.jobs, max(self.span, reading.span)
        for item in reading.exits:
            output = item.output
            if item.name in self.places:
                output = (output + self.places[item.name]) % self._outputs[item.name]
            jobs, sojourn = self._exits[item.name, output]
            self._exits[item.name, output] = jobs + item.jobs, sojourn + item.sojourn
        for node in reading.nodes:
            self._sums[node.name].add(node, reading.span, waits.get(node.name, {}))
            if node.name in self.places:
                self.places[node.name] = (self.places[node.name] + node.in_) % self._outputs[node.name]

    def report(self) -> Report:
        """Returns the report (Report) of all pieces, without visits."""
        nodes = [self._sums[node.name].node(node.name, node.kind, self._servers[node.name], self.span) for node in self._base.nodes]
        exits = [Exit(name, output, *found) for (name, output), found in self._exits.items()]
        report = Report(2, self.jobs, self.span, nodes, exits)
        report.model = self._base.model
        return report
