"""Sweeps: a trace run through many models, and the reader of mpsweep's output."""

from __future__ import annotations

import re
from collections.abc import Hashable
from typing import TYPE_CHECKING, Dict, NamedTuple, Optional

from ..errors import Error, ReportError, error_of, read_from
from ..inputs import stream_of
from ..lines import PASSED
from ..report import Reading, Report, with_model
from ..wording import counted, table_of

if TYPE_CHECKING:
    from datetime import datetime
    from fractions import Fraction
    import pandas
    from collections.abc import Iterator, Sequence

    from ..inputs import Input
    from ..shapes import Path, ReportInput

HEAD = b"scenario "
SCENARIO = re.compile(rb"scenario ([1-9]\d*) status (0|[1-9]\d*)\n")
# The statuses of a refused scenario.
REFUSED = 3, 4, 5, 9


class Scenario(NamedTuple):
    """The run of one model of a sweep: its label (any value), its status (int), its report (Report), and, if the status isn't 0, the exception
    (Error, not raised) with the program's line and numbers.

    >>> import mpsim
    >>> scenario, = mpsim.scenarios([("door", 0)], {"now": "model 1\\nsource door\\n"})
    >>> scenario.label, scenario.status, scenario.report.jobs, scenario.refusal
    ('now', 0, 1, None)
    """

    label: Hashable
    status: int
    report: Optional[Report]
    refusal: Optional[Error]


# The figures that a notebook shows of each node.
SHOWN = "in", "lost", "mean_wait", "p90", "max", "util"


def _rows_of(scenario: Scenario) -> list[Sequence[object]]:
    """Returns the rows of a scenario in a notebook: one per node where jobs can wait or be lost, or one that says why it was refused."""
    if scenario.report is None:
        return [[scenario.label, scenario.refusal.told if scenario.refusal else f"status {scenario.status}"]]
    nodes = [scenario.report[node.name] for node in scenario.report.nodes if node.kind not in PASSED]
    return [[scenario.label, node.name, node.kind, *map(node.figure, SHOWN)] for node in nodes]


class Sweep(Dict[Hashable, Scenario]):
    """The scenarios of a sweep (Scenario) by label, in order.

    >>> import mpsim
    >>> models = mpsim.variants("model 1\\nsource door\\nloss desk {places} =9 from door\\n", places=[0, 1, 2])
    >>> sweep = mpsim.sweep([("door", 0), ("door", 1), ("door", 5)], models)
    >>> sweep[0].status, sweep[0].refusal.told
    (3, 'mpsim: model line 3: word 3 not allowed')
    >>> sweep.curve("desk", "lost")
    [(1, 2), (2, 1)]
    """

    @classmethod
    def read(cls, path: Path, labels: Sequence[Hashable] | None = None) -> Sweep:
        """Returns the sweep in a file. The labels and exceptions are those of `parse`; OSError is raised if the file can't be read.

        >>> import mpsim, tempfile
        >>> with tempfile.NamedTemporaryFile("w") as file:
        ...     print("scenario 1 status 3\\nmpsim: model line 1: expected model 1 or model 2", file=file, flush=True)
        ...     mpsim.Sweep.read(file.name, ["today"])["today"].refusal.line
        1
        """
        with open(path, "rb") as stream, read_from(path):
            return cls.parse(stream, labels)

    @classmethod
    def parse(cls, text: ReportInput, labels: Sequence[Hashable] | None = None) -> Sweep:
        """Returns the sweep in the output of mpsweep (str, bytes or an open file of bytes), with these labels (list, one per scenario), by default
        the numbers of the scenarios (int, from 1). Raises ReportError if it isn't a sweep, and ValueError for the wrong number of labels or a label
        that appears twice.

        >>> import mpsim
        >>> mpsim.Sweep.parse("scenario 1 status 3\\nmpsim: model line 1: expected model 1 or model 2\\n", ["today"])["today"].status
        3
        """
        found = list(scenarios_of(text))
        if labels is not None and len(labels) != len(found):
            raise ValueError(f"{len(labels)} labels for {len(found)} scenarios")
        every = list(labels or ())
        for label in every:
            if every.count(label) > 1:
                raise ValueError(f"the label {label!r} appears twice")
        return cls((it, scenario._replace(label=it)) for it, scenario in zip(labels or range(1, len(found) + 1), found))

    def __repr__(self) -> str:
        refused = sum(it.status != 0 for it in self.values())
        return f"<Sweep of {counted(len(self), 'scenario')}{f', {refused} refused' if refused else ''}>"

    def _repr_html_(self) -> str:
        rows = [row for it in self.values() for row in _rows_of(it)]
        return table_of(["scenario", "node", "kind", *SHOWN], rows, len(rows), 100)

    def reports(self) -> dict[Hashable, Report]:
        """Returns the reports of the scenarios that weren't refused: a dict of Report by label.

        >>> import mpsim
        >>> sweep = mpsim.sweep([("door", 0)], {"now": "model 1\\nsource door\\n", "bad": "model 3\\n"})
        >>> sweep.reports()
        {'now': <Report of 1 jobs, 1 nodes, span 0>}
        """
        return {label: it.report for label, it in self.items() if it.report is not None}

    def curve(self, node: str, figure: str) -> list[tuple[Hashable, int | float | None]]:
        """Returns pairs of a label and a node's figure: a field of its line (str, such as "p90" or "in") or a property of Node (such as "mean_wait").
        Refused scenarios are left out. Raises KeyError for an unknown node, AttributeError for an unknown figure.

        >>> import mpsim
        >>> models = mpsim.variants("model 1\\nsource door\\nserver desk ={talk} from door\\n", talk=[4, 6])
        >>> mpsim.sweep([("door", 0), ("door", 1)], models).curve("desk", "mean_wait")
        [(4, 1.5), (6, 2.5)]
        """
        return [(label, it[node].figure(figure)) for label, it in self.reports().items()]

    def save(
        self,
        path: Path,
        title: str | None = None,
        *,
        tick: float | Fraction | None = None,
        start: datetime | None = None,
        within: int | None = None,
    ) -> None:
        """Writes a page that compares the scenarios that weren't refused: a curve of each figure over their labels, and a table of differences.
        Everything else is as for a report (`Report.save`). Raises ValueError if all were refused.

        >>> import mpsim, os, tempfile
        >>> models = mpsim.variants("model 1\\nsource door\\nloss desk {places} =9 from door\\n", places=[1, 2])
        >>> sweep = mpsim.sweep([("door", 0), ("door", 1), ("door", 5)], models)
        >>> with tempfile.TemporaryDirectory() as folder:
        ...     sweep.save(os.path.join(folder, "places.html"))
        ...     os.listdir(folder)
        ['places.html']
        """
        from ..page import save

        reports = self.reports()
        save(path, reports.values(), reports, title, tick, start, within)

    def to_pandas(self) -> pandas.DataFrame:
        """Returns a data frame with a row per scenario and node, indexed by both: the levels are `scenario` and `name`, or, if the labels are tuples
        of as many values, `scenario_1`, `scenario_2` and so on, and `name`. Labels of which only some are tuples become texts.
        Raises ImportError if pandas is missing."""
        import pandas

        frames = {label: it.to_pandas() for label, it in self.reports().items()}
        if not frames:
            return pandas.DataFrame()
        sizes = {len(label) if isinstance(label, tuple) else 0 for label in frames}
        if sizes != {0} and len(sizes) == 1:
            return pandas.concat(frames, names=[*(f"scenario_{number}" for number in range(1, max(sizes) + 1)), "name"])
        # A tuple would become several levels.
        keys = list(frames) if sizes == {0} else list(map(str, frames))
        return pandas.concat(list(frames.values()), keys=keys, names=["scenario", "name"])


def load(path: Path, labels: Sequence[Hashable] | None = None) -> Report | Sweep:
    """Returns the content of a file: a report (Report) of mpsim or mpedit, or a sweep (Sweep) of mpsweep, which takes labels. Raises what
    `Report.read` and `Sweep.read` do.

    >>> import mpsim, tempfile
    >>> with tempfile.NamedTemporaryFile("w") as file:
    ...     print(mpsim.run("model 1\\nsource door\\n", [("door", 3)]), end="", file=file, flush=True)
    ...     mpsim.load(file.name).span
    3
    """
    with open(path, "rb") as stream, read_from(path):
        head = stream.peek(len(HEAD))[: len(HEAD)]
        return Sweep.parse(stream, labels) if head and HEAD.startswith(head) else Report.parse(stream)


def scenarios_of(text: ReportInput, labels: Sequence[Hashable] | None = None, inputs: Sequence[Input] | None = None) -> Iterator[Scenario]:
    """Yields each scenario in the output of mpsweep as it is read. Labels, if given, must cover all of them; inputs are those among the program's
    arguments, the trace first."""
    stream = stream_of(text)
    line, number, count = stream.readline(), 1, 0
    while line:
        found = SCENARIO.fullmatch(line)
        count += 1
        if not found or int(found[1]) != count or (labels is not None and count > len(labels)):
            raise ReportError(number, line.decode(errors="surrogateescape").rstrip("\n"), "is not a line of a sweep")
        label, status = labels[count - 1] if labels is not None else count, int(found[2])
        if status == 0:
            reading = Reading(stream, number + 1, in_sweep=True)
            report = reading.report()
            yield Scenario(label, 0, with_model(report, inputs[count]) if inputs else report, None)
            line, number = reading.rest
        else:
            message = stream.readline().decode(errors="surrogateescape")
            if status not in REFUSED or not message.startswith("mpsim: ") or not message.endswith("\n"):
                raise ReportError(number + 1, message.rstrip("\n"), f"is not the line of a refusal with status {status}")
            yield Scenario(label, status, None, error_of("mpsim", status, message, [inputs[count], inputs[0]] if inputs else ()))
            line, number = stream.readline(), number + 2
    if count == 0 or (labels is not None and count < len(labels)):
        raise ReportError(number, "", f"is the end of a sweep, after {count} scenarios")
