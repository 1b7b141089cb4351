"""The reports and visits that a command's arguments name."""

from __future__ import annotations

import contextlib
from typing import TYPE_CHECKING

from ..agents.pools import pool_lines, pooled
from ..errors import read_from
from ..inputs import model_input
from ..node_visits import NodeVisits, Visits
from ..report import Reading, Report
from ..runs import run, visits
from ..tables.visits import places_of, sources_in, together, visits_to
from .messages import say

if TYPE_CHECKING:
    from argparse import Namespace
    from collections.abc import Iterator, Sequence

NO_JOBS = "the report has no job lines: run mpsim with --jobs"


def report_of(args: Namespace) -> Report:
    """Returns the report (Report), with visits, that a command's arguments name. Raises what `mpsim.run` and `Report.read` do, and ValueError if it
    has no visits."""
    if args.trace is not None:
        return run(args.report, args.trace, jobs=True)
    report = Report.read(args.report)
    if not report.has_visits and report.jobs:
        raise ValueError(f"{args.report}: {NO_JOBS}")
    if not report.has_visits:
        # Without jobs there are no job lines.
        report.visits = Visits((node.name, NodeVisits(node.name)) for node in report.nodes)
    return report


@contextlib.contextmanager
def reading_of(args: Namespace) -> Iterator[Reading]:
    """Opens the report with visits that a command's arguments name, as a Reading, which keeps no visits. Raises what `report_of` does, at the latest
    at the end of the block."""
    if args.trace is not None:
        with visits(args.report, args.trace) as reading:
            yield reading
        return
    with open(args.report, "rb") as stream, read_from(args.report):
        reading = Reading(stream)
        if not reading.has_jobs and reading.jobs:
            raise ValueError(f"{args.report}: {NO_JOBS}")
        yield reading


def model_of(args: Namespace) -> str | None:
    """Returns the text (str) of the model that a command's arguments name, if it can be read twice; None for a report."""
    return model_input(args.report).text() if args.trace is not None else None


def visits_of(report: Report, args: Namespace) -> list[NodeVisits]:
    """Returns the visits (list of NodeVisits) to the nodes and pools that a command's arguments name. A pool named as a node counts as a pool, which
    is printed. Raises ValueError for an unknown name."""
    try:
        names = places_of(report, args.node) if args.node else []
    except ValueError as error:
        raise ValueError(f"{args.report}: {error}") from None
    for line in pool_lines([report], args.node) if args.node else ():
        say(line)
    return visits_to(report, names) + [pooled(report, item) for item in args.pool]


def all_visits(report: Report) -> list[NodeVisits]:
    """Returns the visits (list of NodeVisits) to all nodes where jobs may stay, with each pool in place of its queue and its trunk group, which is
    printed."""
    for line in pool_lines([report]):
        say(line)
    return visits_to(report, places_of(report))


def print_mixed(report: Report, visits: Sequence[NodeVisits], how: str) -> None:
    """Prints which of some visits (list of NodeVisits) of a report are of several sources, and how to get the figures of each (str)."""
    sources = sources_in(report)
    if line := together({visit.node: [sources[job] for job in visit.job] for visit in visits}):
        say(f"{line}; {how}")
