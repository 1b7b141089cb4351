"""Runs the scenarios of a sweep's plan in this process."""

from __future__ import annotations

from typing import TYPE_CHECKING

from ..agents.pools import names_of, visits_at
from ..agents.waits import pools_in, recomputed, varied
from ..errors import Error
from ..runs import run, scenarios, sweep_text
from ..stations.columns import judge_varied
from ..traces.trace import Trace, header_of, locating_errors, pool_warning
from .results import Scenario, scenarios_of

if TYPE_CHECKING:
    from collections.abc import Collection, Iterable, Iterator

    from ..report import Report
    from ..shapes import Row
    from .plans import Plan, TraceFile


def pools_again(plan: Plan, trace: TraceFile) -> list[str]:
    """Returns the pools (list of str) whose number of agents varies over the models of a plan, if the trace has their waits. Raises ValueError if a
    model has columns downstream of such a pool that hold for one of the numbers."""
    header = header_of(trace["path"])
    if pool_warning(trace["path"], header) is None:
        return []
    again = varied((plan.model(at)[2] for at in range(plan.each)), Trace(trace["path"], header, []))
    for at in range(plan.each) if again else ():
        judge_varied(plan.model(at)[2], again)
    return again


def shares_of(report: Report, ticks: int, nodes: Collection[str]) -> Iterator[Row]:
    """Yields, for each row of a report, the two shares served within this many ticks."""
    for visit in visits_at(report, names_of(report, nodes)):
        shares = visit.share_within(ticks), visit.share_within(ticks, departed=True)
        yield [None if share is None else round(share, 6) for share in shares]


def scenarios_in(plan: Plan, trace: TraceFile, models: range, with_jobs: bool, again: Collection[str]) -> Iterator[tuple[int, Scenario]]:
    """Yields the scenarios of a trace and up to 64 models of a plan as they come, with the numbers of their models. `again` has the paths of traces
    whose pools are worked out again for each model."""
    if trace["path"] in again:
        yield from _pooled_again(plan, trace, models, with_jobs)
        return
    texts = [plan.model(model)[2].encode(errors="surrogateescape") for model in models]
    if with_jobs:
        yield from zip(models, scenarios(trace["path"], texts, jobs=True))
        return
    with sweep_text(trace["path"], texts) as stream:
        yield from zip(models, scenarios_of(stream, range(len(texts))))


def _pooled_again(plan: Plan, trace: TraceFile, models: Iterable[int], with_jobs: bool) -> Iterator[tuple[int, Scenario]]:
    """Yields the scenarios of models with different numbers of agents: each is run with the agents and the waits of its own number."""
    whole = Trace.read(trace["path"])
    for at in models:
        label, _, text = plan.model(at)
        try:
            with locating_errors(whole):
                mine = recomputed(whole, pools_in(text, whole))
                report = run(text.encode(errors="surrogateescape"), mine.lines(), jobs=with_jobs)
        except Error as error:
            yield at, Scenario(label, error.status or 0, None, error)
            continue
        yield at, Scenario(label, 0, report, None)


def label_of(plan: Plan, trace: TraceFile, at: int) -> str | tuple[str, ...]:
    """Returns the label of a scenario on the page: its values, with the names of its model and its trace if there are several. A label of several
    texts is a tuple of them."""
    label, values, _ = plan.model(at)
    words = [trace["label"]] * (len(plan.traces) > 1) + [label] * (len(plan.models) > 1 or not values) + [str(value) for value in values.values()]
    return tuple(words) if len(words) > 1 else words[0]
