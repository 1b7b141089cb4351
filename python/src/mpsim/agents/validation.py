"""Compares the waits that a telephone system recorded with those of a group of agents who get the same calls."""

from __future__ import annotations

from typing import TYPE_CHECKING, NamedTuple

from ..times.intervals import Kinds, label
from ..wording import counted


class Trust(NamedTuple):
    """When a model is trusted: how far the service levels may differ (float) over all calls, and in an interval of at least this many calls (int)."""

    overall: float = 0.02
    each: float = 0.05
    calls: int = 50


if TYPE_CHECKING:
    from collections.abc import Callable, Iterator, Sequence
    from typing import Dict, List, Tuple

    from ..shapes import Row
    from ..times.intervals import Day
    from ..traces.trace import Trace
    from .groups import Group
    from .queues import Queue

    Cells = Dict[Tuple[int, str], List["Pair"]]
# The names of the kind of an interval come first (`mpsim.times.intervals.Kinds`).
HEADS = "queue", "offered", "recorded_within", "modelled_within", "gap", "same"


class Pair(NamedTuple):
    """A call: its wait (int, ticks) and whether it was answered, as recorded and in the model."""

    recorded: int
    answered: bool
    modelled: int
    served: bool


def compared(
    queue: Queue,
    group: Group | None,
    days: Sequence[Day],
    waits: Sequence[int],
    gone: Sequence[bool],
    queues: Sequence[str],
    has: Callable[[Day], bool] = lambda day: True,
    kinds: Kinds | None = None,
) -> Cells:
    """Returns the calls of a Queue (list of Pair), by the kind of their interval and their queue (dict), with the agents of a Group in the model.
    `days` (list of Day) have the intervals, of these Kinds, by default one per interval of the day; `waits` (list of int, ticks) and `gone` (list of
    bool) are those that `recorded` returns; `queues` (list of str) are the queues of the records. The agents get all calls; only those of the days
    that `has` accepts are returned. Without a Group the model is what was recorded."""
    kinds = kinds or Kinds(days)
    mine = [queues[job - 1] for job in queue.jobs]
    # An abandoned call shows how long the caller waited, any other only that the patience was longer.
    patience = [waits[job - 1] if gone[job - 1] else None for job in queue.jobs]
    who: Sequence[int] = [int(not gone[job - 1]) for job in queue.jobs]
    modelled: Sequence[int] = [waits[job - 1] for job in queue.jobs]
    if group:
        who, modelled = group.assigned(queue.arrivals, queue.demands, mine, patience)
    found: Cells = {}
    at = 0
    for call in sorted(range(len(queue.jobs)), key=queue.arrivals.__getitem__):
        while queue.arrivals[call] >= days[at].begins[-1] and at + 1 < len(days):
            at += 1
        if not has(days[at]):
            continue
        record = queue.jobs[call] - 1
        pair = Pair(waits[record], not gone[record], modelled[call], who[call] > 0)
        kind = kinds.of(days[at], days[at].interval(queue.arrivals[call]))
        found.setdefault((kind, mine[call]), []).append(pair)
    return found


def figures(pairs: Sequence[Pair], within: int, same: int, digits: int = 4) -> Row:
    """Returns the number of calls (int), the recorded and the modelled share answered within `within` ticks, their difference, and the share of calls
    with the same end whose waits differ by at most `same` ticks (floats of this many digits; None without calls), for some calls (list of Pair).

    >>> figures([Pair(5, True, 6, True), Pair(30, True, 9, True)], 20, 1)
    [2, 0.5, 1.0, 0.5, 0.5]
    """
    if not pairs:
        return [0, None, None, None, None]
    shares = [sum(ok and wait <= within for wait, ok in it) / len(pairs) for it in (((p[0], p[1]) for p in pairs), ((p[2], p[3]) for p in pairs))]
    alike = sum(it.answered == it.served and abs(it.recorded - it.modelled) <= same for it in pairs) / len(pairs)
    return [len(pairs), *(round(it, digits) for it in (*shares, shares[1] - shares[0], alike))]


def _gap(row: Row) -> tuple[int, float, float, float] | None:
    """Returns the number of calls of a row that ends as HEADS, the recorded and the modelled share, and their difference; None without calls."""
    count, one, other, gap = row[-5:-1]
    if isinstance(count, int) and isinstance(one, float) and isinstance(other, float) and isinstance(gap, float):
        return count, one, other, gap
    return None


def verdict(rows: Sequence[Row], trust: Trust = Trust()) -> str:
    """Returns a line (str) that says whether a model may be trusted, and why not, from rows as of `rows_of` with the queue "all": the first of all
    calls, the others per interval.

    >>> from mpsim.agents.validation import Trust, verdict
    >>> rows = [["all", "all", 90, 0.8, 0.83, 0.03, 0.99], ["08:00", "all", 90, 0.8, 0.83, 0.03, 0.99]]
    >>> verdict(rows, Trust(overall=0.03))
    'the model may be trusted: 80.0 % recorded, 83.0 % modelled, and no interval of 50 calls or more differs by more than 5 points'
    """
    whole = _gap(rows[0])
    if whole is None:
        return "there are no calls to compare"
    each = [(" ".join(map(str, row[: -len(HEADS)])), found) for row in rows[1:] if (found := _gap(row))]
    far = [(name, gap) for name, (count, _, _, gap) in each if count >= trust.calls and abs(gap) > trust.each]
    _, one, other, gap = whole
    both, points = f"{100 * one:.1f} % recorded, {100 * other:.1f} % modelled", f"{100 * trust.each:g} points"
    if abs(gap) <= trust.overall and not any(count >= trust.calls for _, (count, *_) in each):
        why = f"no interval has {counted(trust.calls, 'call')}: take more days, or set --every or --trust-calls"
        return f"it can't be said whether the model may be trusted: {both}, but {why}"
    if abs(gap) <= trust.overall and not far:
        return f"the model may be trusted: {both}, and no interval of {counted(trust.calls, 'call')} or more differs by more than {points}"
    where = ""
    if far:
        name, worst = max(far, key=lambda item: abs(item[1]))
        where = f"; {len(far)} of {len(rows) - 1} intervals differ by more than {points}, most at {name} ({100 * worst:+.1f})"
    how = "better" if gap > 0 else "worse"
    return f"the model may not be trusted: {both}, and the model is {how}{where}"


def rows_of(cells: Cells, within: int, same: int, every: int, digits: int = 4, kinds: Kinds | None = None) -> Iterator[Row]:
    """Yields a row (list) for all calls, for each queue if there are several, and for each kind of interval and queue: the time of day, or the names
    of the kind, and what HEADS says. `kinds` are those of `compared`. A page, which rounds the shares itself, takes more digits."""
    queues = sorted({queue for _, queue in cells})
    for number in (None, *sorted({number for number, _ in cells})):
        names = kinds.names(number, every) if kinds else ["all" if number is None else label(number, every)]
        mine = {queue: [it for (at, one), calls in cells.items() if one == queue and number in (None, at) for it in calls] for queue in queues}
        yield [*names, "all", *figures([it for calls in mine.values() for it in calls], within, same, digits)]
        if len(queues) > 1:
            yield from ([*names, queue, *figures(calls, within, same, digits)] for queue, calls in mine.items() if calls)


def recorded(trace: Trace, wait: str, abandoned: str | None = None) -> tuple[list[int], list[bool]]:
    """Returns, for each record of a Trace, the recorded wait (int, ticks) and whether the call was abandoned (two lists), from the columns of these
    names. Raises ValueError for an unknown column.

    >>> from mpsim.agents.validation import recorded
    >>> from mpsim.traces import Trace
    >>> recorded(Trace("t.csv", ["source", "time", "wait", "gone"], [["door", "0", "30", "0"], ["door", "9", "60", "1"]]), "wait", "gone")
    ([30, 60], [False, True])
    """
    waits = trace.numbers(wait)
    return waits, [value != 0 for value in trace.numbers(abandoned)] if abandoned else [False] * len(waits)
