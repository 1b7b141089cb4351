"""Runs each day of a trace separately, so that nights and earlier days don't count."""

from __future__ import annotations

from bisect import bisect_right
from typing import TYPE_CHECKING, NamedTuple, Tuple

from ..agents.pools import pools
from ..agents.waits import carried, model_pools, recomputed, rostered_pools
from ..errors import BoundError, VisitsError
from ..runs import run
from ..times.calendar import days_until
from ..times.texts import DAY, clock
from ..traces.trace import Trace, locating_errors
from .results import Scenario, Sweep

if TYPE_CHECKING:
    from collections.abc import Callable, Iterable, Sequence

    from ..shapes import ModelInput, Path
    from ..times.calendar import Calendar


class Day(NamedTuple):
    """A piece of a trace: its name (str), the tick that is time 0 of its run, the tick at which the next piece begins (int), and its records (tuple
    of int, from 0)."""

    name: str
    zero: int
    end: int
    records: Tuple[int, ...]


def cut(
    times: Sequence[int], begins: Sequence[int], names: Sequence[str], opens: Sequence[int] | None = None, closes: Sequence[int] | None = None
) -> tuple[list[Day], int]:
    """Returns the pieces (list of Day) of times (list of int), and the number of records left out. `begins` are the ticks at which pieces begin, in
    rising order, followed by the end of the last; `names` are their names. `opens` and `closes` give a tick per piece: records before opening, and at
    or after closing, are left out. Without `opens`, time 0 of a piece is its first record. Empty pieces are omitted.

    >>> from mpsim.sweeps.days import cut
    >>> cut([5, 12, 99, 13], [0, 10, 20], ["one", "two"])
    ([Day(name='one', zero=5, end=10, records=(0,)), Day(name='two', zero=12, end=20, records=(1, 3))], 1)
    """
    found: list[list[int]] = [[] for _ in names]
    for at, time in enumerate(times):
        piece = bisect_right(begins, time) - 1
        is_in = 0 <= piece < len(names) and (not opens or time >= opens[piece]) and (not closes or time < closes[piece])
        if is_in:
            found[piece].append(at)
    zeros = [opens[piece] if opens else min((times[at] for at in records), default=0) for piece, records in enumerate(found)]
    days = [Day(*name[:3], tuple(name[3])) for name in zip(names, zeros, begins[1:], found) if name[3]]
    return days, len(times) - sum(len(day.records) for day in days)


def by_calendar(times: Sequence[int], days: Calendar, opens: str | None = None, closes: str | None = None) -> tuple[list[Day], int]:
    """Returns the pieces of times by the days of a Calendar, as `cut` does. `opens` and `closes` are times of day (str, such as "8:00"). A day that
    doesn't close after it opens closes on the next day, and is named after the day on which it opens. Raises ValueError for an invalid time.

    >>> from mpsim.times.calendar import Calendar
    >>> from mpsim.sweeps.days import by_calendar
    >>> at = [hour * 3600 for hour in (3, 12, 19, 29, 43)]
    >>> days, left = by_calendar(at, Calendar(10**9, "2026-03-02T00:00"), "18:00", "6:00")
    >>> [(it.name, it.zero // 3600, it.records) for it in days], left
    ([('2026-03-01', -6, (0,)), ('2026-03-02', 18, (2, 3)), ('2026-03-03', 42, (4,))], 1)
    """
    last = max(times, default=0)
    days_until(days, last)
    found = [day for day, _, _ in days.midnights(last)]
    begin, end = (_clock(item) if item else None for item in (opens, closes))
    if begin == DAY:
        raise ValueError(f"--open {opens}: a day ends then")
    if end == 0:
        raise ValueError(f"--close {closes}: write 24:00 for the midnight at the end of a day")
    changes = 0
    if begin is not None and end is not None and end <= begin:
        # These days begin when they open, the first of them on the day before.
        found, changes, end = [found[0] - 1, *found] if found else [], begin, end + DAY
    begins = [_tick_of(days, day, changes) for day in [*found, *(item + 1 for item in found[-1:])]]
    hours = [None if clock is None else [_tick_of(days, day, clock) for day in found] for clock in (begin, end)]
    return cut(times, begins, [days.name(day) for day in found], *hours)


def _tick_of(days: Calendar, day: int, clock: int) -> int:
    """Returns the tick of a time of day (int, nanoseconds) on a day."""
    return days.tick_at(days.place.first(day * DAY + clock))


def _clock(text: str) -> int:
    try:
        return clock(text)
    except ValueError as error:
        raise ValueError(f"{text!r}: {error}") from None


def by_ticks(times: Sequence[int], every: int) -> tuple[list[Day], int]:
    """Returns pieces of `every` ticks (int), as `cut` does; time 0 of each is its beginning.

    >>> from mpsim.sweeps.days import by_ticks
    >>> by_ticks([5, 12], 10)
    ([Day(name='0..9', zero=0, end=10, records=(0,)), Day(name='10..19', zero=10, end=20, records=(1,))], 0)
    """
    found: dict[int, list[int]] = {}
    for at, time in enumerate(times):
        found.setdefault(time // every * every, []).append(at)
    return [Day(f"{it}..{it + every - 1}", it, it + every, tuple(records)) for it, records in sorted(found.items())], 0


def days(
    model: ModelInput, trace: Trace, pieces: Iterable[Day], tell: Callable[[int], object] = lambda done: None, path: Path | None = None
) -> tuple[Sweep, int]:
    """Returns a Sweep with a run of each piece (Day) of a trace (Trace), by the pieces' names, each in a network that is empty at its time 0; and the
    number of pieces (int) in which jobs are still present when the next begins.

    Agents and waits at a pool are recomputed for the records of the piece (`recomputed`). The model is any that `mpsim.run` accepts, and is read for
    each piece. If a run is refused because of the bound or of a node with too many visits, its scenario has that error. Any other error is raised,
    with the path of the model if given. `tell` is called with the number of pieces done. The waits at a pool with a roster, patience or priorities
    are those of the whole trace (`shared_by`).

    >>> from mpsim.sweeps.days import by_ticks, days
    >>> from mpsim.traces import Trace
    >>> trace = Trace("t.csv", ["source", "time"], [["door", "5"], ["door", "6"], ["door", "12"]])
    >>> sweep, over = days("model 1\\nsource door\\nserver desk =4 from door\\n", trace, by_ticks(trace.times(), 10)[0])
    >>> sweep.curve("desk", "max"), over
    ([('0..9', 3), ('10..19', 0)], 1)
    """
    times, sweep, over, known = trace.times(), Sweep(), 0, model_pools(model, trace)
    for done, it in enumerate(pieces):
        tell(done)
        piece = Trace(trace.path, trace.header, [[trace.rows[at][0], str(times[at] - it.zero), *trace.rows[at][2:]] for at in it.records])
        try:
            with locating_errors(trace, it.records, path):
                piece = recomputed(piece, known)
                report = run(model, piece.lines(), jobs=bool(known))
                # The percentiles of a pool need its visits.
                report = run(model, piece.lines(), jobs=True) if not known and pools(report) else report
        except (BoundError, VisitsError) as error:
            sweep[it.name] = Scenario(it.name, error.status or 0, None, error)
            continue
        sweep[it.name] = Scenario(it.name, 0, report, None)
        # A job that leaves at exactly that time leaves before the next arrives.
        over += it.zero + report.span > it.end
    return sweep, over


def shared_by(model: str, trace: Trace, pieces: Sequence[Day]) -> dict[str, int]:
    """Returns the pools of a model's text that have a roster, patience or priorities, and whose waits are in a trace, each with the number of pieces
    that share its agents with another one (dict of str to int): only their waits may differ from those of the piece alone."""
    pools_ = [name for name in rostered_pools(model) if f"{name}_wait" in trace.header]
    if not pools_:
        return {}
    with locating_errors(trace):
        report = run(model.encode(errors="surrogateescape"), trace.lines(), jobs=True)
    return {name: carried(report, name, [piece.records for piece in pieces]) for name in pools_}
