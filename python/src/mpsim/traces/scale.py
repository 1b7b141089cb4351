"""Scales the load of a trace up or down."""

from __future__ import annotations

from collections import Counter
from typing import TYPE_CHECKING

from ..times.texts import DAY
from ..wording import counted
from .trace import Trace

if TYPE_CHECKING:
    from collections.abc import Collection, Sequence

    from ..times.calendar import Calendar

TIMES = (
    "each time is {n}/{k} of its old value: the same jobs arrive {faster}, and their service times don't change. "
    "Days, nights and peaks are {shorter}"
)
TWINS = (
    "so twins arrive together and wait for one another: "
    "that makes waits longer than such a load would (twice as long in one trial); --shift doesn't"
)


def closer(times: Sequence[int], k: int, n: int) -> list[tuple[int, int]]:
    """Returns pairs (list) of a time and the index of its record, in order of arrival. Each time (int, ticks) is multiplied by n/k and rounded down.

    >>> from mpsim.traces.scale import closer
    >>> closer([0, 25, 10, 24], 2, 1)
    [(0, 0), (5, 2), (12, 3), (12, 1)]
    """
    return [(times[at] * n // k, at) for at in sorted(range(len(times)), key=times.__getitem__)]


class Walls:
    """The times of a trace on the clock of a Calendar: nanoseconds since the wall-clock time of tick 0.

    >>> from mpsim.times.calendar import Calendar
    >>> from mpsim.traces.scale import Walls
    >>> walls = Walls(Calendar(10**9, "2026-03-28T12:00:00+01:00", "Europe/Berlin"))
    >>> walls.of(82800) // 10**9, walls.tick(86400 * 10**9)
    (86400, 82800)
    """

    def __init__(self, days: Calendar) -> None:
        self.days, self.base = days, days.wall(0)
        self._whole: dict[int, int | None] = {}

    def of(self, tick: int) -> int:
        """Returns the time of a tick."""
        return self.days.wall(tick) - self.base

    def tick(self, time: int) -> int:
        """Returns the first tick at or after a time; of an hour that occurs twice the first, of one that is skipped its end."""
        midnight, since = divmod(self.base + time, DAY)
        if midnight not in self._whole:
            self._whole[midnight] = self.days.place.whole_day(midnight * DAY)
        whole = self._whole[midnight]
        moment = self.days.place.first(self.base + time) if whole is None else whole + since
        return max(0, self.days.tick_at(moment))


def copies(
    times: Sequence[int], sources: Sequence[str], k: int, n: int, shift: int = 0, only: Collection[str] = (), days: Calendar | None = None
) -> list[tuple[int, int]]:
    """Returns pairs (list) of a time and the index of its record, in order of time, then of records: k for every n records, spread as evenly as
    possible within each source.

    Record i, counted from 0, appears floor(k (i + 1) / n) - floor(k i / n) times. Counting continues from one source to the next, in the order of the
    trace, so that few records from many sources also give k/n in all. Each copy is `shift` (int, ticks) after the one before. A copy past the last
    record wraps round to the first time that is a whole number of shifts away and not before the first record (`around`). With `only` (names of
    sources), only those are copied. With `days`, a Calendar, a copy has the time of day of its record, even if clocks change between them. Raises
    ValueError if a copy would fall on its own record.

    >>> from mpsim.traces.scale import copies
    >>> copies([0, 10, 25], ["a", "a", "a"], 2, 1, shift=10)
    [(0, 0), (5, 2), (10, 0), (10, 1), (20, 1), (25, 2)]
    """
    walls = Walls(days) if days and shift else None
    clock, step = ([walls.of(time) for time in times], shift * walls.days.tick) if walls else (times, shift)
    ends = min(clock, default=0), max(clock, default=0)
    seen, before, made = {}, 0, []
    for source, count in Counter(source for source in sources if not only or source in only).items():
        seen[source], before = before, before + count
    for at in sorted(range(len(times)), key=times.__getitem__):
        source, count = sources[at], 1
        if source in seen:
            i = seen[source]
            count, seen[source] = k * (i + 1) // n - k * i // n, i + 1
        placed = around(clock[at], count, step, *ends, told=(shift, times[at])) if shift else [times[at]] * count
        made += [(walls.tick(time) if walls and time != clock[at] else times[at] if walls else time, at) for time in placed]
    # Copies at equal times are in the order of their records.
    return sorted(made)


def around(time: int, count: int, shift: int, first: int, last: int, told: tuple[int, int] | None = None) -> list[int]:
    """Returns the times (list of int) of this many copies of a record (int, including the record), each `shift` after the one before, starting at its
    `time` and wrapping round between `first` and `last` (int, ticks). If that gives too few times, they may lie up to an eighth of a shift outside,
    so that a record from an early or late minute also gets its other days. Raises ValueError if that isn't enough, with the shift and the time in
    `told` if the others aren't ticks.

    >>> from mpsim.traces.scale import around
    >>> around(25, 2, 10, 3, 31), around(9, 3, 10, 0, 28)
    ([25, 5], [9, 19, 29])
    """
    front, room = first + (time - first) % shift, shift // 8
    rounds = (last - front) // shift + 1
    if rounds < count and front - shift >= max(first - room, 0):
        front, rounds = front - shift, rounds + 1
    if rounds < count and front + rounds * shift <= last + room:
        rounds += 1
    if rounds < count:
        some = f"there are {rounds} times" if rounds > 1 else "there is no other time"
        by, at = told or (shift, time)
        raise ValueError(f"--shift {by}: within the trace {some} whole shifts away from {at}, but {count} records need one")
    return [front + ((time - front) // shift + copy) % rounds * shift for copy in range(count)]


def scaled(trace: Trace, k: int, n: int, way: str, shift: int | None = None, only: Collection[str] = (), days: Calendar | None = None) -> Trace:
    """Returns the trace (Trace) with k/n of the load of another, in order of time; `way` is "times", "twins" or "shift". With `days`, a Calendar, a
    shift keeps the time of day.

    >>> from mpsim.traces import Trace
    >>> from mpsim.traces.scale import scaled
    >>> trace = Trace("t.csv", ["source", "time", "talk"], [["door", "0", "9"], ["door", "8", "4"]])
    >>> scaled(trace, 2, 1, "times").rows
    [['door', '0', '9'], ['door', '4', '4']]
    """
    times = trace.times()
    for name in only:
        if name not in trace.sources():
            raise ValueError(f"{trace.path}: no record has the source {name!r}")
    if way == "times":
        made = closer(times, k, n)
    else:
        made = copies(times, trace.sources(), k, n, (shift or 0) if way == "shift" else 0, only, days)
    return Trace(trace.path, trace.header, [[trace.rows[at][0], str(time), *trace.rows[at][2:]] for time, at in made])


def count_of(trace: Trace, k: int, n: int, way: str, only: Collection[str]) -> int:
    """Returns the number of records that `scaled` would make, to reject too many before making any."""
    taken = 0 if way == "times" else sum(not only or source in only for source in trace.sources())
    return len(trace.rows) - taken + k * taken // n


def means(k: int, n: int, way: str, shift: int | None = None, only: Collection[str] = (), days: Calendar | None = None) -> str:
    """Returns a description (str) of what `scaled` does.

    >>> from mpsim.traces.scale import means
    >>> means(2, 1, "shift", 86400)
    'each record has one copy, 86400 ticks later; copies past the end wrap round to the start'
    """
    of = f" of {' or of '.join(only)}" if only else ""
    by = (
        f"{shift} ticks"
        if days is None or not shift
        else f"{counted(shift * days.tick // DAY, 'day')} by the clock of {days.place.name or 'the calendar'}"
    )
    if k == n:
        return "each record is kept as it was"
    if way == "times":
        faster, shorter = ("faster", "shorter") if k > n else ("more slowly", "longer")
        return TIMES.format(k=k, n=n, faster=faster, shorter=shorter)
    if k % n:
        some = f"every {n} records{of or ' of a source'} become {k}"
        if k < n:
            return f"{some}, at their own times, chosen as evenly as possible"
        past = "copies past the end wrap round to the start"
        return f"{some}, each copy {by} after the one before; {past}" if way == "shift" else f"{some}, at their own times, {TWINS}"
    count = k // n - 1
    copies, has = ("one copy", f"{by} later") if count == 1 else (f"{count} copies", f"each {by} after the one before")
    if way == "shift":
        return f"each record{of} has {copies}, {has}; copies past the end wrap round to the start"
    return f"each record{of} has {copies}, at its own time, {TWINS}"
