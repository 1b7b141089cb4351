"""Chooses time 0 of a trace and turns the moments of its records into ticks."""

from __future__ import annotations

from array import array
from itertools import islice, repeat
from operator import mod
from typing import TYPE_CHECKING, NamedTuple

from ..limits import GREATEST_TIME
from ..times.calendar import length_text
from ..times.formats import looks_like_clocks
from ..times.texts import CLOCK, DAY, HOUR, SECOND, clock, given, iso
from ..wording import counted

if TYPE_CHECKING:
    from collections.abc import Sequence

    from .plan import Plan
    from .result import Prepared
    from .rows import Rows

# Some records are far from the rest if the gap is longer than the rest spans, and than this.
FAR = 30 * DAY
# Any number of records is far from the rest after such a gap, in which no system was silent.
AGES = 3653 * DAY


class Span(NamedTuple):
    """A group of records: their first moment and the number of its row, their last moment and the number of its row, and how many they are."""

    first: int
    first_row: int
    last: int
    last_row: int
    size: int


def ticks(plan: Plan, rows: Rows, begin: str, made: Prepared) -> array[int]:
    """Returns the times of the trace (array), in ticks from time 0: of all time, or of working time."""
    stamps = rows.stamps
    readers = [reader.how for reader in plan.readers()]
    if any(reader.has_none for reader in readers) and any(reader.has_offsets for reader in readers) and not plan.place.name:
        raise ValueError("some times have an offset from UTC and others have none: give --zone for those")
    if any(len(reader.halves) > 1 for reader in readers):
        raise ValueError("some times have AM or PM, but others from 1:00 to 12:59 don't: --format '%I:%M %p' leaves those out")
    if plan.is_ticks:
        if begin != "hour":
            raise ValueError(f"--begin {begin}: it can't be used with times in ticks")
        looks = looks_like_clocks(stamps[:1000])
        if looks:
            made.warned.append(f"times look like {looks}, but are read as ticks: give their --format")
        return _judged(stamps)
    first, is_utc = min(stamps), any(reader.has_offsets for reader in readers)
    zero, counts = _zero(plan, begin, first, is_utc), stamps
    if plan.place.working:
        if is_utc and not plan.place.name:
            raise ValueError("times have an offset from UTC, so the zone of the calendar's hours is unknown: give --zone")
        counts = _worked(plan, rows, made)
        # Work that is closed at time 0 begins at the next opening.
        zero = plan.place.working.moment(plan.place.working.of(zero))
    origin = plan.place.counted(zero)
    if min(counts) < origin:
        early = sum(count < origin for count in counts)
        raise ValueError(f"{counted(early, 'record')} before --begin {begin}, which is to be time 0")
    if plan.has_day:
        made.zero = plan.place.shown(zero) + ("+00:00" if is_utc and not plan.place.name else "")
    found = _judged(array("q", [(count - origin) // plan.per for count in counts]))
    shown = made.zero or f"{zero // HOUR}:{zero // (60 * SECOND) % 60:02}:{zero // SECOND % 60:02}"
    made.told.append(f"time 0 is {shown}, a tick is {length_text(plan.per)}, the last record is at {max(found)}")
    made.told += [f"ticks count working time: {plan.place.working}"] if plan.place.working else []
    # Most exports have only whole ticks.
    is_even = set(map(mod, counts, repeat(plan.per))) == {origin % plan.per}
    if not is_even and (uneven := sum((count - origin) % plan.per > 0 for count in counts)):
        made.told.append(f"{counted(uneven, 'time')} between two ticks, rounded down")
    if not plan.has_day:
        back = sum(later < earlier - 12 * HOUR for earlier, later in zip(stamps, islice(stamps, 1, None)))
        more = f", although they go back by more than half a day {counted(back, 'time')}" if back else ""
        made.warned.append(f"times have no day, so all are put on one day{more} (--date)")
    elif not plan.place.name and max(stamps) - first > DAY:
        made.told.append(f"days are those of {'UTC' if is_utc else 'a clock that never changes'}: give --zone for another")
    return found


def _worked(plan: Plan, rows: Rows, made: Prepared) -> array[int]:
    """Returns the working time (array) at which records arrive; outside of it at the next opening, with a warning. Raises ValueError for such records
    if they are refused."""
    assert plan.place.working
    outside = [at for at, stamp in enumerate(rows.stamps) if not plan.place.working.is_open(stamp)]
    if outside:
        first = f"the first is row {rows.row_of(outside[0])}, {plan.place.shown(rows.stamps[outside[0]])}"
        what = f"{counted(len(outside), 'record')} of {len(rows.stamps):,} {'arrives' if len(outside) == 1 else 'arrive'} outside of working time"
        if plan.outside == "refuse":
            raise ValueError(f"{what} ({first}): --outside move counts them at the next opening")
        made.warned.append(f"{what}, and {'is' if len(outside) == 1 else 'are'} counted at the next opening ({first})")
    return array("q", map(plan.place.working.of, rows.stamps))


def outside_notes(plan: Plan) -> list[str]:
    """Returns notes on services that begin or end outside of working time."""
    working = plan.place.working
    if not working or not working.outside:
        return []
    first = min(working.outside)
    nothing = sum(working.of(begin) == working.of(end) for begin, end in working.outside)
    what = f"{counted(len(working.outside), 'different span')} of services or waits begin or end outside of working time, which isn't counted"
    example = f"the first from {plan.place.shown(first[0])} to {plan.place.shown(first[1])}"
    return [f"{what} ({example})" + (f"; {nothing:,} of them are wholly outside: 0 ticks" if nothing else "")]


def _judged(ticks: array[int]) -> array[int]:
    if max(ticks) > GREATEST_TIME:
        raise ValueError(f"the time {max(ticks)} is above 2^60 ticks, the limit of a trace")
    return ticks


def _zero(plan: Plan, begin: str, first: int, is_utc: bool) -> int:
    """Returns the moment of time 0, given the first time; `is_utc` says whether some times have an offset from UTC."""
    place = plan.place
    if begin == "first":
        return first
    if begin == "hour":
        # A full hour of the wall clock, which need not be one of UTC.
        return first - place.wall(first) % HOUR
    midnight = place.wall(first) // DAY * DAY
    if begin == "day" or CLOCK.fullmatch(begin):
        return place.first(midnight + (0 if begin == "day" else given("--begin", clock, begin)))
    wall, offset = given("--begin", iso, begin)
    if not plan.has_day:
        raise ValueError(f"--begin {begin}: it has a day, but the times have none")
    if offset is not None and not is_utc and not place.name:
        raise ValueError(f"--begin {begin}: it has an offset from UTC, but the times have none: give --zone for those")
    return given("--begin", lambda _: place.utc(wall), begin) if offset is None else wall - offset


def judge_far(plan: Plan, rows: Rows) -> None:
    """Raises ValueError if the first or the last records (up to 5 percent) lie further from the rest than the rest spans, or any number of them ten
    years: such a time is usually an empty date of the system that wrote the export."""
    stamps = rows.stamps
    if not plan.has_day or plan.is_ticks or max(stamps) - min(stamps) <= FAR:
        return
    ordered, few = sorted(stamps), max(len(stamps) // 20, 1)
    begin, end = _far(ordered, few), -_far([-item for item in reversed(ordered)], few)
    if begin == ordered[0] and end == ordered[-1]:
        begin, end = _ages(ordered)
    is_early = begin > ordered[0]
    if not is_early and end == ordered[-1]:
        return
    far = [at for at, stamp in enumerate(stamps) if (stamp < begin if is_early else stamp > end)]
    gap = begin - max(stamps[at] for at in far) if is_early else min(stamps[at] for at in far) - end
    at = min(far, key=stamps.__getitem__) if is_early else max(far, key=stamps.__getitem__)
    raise _far_error(plan, rows.row_of(at), stamps[at], len(far), gap, is_early, (begin, end))


def _far_error(plan: Plan, row: int, stamp: int, count: int, gap: int, is_early: bool, rest: tuple[int, int]) -> ValueError:
    """Returns the ValueError for a row with this moment: `count` records, it among them, lie before (`is_early`) or after the rest, whose first and
    last moments are a pair, with this gap in nanoseconds."""
    begin, end = rest
    which = f"{'the first' if is_early else 'the last'} {count:,} records lie" if count > 1 else "its record lies"
    where = f"{which} {counted(gap // DAY, 'day')} {'before' if is_early else 'after'} the rest, which span {counted((end - begin) // DAY, 'day')}"
    bound = f"--from {_day(plan, begin)}" if is_early else f"--until {_day(plan, end + DAY)}"
    return ValueError(f"row {row}: {plan.place.shown(stamp)}: {where}: leave out such rows with {bound}, or keep them with --far")


def judge_far_spans(plan: Plan, spans: Sequence[Span]) -> None:
    """Does what judge_far does for groups of records in order of time. A gap within a group doesn't count."""
    few = max(sum(span.size for span in spans) // 20, 1)
    early, late = _cuts(spans, few), _cuts([Span(-span.last, span.last_row, -span.first, span.first_row, span.size) for span in reversed(spans)], few)
    rest = spans[early].first, spans[len(spans) - late - 1].last
    if early:
        gap = spans[early].first - spans[early - 1].last
        raise _far_error(plan, spans[0].first_row, spans[0].first, sum(span.size for span in spans[:early]), gap, True, rest)
    if late:
        gap = spans[-late].first - spans[-late - 1].last
        raise _far_error(plan, spans[-1].last_row, spans[-1].last, sum(span.size for span in spans[-late:]), gap, False, rest)


def _cuts(spans: Sequence[Span], few: int) -> int:
    """Returns how many of the first groups of records are far before the rest: those with at most `few` records, or less than half after which there
    is a gap of ten years."""
    total, last, some = sum(span.size for span in spans), spans[-1].last, 0
    for span in reversed(spans):
        some += span.size
        if some > few:
            last = span.last
            break
    count, found = 0, 0
    for at in range(1, len(spans)):
        count += spans[at - 1].size
        gap = spans[at].first - spans[at - 1].last
        if count <= few and gap > max(last - spans[at].first, FAR) or 2 * count <= total and gap > AGES:
            found = at
    return found


def _far(ordered: Sequence[int], few: int) -> int:
    """Returns the first of these moments (in rising order) that isn't far before the rest; at most `few` are far. The last `few` may be far too, so
    the rest is measured without them."""
    last = ordered[-1 - few]
    for at in range(min(few, len(ordered) - few - 2), 0, -1):
        if ordered[at] - ordered[at - 1] > max(last - ordered[at], FAR):
            return ordered[at]
    return ordered[0]


def _ages(ordered: Sequence[int]) -> tuple[int, int]:
    """Returns the first and the last of these moments (in rising order) between which there is no gap of ten years: of the moments before and after
    such a gap the more numerous, or the later."""
    cuts = [0, *(at for at in range(1, len(ordered)) if ordered[at] - ordered[at - 1] > AGES), len(ordered)]
    begin, end = max(zip(cuts, cuts[1:]), key=lambda cut: (cut[1] - cut[0], cut[1]))
    return ordered[begin], ordered[end - 1]


def _day(plan: Plan, value: int) -> str:
    return plan.place.shown(value)[:10]
