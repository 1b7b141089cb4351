"""Time zones: converts between moments and wall-clock times. All times are whole nanoseconds; a moment counts them from 1970 in UTC."""

from __future__ import annotations

from datetime import timezone
from typing import TYPE_CHECKING

from .texts import DAY, MINUTE, Asks, Cache, Unread, at_utc, moment, nanos

if TYPE_CHECKING:
    from collections.abc import Iterator
    from datetime import datetime, tzinfo

    from .working import WorkingTime

QUARTER = 15 * MINUTE
TWICE = {
    "first": "as the first",
    "second": "as the second",
    "order": "as the second from where the file goes back",
}


class Zone:
    """A time zone by its name (str), such as Europe/Berlin. Without a name, every day has 24 hours and moments are wall-clock times. `twice` says
    which hour is meant when clocks are set back. `working` (WorkingTime or None) says which time counts. Raises ValueError for a zone that this
    machine doesn't know.

    >>> from mpsim.times.zones import Zone
    >>> Zone("Europe/Berlin").shown(1772438417 * 10**9)
    '2026-03-02T09:00:17+01:00'
    """

    again: dict[str, int]
    zone: tzinfo | None

    def __init__(self, name: str | None = None, twice: str | None = None) -> None:
        self.name, self.twice, self.zone, self.again = name, twice, None, {}
        self.working: WorkingTime | None = None
        self._whole_days, self._shifts = Cache(self.whole_day), Cache(self._shift)
        if name:
            from zoneinfo import ZoneInfo

            try:
                self.zone = ZoneInfo(name)
            except (LookupError, ValueError, OSError):
                raise ValueError(f"this machine has no time zone {name!r}; their names look like Europe/Berlin") from None

    def counted(self, value: int) -> int:
        """Returns the time that counts at a moment (int, nanoseconds from any beginning): the moment itself, or the working time."""
        return self.working.of(value) if self.working else value

    def length(self, begin: int, end: int) -> int:
        """Returns the time that counts between two moments (int, nanoseconds): all of it, or the working time."""
        return self.working.length(begin, end) if self.working else end - begin

    def _both(self, wall: int) -> tuple[int, int]:
        """Returns the two moments with this wall-clock time, which are the same except when clocks are set back. When clocks are set forward over it,
        it never occurs, and the second moment is before the first."""
        here = moment(wall).replace(tzinfo=self.zone)
        return at_utc(here), at_utc(here.replace(fold=1))

    def first(self, wall: int) -> int:
        """Returns the first moment with at least this wall-clock time."""
        if not self.zone:
            return wall
        found, before = self._both(wall)
        while found - before > 1:
            between = (found + before) // 2
            found, before = (between, before) if self.wall(between) >= wall else (found, between)
        return found

    def both(self, value: int) -> tuple[int, ...]:
        """Returns the moments (tuple of int) with the same wall-clock time as a moment: two in an hour that occurs twice, else one."""
        if not self.zone:
            return (value,)
        wall = self.wall(value)
        if self._whole_days[wall // DAY * DAY] is not None:
            return (value,)
        one, two = self._both(wall)
        return (one, two) if one < two else (value,)

    def utc(self, wall: int, seen: dict[str, tuple[int, bool]] | None = None, than: int | None = None, until: int | None = None) -> int:
        """Returns the moment with this wall-clock time. If it occurs twice, it is the first that isn't before `than`, if given, or the last that
        isn't after `until`, if given, else the one that `twice` selects, for which `seen` (a dict) remembers what was read before. Raises Unread if
        it never occurs. Raises Asks if `twice` isn't given, or is "order" and the file goes back there a second time."""
        if not self.zone:
            return wall
        since = wall % DAY
        begin = self._whole_days[wall - since]
        if begin is not None:
            return begin + since
        one, two = self._both(wall)
        if one == two:
            return one
        day = str(moment(wall).date())
        if one > two:
            raise Unread(f"in the hour that is skipped on {day} in {self.name}")
        self.again[day] = self.again.get(day, 0) + 1
        if than is not None:
            return one if one >= than else two
        if until is not None:
            return two if two <= until else one
        if self.twice is None:
            raise Asks(f"in the hour that occurs twice on {day} in {self.name}: give --twice first, second or order")
        if self.twice == "order":
            seen = {} if seen is None else seen
            last, is_second = seen.get(day, (wall, False))
            if is_second and wall < last:
                more = "and the file goes back more than once there: --twice order needs rows in order of time"
                raise Asks(f"in the hour that occurs twice on {day} in {self.name}, {more}")
            seen[day] = wall, is_second or wall < last
            return two if seen[day][1] else one
        return one if self.twice == "first" else two

    def whole_day(self, midnight: int) -> int | None:
        """Returns the moment of a wall-clock midnight; None on a day on which clocks change."""
        if not self.zone:
            return midnight
        begin, end = self.first(midnight), self.first(midnight + DAY)
        return begin if end - begin == DAY else None

    def wall(self, value: int) -> int:
        """Returns the wall-clock time of a moment."""
        if not self.zone:
            return value
        shift = self._shifts[value // QUARTER]
        return nanos(self._here(value).replace(tzinfo=None)) if shift is None else value + shift

    def _shift(self, quarter: int) -> int | None:
        """Returns by how much the clock is ahead of UTC during a quarter of an hour; None if it changes within."""
        begin, end = (nanos(self._here(item * QUARTER).replace(tzinfo=None)) - item * QUARTER for item in (quarter, quarter + 1))
        return begin if begin == end else None

    def _here(self, value: int) -> datetime:
        return moment(value).replace(tzinfo=timezone.utc).astimezone(self.zone)

    def shown(self, value: int) -> str:
        """Returns the ISO 8601 text of a moment, with its offset if there is a zone."""
        here, rest = self._here(value) if self.zone else moment(value), value % 1000
        text = here.isoformat(timespec="microseconds" if rest else "auto")
        return f"{text[:26]}{rest:03}{text[26:]}" if rest else text

    def offset(self, value: int) -> str:
        """Returns the clock's offset from UTC at a moment, such as "+02:00"; empty without a zone."""
        return self._here(value).isoformat(timespec="seconds")[19:] if self.zone else ""

    def notes(self) -> Iterator[str]:
        """Yields notes on the hours that occurred twice."""
        for day, count in sorted(self.again.items()):
            how = TWICE.get(self.twice or "", "as the first that isn't before the service begins")
            yield f"{count} times are in the hour that occurs twice on {day} in {self.name}, and are read {how}"
