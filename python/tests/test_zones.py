"""Time zones and calendars, against `datetime` and `zoneinfo`."""

import unittest
from datetime import datetime, timedelta, timezone
from zoneinfo import ZoneInfo

from ground import Test, hour_of

from mpsim.times.calendar import Calendar, first_lines, settings_in
from mpsim.times.texts import Asks, Unread
from mpsim.times.zones import Zone

SECOND, DAY = 10**9, 86400 * 10**9
EPOCH = datetime(1970, 1, 1)
# Changes by an hour and by half an hour; clocks that change at midnight; clocks that never change; and an offset with minutes.
ZONES = "Europe/Berlin", "America/New_York", "Australia/Lord_Howe", "America/Havana", "Asia/Beirut", "Asia/Kathmandu"


def micros(wall):
    return (wall - EPOCH) // timedelta(microseconds=1) * 1000


class Zones(Test):
    def test_each_twenty_minutes(self):
        """There and back: the wall-clock time of a moment, and the moment of that. Over a year in Berlin, elsewhere on the days around each
        change."""
        begin = datetime(2026, 1, 1, tzinfo=timezone.utc)
        for name in ZONES:
            place, zone, seen = Zone(name, "order"), ZoneInfo(name), {}
            days = [begin + timedelta(days=number) for number in range(365)]
            offsets = [day.astimezone(zone).utcoffset() for day in days]
            near = [number for number in range(365) if name == "Europe/Berlin" or len(set(offsets[max(number - 2, 0) : number + 3])) > 1]
            self.assertTrue(len(near) in (365, 8) or name == "Asia/Kathmandu")
            for moment in (days[item] + timedelta(minutes=20 * step) for item in near for step in range(72)):
                wall = micros(moment.astimezone(zone).replace(tzinfo=None))
                value = int(moment.timestamp()) * SECOND
                self.assertEqual((place.utc(wall, seen), place.wall(value)), (value, wall), (name, moment))

    def test_the_hour_that_comes_twice(self):
        wall = micros(datetime(2026, 10, 25, 2, 30))
        first, second = micros(datetime(2026, 10, 25, 0, 30)), micros(datetime(2026, 10, 25, 1, 30))
        self.assertEqual([Zone("Europe/Berlin", item).utc(wall, {}) for item in ("first", "second", "order")], [first, second, first])
        with self.assertRaisesRegex(Asks, "in the hour that occurs twice on 2026-10-25 in Europe/Berlin: give --twice"):
            Zone("Europe/Berlin").utc(wall)
        # An end isn't before its beginning, whichever hour is meant.
        place = Zone("Europe/Berlin", "first")
        self.assertEqual([place.utc(wall, {}, than) for than in (first - 1, first, first + 1, second)], [first, first, second, second])
        self.assertEqual(list(place.notes()), ["4 times are in the hour that occurs twice on 2026-10-25 in Europe/Berlin, and are read as the first"])
        # Minute by minute into the second half, from which there is no way back.
        place, seen = Zone("Europe/Berlin", "order"), {}
        walls = [micros(datetime(2026, 10, 25, 2, minute)) for minute in (10, 10, 50, 5, 7)]
        got = [(place.utc(wall, seen) - wall) // (3600 * SECOND) for wall in walls]
        self.assertEqual(got, [-2, -2, -2, -1, -1])

    def test_the_hour_that_is_skipped(self):
        wall, begin = micros(datetime(2026, 3, 29, 2, 30)), micros(datetime(2026, 3, 29, 1, 0))
        with self.assertRaisesRegex(Unread, "in the hour that is skipped on 2026-03-29 in Europe/Berlin"):
            Zone("Europe/Berlin").utc(wall)
        self.assertEqual([Zone("Europe/Berlin").first(wall + item) for item in (-1800 * SECOND, 0, 1, 1800 * SECOND)], [begin] * 4)
        # A day whose first hour is skipped begins when clocks are set forward.
        self.assertEqual(Zone("Africa/Cairo").first(micros(datetime(2026, 4, 24))), micros(datetime(2026, 4, 23, 22)))
        self.assertEqual(Zone("Europe/Berlin").utc(micros(datetime(2026, 3, 29, 3, 0))), begin)

    def test_days_on_which_clocks_change(self):
        place = Zone("Europe/Berlin")
        days = datetime(2026, 3, 28), datetime(2026, 3, 29), datetime(2026, 10, 25), datetime(2026, 10, 26)
        found = [place.whole_day(micros(day)) for day in days]
        self.assertEqual(found, [micros(datetime(2026, 3, 27, 23)), None, None, micros(datetime(2026, 10, 25, 23))])

    def test_without_a_zone(self):
        place = Zone()
        self.assertEqual((place.utc(7), place.wall(7), place.first(7), place.shown(0), list(place.notes())), (7, 7, 7, "1970-01-01T00:00:00", []))

    def test_zones_that_are_not_there(self):
        for bad in "Berlin", "Europe/Nowhere", "../etc/passwd", "/etc/passwd", "Europe":
            with self.subTest(bad), self.assertRaisesRegex(ValueError, "this machine has no time zone"):
                Zone(bad)


class Calendars(Test):
    def test_days_and_hours(self):
        """Every five minutes of some days around each change have the day and the hour of datetime; hour by hour, also the right one of two with the
        same name."""
        for name in ZONES[:5]:
            zone, late = ZoneInfo(name), [datetime(2026, 10, 23, 0, 0), datetime(2026, 10, 31, 3, 30)]
            for start in datetime(2026, 3, 6, 17, 5), datetime(2026, 3, 27, 17, 5), datetime(2026, 4, 3, 7, 0), datetime(2026, 10, 2, 0, 0), *late:
                zero = start.replace(tzinfo=zone).astimezone(timezone.utc)
                cal = Calendar(60 * SECOND, start.isoformat(), name)
                for by, form in ("day", "%Y-%m-%d"), ("each", None), ("hour", "%H:00"), ("weekday", "%A"):
                    begins, names = cal.parts(by, 4 * 1440)
                    self.assertEqual(begins, sorted(begins))
                    at = 0
                    for minute in range(0, 4 * 1440, 5):
                        while at + 1 < len(begins) and begins[at + 1] <= minute:
                            at += 1
                        here = (zero + timedelta(minutes=minute)).astimezone(zone)
                        self.assertEqual(names[at], here.strftime(form) if form else hour_of(here), (name, by, here))

    def test_hours_that_come_twice(self):
        """Each is a separate part, with its offset; by hour of day they are one. On Lord Howe Island half an hour occurs twice."""
        for name, day, hour, offsets, ticks in (
            ("Europe/Berlin", "2026-10-25", "02:00", ("+02:00", "+01:00"), [120, 180]),
            ("Australia/Lord_Howe", "2026-04-05", "01:00", ("+11:00", "+10:30"), [60, 120]),
        ):
            cal = Calendar(60 * SECOND, day, name)
            begins, names = cal.parts("each", 1440)
            self.assertEqual([name for name in zip(names, begins) if "+" in name[0]], [(f"{day} {hour}{it}", at) for it, at in zip(offsets, ticks)])
            self.assertEqual({len(name) for name in names if "+" not in name}, {16})
            self.assertEqual(cal.parts("hour", 1440)[1].count(hour), 2)
        # When clocks are set forward, no hour gets its offset.
        self.assertFalse([part for part in Calendar(60 * SECOND, "2026-03-29", "Europe/Berlin").parts("each", 1380)[1] if "+" in part])

    def test_midnights(self):
        cal = Calendar(SECOND, "2026-10-24T08:00", "Europe/Berlin")
        ticks = [(cal.name(day), cal.tick_at(begin), cal.tick_at(end)) for day, begin, end in cal.midnights(57600 + 90000)]
        # The second day has 25 hours.
        days = [("2026-10-24", -28800, 57600), ("2026-10-25", 57600, 57600 + 90000), ("2026-10-26", 147600, 147600 + 86400)]
        self.assertEqual(ticks, days)
        self.assertEqual([cal.name(day) for day, _, _ in cal.midnights(57600 + 89999)], ["2026-10-24", "2026-10-25"])
        plain = Calendar(SECOND)
        self.assertEqual([plain.name(it) for it, _, _ in plain.midnights(86400)], ["day 1", "day 2"])
        self.assertEqual(plain.parts("hour", 3600)[1][:2], ["00:00", "01:00"])

    def test_starts(self):
        for start, zone, tick, wall in (
            ("2026-03-02T08:00:00+01:00", "Europe/Berlin", 60, datetime(2026, 3, 2, 8, 1)),
            ("2026-03-02T07:00:00Z", "Europe/Berlin", 60, datetime(2026, 3, 2, 8, 1)),
            ("2026-03-02T08:00", "Europe/Berlin", 0, datetime(2026, 3, 2, 8)),
            ("2026-03-02T08:00+05:00", None, 1, datetime(2026, 3, 2, 8, 0, 1)),
            ("2026-03-02", None, 86399, datetime(2026, 3, 2, 23, 59, 59)),
        ):
            self.assertEqual(Calendar(SECOND, start, zone).wall(tick), micros(wall))
        # A moment within a tick belongs to the next one.
        self.assertEqual([Calendar(60 * SECOND).tick_at(item * SECOND) for item in (0, 1, 60, 61)], [0, 1, 1, 2])

    def test_options_that_are_needed(self):
        with self.assertRaisesRegex(ValueError, "the length of a tick is unknown"):
            Calendar(None)
        with self.assertRaisesRegex(ValueError, "time 0, 8 o'clock: not an ISO 8601 time"):
            Calendar(SECOND, "8 o'clock")
        with self.assertRaisesRegex(ValueError, "give --start"):
            Calendar(SECOND).parts("weekday", 7)
        # In New York clocks were set forward on the 116th day of 1970.
        with self.assertRaisesRegex(ValueError, "the zone America/New_York needs the date of time 0, .*: give --start"):
            Calendar(SECOND, zone="America/New_York")

    def test_first_lines(self):
        lines = "model 1\n# a tick is 1s, time 0 is 2026-03-02T08:00:00+01:00 in Europe/Berlin\n# columns: talk, wrap\nsource a\nsource b\n"
        self.assertEqual(first_lines(SECOND, "2026-03-02T08:00:00+01:00", "Europe/Berlin", ["talk", "wrap"], ["a", "b"]), lines)
        self.assertEqual(first_lines(1500000, None, None, [], ["a"]), "model 1\n# a tick is 1500us\nsource a\n")
        self.assertEqual(settings_in(lines), (SECOND, "2026-03-02T08:00:00+01:00", "Europe/Berlin"))
        self.assertEqual(settings_in(lines.replace("\n", "\r\n")), (SECOND, "2026-03-02T08:00:00+01:00", "Europe/Berlin"))
        for text, told in (
            ("# a tick is 100ms\n", (10**8, None, None)),
            ("model 1\n# a tick is 1min, time 0 is 2026-03-02T08:00:00", (60 * SECOND, "2026-03-02T08:00:00", None)),
            ("# a tick is a second\n", (None, None, None)),
            ("# a tick is short\n", (None, None, None)),
            ("source a # a tick is 1s\n", (None, None, None)),
        ):
            self.assertEqual(settings_in(text), told)


if __name__ == "__main__":
    unittest.main()
