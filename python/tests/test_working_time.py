"""Working time by a calendar of shifts: counted minute by minute beside the package, through an export and back to the clock."""

import datetime
import os
import random
import unittest
from itertools import accumulate
from zoneinfo import ZoneInfo

from commands import InFolder
from ground import Test

from mpsim.times.calendar import Calendar, with_working, working_in
from mpsim.times.texts import DAY, HOUR, MINUTE, SECOND
from mpsim.times.working import WorkingTime, openings_in, openings_text, read_openings
from mpsim.times.zones import Zone

COUNT = int(os.environ.get("CASES", 40))
NAMES = "mon", "tue", "wed", "thu", "fri", "sat", "sun"
EPOCH = datetime.datetime(1970, 1, 1)
# A plant with a pause, and Good Friday.
SHIFTS = "days,from,to\nmon-fri,06:00,14:00\nmon-thu,14:30,22:30\n2026-04-03,off,\n"
LOG = """unit,station,event,when
a,saw,START,2026-04-02 13:00:00
a,saw,END,2026-04-02 15:00:00
a,drill,START,2026-04-02 22:00:00
b,saw,START,2026-04-02 23:00:00
a,drill,END,2026-04-06 06:30:00
b,saw,END,2026-04-06 06:10:00
b,drill,START,2026-04-06 06:30:00
b,drill,END,2026-04-06 07:00:00
"""
EVENTS = {"unit": "unit", "steps": "station", "begin_event": "START", "end_event": "END"}
WORDS = "--time", "when", "--unit", "unit", "--steps", "station", "--begin-event", "START", "--end-event", "END"


def at(text):
    """Returns a wall-clock time in nanoseconds."""
    return (datetime.datetime.fromisoformat(text) - EPOCH) // datetime.timedelta(seconds=1) * SECOND


def drawn(draw):
    """Returns the rows of a calendar: days, from, to (texts). Hours are such that clocks never change at their ends."""
    rows = []
    for _ in range(draw.randint(1, 4)):
        days = draw.choice(
            [draw.choice(NAMES), "mon-fri", "daily", "sat,sun", "fri-mon", f"2026-03-{draw.randint(23, 31)}", "2026-03-27..2026-03-29"]
        )
        hours = draw.sample([0, 1, 5, 6, 9, 14, 20, 22, 23], 2)
        since, until = (f"{hour:02}:{draw.choice((0, 15, 30)):02}" for hour in hours)
        rows.append((days, since, until))
    if draw.random() < 0.5 and all("2026" not in row[0] for row in rows):
        rows.append((f"2026-03-{draw.randint(23, 31)}", "off", ""))
    return rows


def days_of(text):
    """Returns whether a day (a date) is one of these, and whether they are dates."""
    if text[0] == "2":
        first, _, last = text.partition("..")
        begin, end = datetime.date.fromisoformat(first), datetime.date.fromisoformat(last or first)
        return (lambda day: begin <= day <= end), True
    chosen = set()
    for part in text.split(","):
        first, _, last = part.partition("-")
        if part == "daily":
            return (lambda day: True), False
        number = NAMES.index(first)
        chosen.add(number)
        while last and number != NAMES.index(last):
            number = (number + 1) % 7
            chosen.add(number)
    return (lambda day: day.weekday() in chosen), False


def openings_of(rows, day):
    """Returns the minutes (pairs) at which work begins and ends on a day (a date)."""
    mine = [(row, days_of(row[0])) for row in rows]
    mine = [(row, is_date) for row, (holds, is_date) in mine if holds(day)]
    mine = [row for row, is_date in mine if is_date or not any(other for _, other in mine) and row]
    found = []
    for _, since, until in mine:
        if since != "off":
            begins, ends = (int(text[:2]) * 60 + int(text[3:]) for text in (since, until))
            found.append((begins, ends + 1440 * (ends < begins)))
    return found


def open_minutes(rows, begin, count, zone):
    """Returns whether each minute from a moment (datetime in UTC) on is in working time (list of bool), by looking at the rows for each minute."""
    found, known = [], {}
    for minute in range(count):
        here = (begin + datetime.timedelta(minutes=minute)).replace(tzinfo=datetime.timezone.utc)
        wall = (here.astimezone(zone) if zone else here).replace(tzinfo=None)
        of_day = wall.hour * 60 + wall.minute
        is_open = False
        for day, since in (wall.date(), of_day), (wall.date() - datetime.timedelta(days=1), of_day + 1440):
            if day not in known:
                known[day] = openings_of(rows, day)
            is_open |= any(begins <= since < ends for begins, ends in known[day])
        found.append(is_open)
    return found


class Counting(Test):
    def test_every_minute(self):
        """Ten days around a change of clocks: the working time up to each minute, and the way back."""
        begin, count = datetime.datetime(2026, 3, 23, 12), 10 * 1440
        first = (begin - EPOCH) // datetime.timedelta(minutes=1) * MINUTE
        for seed in range(COUNT):
            draw = random.Random(seed)
            rows, name = drawn(draw), draw.choice([None, "Europe/Berlin", "America/New_York"])
            is_open = open_minutes(rows, begin, count, name and ZoneInfo(name))
            text = "; ".join(f"{days} {since}" + f"-{until}" * bool(until) for days, since, until in rows)
            if not any(since != "off" for _, since, _ in rows):
                continue
            shifts = WorkingTime(openings_in(text), Zone(name))
            zero, totals = shifts.of(first), [0, *accumulate(is_open)]
            for minute in draw.sample(range(count), 200):
                value = first + minute * MINUTE
                self.assertEqual((shifts.of(value) - zero) // MINUTE, totals[minute], (text, name, minute))
                self.assertEqual(shifts.is_open(value), is_open[minute], (text, name, minute))
                ahead = next((later for later in range(minute, count) if is_open[later]), None)
                if ahead is not None:
                    self.assertEqual(shifts.moment(shifts.of(value)), first + ahead * MINUTE, (text, name, minute))
                if is_open[minute]:
                    self.assertEqual(shifts.moment(shifts.of(value + 17)), value + 17)

    def test_ends(self):
        """The end of a shift isn't open, but work may end then; the end of one of two that meet is open."""
        shifts = WorkingTime(openings_in("mon 06:00-14:00; mon 14:00-15:00; mon 14:30-16:00"), Zone())
        for text, is_open, is_end in (
            ("05:59", False, False),
            ("06:00", True, True),
            ("14:00", True, True),
            ("15:00", True, True),
            ("16:00", False, True),
            ("16:01", False, False),
        ):
            value = at(f"2026-03-02T{text}")
            self.assertEqual((shifts.is_open(value), shifts.is_end(value)), (is_open, is_end), text)
        self.assertEqual(shifts.of(at("2026-03-09T06:00")) - shifts.of(at("2026-03-02T06:00")), 10 * HOUR)

    def test_far_apart(self):
        """Years away, in both directions, in any order."""
        shifts = WorkingTime(openings_in("daily 08:00-09:00; 2026-03-02 off"), Zone())
        zero = shifts.of(at("2026-03-01T08:00"))
        self.assertEqual((shifts.of(at("2036-03-01T08:00")) - zero) // HOUR, 3653 - 1)
        self.assertEqual((shifts.of(at("2016-03-01T08:00")) - zero) // HOUR, -3652)
        self.assertEqual(shifts.moment(zero - 1000 * HOUR), at("2023-06-05T08:00"))
        self.assertEqual(shifts.moment(zero + HOUR), at("2026-03-03T08:00"))

    def test_day_by_day(self):
        """Each day of two years, in order, forwards and backwards."""
        for step in 1, -1:
            shifts = WorkingTime(openings_in("daily 08:00-09:00"), Zone())
            zero = shifts.of(at("2026-03-01T12:00"))
            for day in range(0, 700 * step, step):
                self.assertEqual((shifts.of(at("2026-03-01T12:00") + day * DAY) - zero) // HOUR, day)

    def test_earlier_night_shifts(self):
        """Days that are looked up long before the first ones change no time that was given before: a night shift may lie on both."""
        shifts = WorkingTime(openings_in("daily 22:00-06:00"), Zone())
        zero = shifts.of(at("2026-03-02T22:00"))
        for days in range(1, 400, 7):
            self.assertEqual((shifts.of(at("2026-03-02T22:00") - days * DAY) - zero) // HOUR, -8 * days)
        self.assertEqual((shifts.of(at("2026-03-02T22:00")), shifts.moment(zero)), (zero, at("2026-03-02T22:00")))

    def test_too_little(self):
        shifts = WorkingTime(openings_in("2026-03-02 08:00-09:00"), Zone())
        begin = shifts.of(at("2026-03-01T00:00"))
        self.assertEqual(shifts.moment(begin + HOUR - 1), at("2026-03-02T09:00") - 1)
        with self.assertRaisesRegex(ValueError, "the calendar has too little working time: 60,000 days aren't enough for these times"):
            shifts.moment(begin + HOUR)

    def test_clocks_change_at_night(self):
        """A night shift has seven hours when clocks go forward, and nine when they go back."""
        shifts = WorkingTime(openings_in("daily 22:00-06:00"), Zone("Europe/Berlin"))
        for day, hours in ("2026-03-28", 7), ("2026-10-24", 9), ("2026-11-02", 8):
            begin = Zone("Europe/Berlin").first(at(f"{day}T12:00"))
            self.assertEqual(shifts.of(begin + DAY) - shifts.of(begin), hours * HOUR)


class Calendars(Test):
    def test_ticks_and_clocks(self):
        """Each tick of a week has a clock, and the clock its tick; closed hours have the tick of the next opening."""
        days = Calendar(MINUTE, "2026-03-05T12:00", None, "mon-fri 06:00-14:00; sat 08:00-10:00; 2026-03-09 off")
        self.assertEqual([days.shown(tick) for tick in (0, 119, 120, 599, 600, 719, 720)], [
            f"2026-03-{text}:00"
            for text in ("05T12:00", "05T13:59", "06T06:00", "06T13:59", "07T08:00", "07T09:59", "10T06:00")
        ])  # fmt: skip
        for tick in range(3000):
            self.assertEqual(days.tick_at(days.moment(tick)), tick)
        for text, tick in ("05T14:00", 120), ("05T20:00", 120), ("08T12:00", 720), ("09T12:00", 720), ("10T06:01", 721), ("05T11:00", -60):
            self.assertEqual(days.tick_at(at(f"2026-03-{text}")), tick, text)
        self.assertEqual(
            days.stretches(720),
            [(0, at("2026-03-05T12:00")), (120, at("2026-03-06T06:00")), (600, at("2026-03-07T08:00")), (720, at("2026-03-10T06:00"))],
        )

    def test_parts(self):
        days = Calendar(HOUR, "2026-03-06T12:00", None, "mon-fri 06:00-14:00")
        self.assertEqual(days.parts("day", 3), ([-6, 2, 2, 2], ["2026-03-06", "2026-03-07", "2026-03-08", "2026-03-09"]))
        begins, names = days.parts("each", 3)
        shown = {tick: name for tick, name in zip(begins, names)}
        self.assertEqual([shown[tick] for tick in range(4)], ["2026-03-06 12:00", "2026-03-06 13:00", "2026-03-09 06:00", "2026-03-09 07:00"])

    def test_time_0_while_closed(self):
        days = Calendar(MINUTE, "2026-03-07T12:00", None, "mon-fri 06:00-14:00")
        self.assertEqual((days.shown(0), days.tick_at(at("2026-03-09T06:05"))), ("2026-03-09T06:00:00", 5))
        with self.assertRaisesRegex(ValueError, "working time needs the date of time 0: give --start"):
            Calendar(MINUTE, None, None, "mon-fri 06:00-14:00")

    def test_comment(self):
        text = "model 1\r\n# a tick is 1s\r\nsource door\r\n"
        made = with_working(text, "mon 06:00-14:00")
        self.assertEqual(made, "model 1\r\n# a tick is 1s\r\n# working time is mon 06:00-14:00\r\nsource door\r\n")
        self.assertEqual((working_in(text), working_in(made)), (None, "mon 06:00-14:00"))
        self.assertEqual(working_in(with_working(made, "daily 00:00-24:00")), "daily 00:00-24:00")


class Files(InFolder):
    def test_rows(self):
        path = self.file("c.csv", '\ufeffdays;from;to\nMon - Fri; 6:00 ;14:00\n"sat,Sun";22:00;6:00\n\n2026-12-24..2026-12-31;off;\n')
        self.assertEqual(openings_text(read_openings(path)), "mon-fri 06:00-14:00; sat,sun 22:00-06:00; 2026-12-24..2026-12-31 off")

    def test_read_back(self):
        for seed in range(200):
            rows = drawn(random.Random(seed))
            path = self.file("c.csv", "days,from,to\n" + "".join(f'"{days}",{since},{until}\n' for days, since, until in rows))
            found = read_openings(path)
            self.assertEqual(openings_in(openings_text(found)), found, rows)

    def test_errors(self):
        for rows, why in (
            ("mon-fri,06:00", "row 2: 2 fields instead of 3"),
            ("", "it has no working time: expected a row such as mon-fri,06:00,14:00"),
            ("2026-04-03,off,", "it has no working time: expected a row such as mon-fri,06:00,14:00"),
            ("someday,06:00,14:00", "row 2: 'someday' isn't a date or weekdays such as mon-fri"),
            (",06:00,14:00", "row 2: the days are missing: expected weekdays such as mon-fri, daily, or a date"),
            ("mon,06:00,6:00", "row 2: work from 06:00 to 6:00: expected two different times of day, such as 06:00 and 14:00"),
            ("mon,24:00,6:00", "row 2: work from 24:00 to 6:00: expected two different times of day, such as 06:00 and 14:00"),
            ("mon,06:00:30,14:00", "row 2: '06:00:30': expected whole minutes"),
            ("mon,6 h,14:00", "row 2: '6 h': not h:mm or h:mm:ss"),
            ("mon,off,", "row 2: mon is off: only a date is off, without an end; weekdays without a row are closed"),
            ("2026-04-03,off,14:00", "row 2: 2026-04-03 is off: only a date is off, without an end; weekdays without a row are closed"),
            ("mon,06:00,14:00\n2026-02-30,off,", "row 3: '2026-02-30' isn't a date such as 2026-04-03"),
            (
                "2026-04-03..2026-04-01,off,",
                "row 2: '2026-04-03..2026-04-01': expected a date, or a range of at most 3,660 days such as 2026-12-24..2026-12-31",
            ),
            ("2026-04-03,06:00,14:00\n2026-04-01..2026-04-05,off,", "2026-04-03 is off and has hours"),
            (
                "daily,06:00,14:00\n" + "2026-04-03,off,\n" * 700,
                "it is longer than 8,000 bytes: write ranges of dates such as 2026-12-24..2026-12-31",
            ),
        ):
            path = self.file("c.csv", f"days,from,to\n{rows}\n")
            with self.assertRaises(ValueError) as caught:
                read_openings(path)
            self.assertEqual(str(caught.exception), f"{path}: {why}")
        with self.assertRaisesRegex(ValueError, "no column 'days'; its columns are mon-fri, 06:00, 14:00"):
            read_openings(self.file("c.csv", "mon-fri,06:00,14:00\n"))


MODEL = """model 1
# a tick is 1s, time 0 is 2026-04-02T13:00:00+02:00 in Europe/Berlin
# columns: d
# working time is mon-fri 06:00-14:00; mon-thu 14:30-22:30; 2026-04-03 off
source door
server desk d from door
"""
TRACE = "source,time,d\ndoor,0,100\ndoor,3599,50\ndoor,3600,7\ndoor,32399,20\ndoor,32400,30\ndoor,61200,9\n"


if __name__ == "__main__":
    unittest.main()
