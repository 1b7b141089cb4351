"""Days and hours, with figures worked out by hand, by `datetime`, or by a separate run of each day."""

import csv
import datetime
import io
import math
import random
import unittest
import zoneinfo
from collections import defaultdict

from commands import InFolder, planner
from ground import DESK, EXAMPLES, Test, hour_of, nodes_of, words_of

import mpsim
from mpsim.tables.hours import hours
from mpsim.times.calendar import Calendar
from mpsim.sweeps.days import by_calendar, by_ticks, cut

TOLD = DESK.replace("model 1\n", "model 1\n# a tick is 1s, time 0 is 2026-03-27T08:00:00+01:00 in Europe/Berlin\n")
NO_TICK = "the length of a tick is unknown: give --tick and --start, or {} whose first lines mpplan prepare wrote"
SECOND, HOUR, DAY = 10**9, 3600, 86400
ZONE = zoneinfo.ZoneInfo("Europe/Berlin")


def clock_at(tick, start, zone=ZONE):
    """Returns the wall-clock time this many seconds after a moment."""
    return (start + datetime.timedelta(seconds=tick)).astimezone(zone)


def rows_of(text, key, **wanted):
    """Returns the rows of a table (dicts) with these values, by a column."""
    return {item[key]: item for item in csv.DictReader(io.StringIO(text)) if all(item[name] == value for name, value in wanted.items())}


def came(text):
    """Returns the arrivals in each part of a table of hours."""
    return {line.split(",")[0]: line.split(",")[1] for line in text.splitlines()[1:]}


class Cuts(Test):
    def test_borders(self):
        """A time on a border belongs to the piece that begins there; opening time counts, closing time doesn't."""
        days, left = cut([0, 9, 10, 19, 20, 21], [0, 10, 20], ["a", "b"])
        self.assertEqual(([(day.name, day.zero, day.records) for day in days], left), ([("a", 0, (0, 1)), ("b", 10, (2, 3))], 2))
        days, left = cut([2, 3, 7, 8, 13, 18], [0, 10, 20], ["a", "b"], [3, 13], [8, 18])
        self.assertEqual(([(day.name, day.zero, day.end, day.records) for day in days], left), ([("a", 3, 10, (1, 2)), ("b", 13, 20, (4,))], 3))

    def test_days_of_a_zone(self):
        """Each record is on the day that `datetime` gives, over a year."""
        start = datetime.datetime(2026, 1, 1, 7, 30, tzinfo=ZONE)
        draw = random.Random(3)
        times = [draw.randrange(365 * DAY) for _ in range(4000)]
        pieces, left = by_calendar(times, Calendar(SECOND, start.isoformat(), "Europe/Berlin"), "9:00", "18:00")
        want = defaultdict(list)
        for at, time in enumerate(times):
            clock = clock_at(time, start.astimezone(datetime.timezone.utc))
            if 9 <= clock.hour < 18:
                want[str(clock.date())].append(at)
        self.assertEqual({piece.name: list(piece.records) for piece in pieces}, want)
        self.assertEqual(left, 4000 - sum(map(len, want.values())))
        for item in pieces:
            clock = clock_at(item.zero, start.astimezone(datetime.timezone.utc))
            self.assertEqual((str(clock.date()), clock.hour, clock.minute), (item.name, 9, 0))
        self.assertEqual({piece.name for piece in pieces if piece.end - piece.zero != 15 * HOUR}, set())

    def test_pieces_of_ticks(self):
        pieces, _ = by_ticks([250, 0, 199, 100, 200], 100)
        self.assertEqual([tuple(item) for item in pieces], [("0..99", 0, 100, (1,)), ("100..199", 100, 200, (2, 3)), ("200..299", 200, 300, (0, 4))])
        self.assertEqual(by_ticks([], 100)[0], [])


class Days(InFolder):
    def trace(self, rows, name="t.csv"):
        return self.file(name, "source,time,d\n" + "".join(f"door,{time},{d}\n" for time, d in rows))

    def test_a_table_of_days(self):
        """Three calls a day from 9 o'clock, 10 apart: with 30 each they wait 0, 20 and 40; with 5 each, 0. March 29 has 23 hours: the record 4 hours
        before the end of two days is at 4 o'clock of that day, and the one after 3 days at 9 o'clock of the 30th."""
        first = [(HOUR + 10 * number, 30) for number in range(3)] + [(DAY + HOUR + 10 * number, 5) for number in range(3)]
        trace, model = self.trace([*first, (3 * DAY, 30), (2 * DAY - 4 * HOUR, 7)]), self.file("m.txt", TOLD)
        told = rows_of(self.tells("days", model, trace), "day", node="desk")
        self.assertEqual(list(told), ["2026-03-27", "2026-03-28", "2026-03-29", "2026-03-30"])
        figures = [[item[name] for name in ("status", "span", "in", "wait", "max", "util")] for item in told.values()]
        self.assertEqual(figures[:2], [["0", "90", "3", "60", "40", "1.0000"], ["0", "25", "3", "0", "0", "0.6000"]])
        left = "mpplan: 1 record left out: before a day opens or after it closes\n"
        told = rows_of(self.tells("days", model, trace, "--open", "9:00", "--close", "10:00", error=left), "day", node="desk")
        self.assertEqual({day: it["span"] for day, it in told.items()}, {"2026-03-27": "90", "2026-03-28": "25", "2026-03-30": "30"})
        told = rows_of(self.tells("days", model, trace, "--open", "3:00", "--node", "desk"), "day")
        self.assertEqual({day: it["span"] for day, it in told.items()}["2026-03-30"], str(6 * HOUR + 30))

    def test_nights(self):
        """A night is named after the day on which it begins, and ends by the clock of the next, even if clocks change: from 18:00 to 6:00 the night
        to March 29 has 11 hours. A job at 3 o'clock of the first day belongs to the night before."""
        # 3:00 and 12:00 on the 26th, 17:59 and 18:00 on the 27th, 5:59, 6:00 and 23:00 on the 28th, 5:00 and 6:00 on the 29th.
        times = 3 * HOUR, 12 * HOUR, 42 * HOUR - 60, 42 * HOUR, 54 * HOUR - 60, 54 * HOUR, 71 * HOUR, 76 * HOUR, 77 * HOUR
        trace = self.trace([(time, 1) for time in times])
        model = self.file("m.txt", TOLD.replace("2026-03-27T08", "2026-03-26T00"))
        left = "mpplan: 4 records left out: before a day opens or after it closes\n"
        told = rows_of(self.tells("days", model, trace, "--open", "18:00", "--close", "6:00", "--node", "desk", error=left), "day")
        self.assertEqual({day: it["in"] for day, it in told.items()}, {"2026-03-25": "1", "2026-03-27": "2", "2026-03-28": "2"})
        self.assertEqual({day: it["span"] for day, it in told.items()}["2026-03-28"], str(10 * HOUR + 1))
        whole = rows_of(self.tells("days", model, trace, "--open", "18:00", "--close", "18:00", "--node", "desk"), "day")
        self.assertEqual([item["in"] for item in whole.values()], ["2", "1", "3", "3"])

    def test_a_day_that_opens_in_the_hour_that_is_skipped(self):
        """At 2 o'clock it becomes 3: a job then arrives after 2:30, not before it."""
        rows = [(0, 1), (HOUR + 59 * 60, 2), (2 * HOUR, 4), (2 * HOUR + 29 * 60, 8), (3 * HOUR, 16)]
        model = self.file("m.txt", TOLD.replace("2026-03-27T08", "2026-03-29T00"))
        for words, count, busy in (("--open", "2:30"), 2, 28), (("--close", "2:30"), 3, 3):
            said = f"mpplan: {count} records left out: before a day opens or after it closes\n"
            told = self.tells("days", model, self.trace(rows), *words, "--node", "desk", error=said)
            self.assertEqual(rows_of(told, "day")["2026-03-29"]["busy"], str(busy))

    def test_each_day_is_a_run_of_its_own(self):
        draw = random.Random(5)
        rows = [(draw.randrange(10 * DAY), draw.randrange(9000)) for _ in range(300)]
        status, out, error = planner("days", self.file("m.txt", DESK), self.trace(rows), "--tick", "1s", "--start", "2026-06-01")
        told, over, figures = rows_of(out, "day", node="desk"), 0, ("in", "wait", "max", "p50", "p90", "p99", "busy", "area", "peak")
        for day in range(10):
            mine = [(time % DAY, d) for time, d in rows if time // DAY == day]
            text = str(mpsim.run(DESK, [("door", *item) for item in mine]))
            want = {node["name"]: node for node in nodes_of(text)}["desk"]
            got = told[f"2026-06-{day + 1:02}"]
            self.assertEqual([got[name] for name in figures], [want[name] for name in figures])
            over += int(words_of(text, "jobs")[0][3]) > DAY
        self.assertGreater(over, 0)
        said = f"mpplan: on {over} of 10 days jobs are still in the network when the next begins; its run starts without them\n"
        self.assertEqual((status, error), (0, said))

    def test_jobs_that_stay(self):
        """One job stays past the end of its piece, one leaves exactly then."""
        trace, model = self.trace([(0, 150), (90, 5), (250, 5), (390, 10), (490, 9)]), self.file("m.txt", DESK)
        said = "mpplan: in 1 of 4 pieces jobs are still in the network when the next begins; its run starts without them\n"
        told = rows_of(self.tells("days", model, trace, "--every", 100, error=said), "day", node="desk")
        self.assertEqual({day: it["span"] for day, it in told.items()}, {"0..99": "155", "200..299": "55", "300..399": "100", "400..499": "99"})

    def test_a_day_that_is_refused(self):
        trace, model = self.trace([(0, 60), (DAY, 30)]), self.file("m.txt", TOLD.replace("model 1\n", "model 1\nbound 50\n"))
        status, out, _ = planner("days", model, trace)
        rows = list(csv.reader(io.StringIO(out)))
        told = "mpsim: node desk position 0 passes the bound at time 60"
        self.assertEqual((status, rows[1][:2], rows[1][-1]), (11, ["2026-03-27", "5"], told))
        self.assertEqual((rows[2][:2], len(rows[1])), (["2026-03-28", "0"], len(rows[0])))

    def test_refusals(self):
        trace, model = self.trace([(0, 6), (DAY, 3), (5, "2,5")]), self.file("m.txt", TOLD)
        other = self.file("u.csv", 'source,time,d\ndoor,0,1\ndoor,86400,1\ndoor,90000,"2,5"\n')
        self.refuses(f'{other}: trace record 3: field 3 is not a number in range (column d): door,3600,"2,5"', "days", model, other, status=4)
        trace = self.trace([(0, 6)])
        bad = self.file("b.txt", TOLD.replace("server desk", "server Desk"))
        self.refuses(f"{bad}: model line 4: word 2 not allowed: server Desk d from door", "days", bad, trace, status=3)
        self.refuses(NO_TICK.format("a model"), "days", self.file("n.txt", DESK), trace)
        self.assertEqual(planner("days", model, trace, "--every", "0")[0], 1)
        self.assertEqual(planner("days", model, trace, "--every", "10", "--open", "8:00")[0], 1)
        self.refuses('"8 o\'clock": not h:mm or h:mm:ss', "days", model, trace, "--open", "8 o'clock")
        for words in ("--open", "24:00"), ("--open", "24:00", "--close", "24:00"):
            self.refuses("--open 24:00: a day ends then", "days", model, trace, *words)
        for words in ("--close", "0:00"), ("--open", "8:00", "--close", "00:00"):
            self.refuses(f"--close {words[-1]}: write 24:00 for the midnight at the end of a day", "days", model, trace, *words)
        # A model without a final line feed is still a model, not a path.
        cr = self.file("cr.txt", TOLD.replace("\n", "\r"))
        shown = TOLD.replace("\n", "\\r").removesuffix("\\r")
        for words in ("days", cr, trace, "--every", 10), ("pool", cr, trace, "--node", "desk", "--agents", 2):
            status, out, error = planner(*words)
            self.assertEqual((status, out), (3, ""))
            self.assertTrue(error.startswith(f"mpplan: {cr}: model line 1: byte not allowed: {shown}"), error)
        told = f"time 20260302080017 is {20260302080017 // DAY} days after time 0: a tick is shorter than 1 s, or these times aren't ticks"
        self.refuses(told, "days", model, self.trace([(20260302080017, 1)]))
        self.refuses(f"{self.folder}/absent: No such file or directory", "days", model, self.folder / "absent")
        self.assertEqual(self.tells("days", model, self.trace([])).count("\n"), 1)

    def test_no_day_is_left(self):
        """A header alone, and a line that says so. A day closes at midnight at the latest."""
        trace, model = self.trace([(0, 60), (DAY, 30)]), self.file("m.txt", TOLD)
        for words in ("--open", "23:00"), ("--close", "8:00"), ("--open", "8:00:01", "--close", "24:00"):
            left = "mpplan: 2 records left out: before a day opens or after it closes; no day is left\n"
            self.assertEqual(self.tells("days", model, trace, *words, error=left).count("\n"), 1)
        told = rows_of(self.tells("days", model, trace, "--open", "8:00", "--close", "24:00", "--node", "desk"), "day")
        self.assertEqual(list(told), ["2026-03-27", "2026-03-28"])

    def test_a_shift_over_midnight(self):
        """From 18 o'clock to 2 o'clock, with pieces of a day from 18 o'clock, which is time 0."""
        trace, model = self.trace([(0, 10), (7 * HOUR, 10), (DAY + 1, 5), (DAY + 8 * HOUR, 5)]), self.file("m.txt", DESK)
        told = rows_of(self.tells("days", model, trace, "--every", DAY, "--node", "desk"), "day")
        self.assertEqual({day: it["in"] for day, it in told.items()}, {"0..86399": "2", "86400..172799": "2"})


class Hours(InFolder):
    def test_by_hand(self):
        """Three calls at 8 o'clock, at 0, 10 and on the next day, a Saturday; the second waits 90. One at 9 o'clock."""
        rows = [(0, 100), (10, 50), (HOUR + 1, 5), (DAY + 5, 1)]
        model, trace = self.file("m.txt", TOLD), self.file("t.csv", "source,time,d\n" + "".join(f"door,{time},{d}\n" for time, d in rows))
        jobs = self.file("j.txt", "".join(mpsim.run(model, trace, jobs=True).lines()))
        head = "came,departed,lost,held,mean_wait,p50,p90,p95,p99,max,within_20_of_all,within_20_of_departed\n"
        want = f"hour,{head}08:00,3,3,0,0,30.0,0,90,90,90,90,0.666667,0.666667\n09:00,1,1,0,0,0.0,0,0,0,0,0,1.0,1.0\n"
        self.assertEqual(self.tells("hours", model, trace, "--node", "desk"), want)
        self.assertEqual(self.tells("hours", jobs, "--node", "desk", "--model", model), want)
        told = self.tells("hours", model, trace, "--node", "desk", "--by", "weekday", "--within", "89", "--within", 90, "--percentile", "50")
        self.assertEqual(told.splitlines()[1:], ["Friday,3,3,0,0,30.0,0,90,0.666667,0.666667,1.0,1.0", "Saturday,1,1,0,0,0.0,0,0,1.0,1.0,1.0,1.0"])
        told = self.tells("hours", model, trace, "--node", "desk", "--by", "each")
        self.assertEqual(came(told), {"2026-03-27 08:00": "2", "2026-03-27 09:00": "1", "2026-03-28 08:00": "1"})
        told = self.tells("hours", jobs, "--node", "desk", "--by", "day", "--tick", "1s")
        self.assertEqual(came(told), {"day 1": "3", "day 2": "1"})
        self.refuses(NO_TICK.format("a --model"), "hours", jobs, "--node", "desk")
        self.refuses("hours takes one node or one pool: give --node NAME or --pool NAME", "hours", jobs, "--tick", "1s")
        self.refuses("weekdays need the date of time 0: give --start", "hours", jobs, "--node", "desk", "--tick", "1s", "--by", "weekday")

    def test_each_hour_as_datetime_has_it(self):
        """On the days on which clocks change; the figures are worked out from the job lines."""
        draw, start = random.Random(8), datetime.datetime(2026, 10, 23, 5, 17, tzinfo=ZONE).astimezone(datetime.timezone.utc)
        rows = sorted((draw.randrange(9 * DAY), draw.randrange(2000)) for _ in range(700))
        text = "".join(mpsim.run("model 1\nsource door\nloss desk 3 d from door\n", [("door", *row) for row in rows], jobs=True).lines())
        visits = mpsim.Report.parse(text).visits["desk"]
        names = {
            "hour": lambda item: f"{item.hour:02}:00",
            "day": lambda item: str(item.date()),
            "each": hour_of,
            "weekday": lambda item: item.strftime("%A"),
        }
        for by, name in names.items():
            want = defaultdict(lambda: [0, 0, []])
            for words in words_of(text, "job"):
                if words[2] == "desk":
                    part = want[name(clock_at(int(words[4]), start))]
                    part[0] += 1
                    if words[5] == "lost":
                        part[1] += 1
                    else:
                        part[2].append(int(words[6]))
            _, *told = hours(visits, Calendar(SECOND, start.isoformat(), "Europe/Berlin"), by, [100], [90])
            self.assertEqual({item[0] for item in told}, set(want))
            week = ["Monday", "Tuesday", "Wednesday", "Thursday", "Friday", "Saturday", "Sunday"]
            order = {"weekday": week, "hour": sorted(want)}.get(by, list(want))
            self.assertEqual([item[0] for item in told], [item for item in order if item in want])
            for part, came, departed, lost, held, mean, p90, greatest, of_all, of_departed in told:
                _, gone, waits = want[part]
                share = sum(wait <= 100 for wait in waits)
                self.assertEqual((came, departed, lost, held), (len(waits) + gone, len(waits), gone, 0))
                if waits:
                    self.assertEqual((mean, greatest), (round(sum(waits) / len(waits), 3), max(waits)))
                    self.assertEqual(p90, sorted(waits)[math.ceil(0.9 * len(waits)) - 1])
                    self.assertEqual((of_all, of_departed), (round(share / came, 6), round(share / departed, 6)))

    def test_a_night_on_which_clocks_go_back(self):
        """Calls an hour apart: each has an hour of its own among the day's 25."""
        model = self.file("m.txt", TOLD.replace("2026-03-27T08:00:00+01:00", "2026-10-25T00:00:00+02:00"))
        trace = self.file("t.csv", "source,time,d\n" + "".join(f"door,{number * HOUR},5\n" for number in range(25)))
        told = came(self.tells("hours", model, trace, "--node", "desk", "--by", "each"))
        night = [f"2026-10-25 {item}" for item in ("01:00", "02:00+02:00", "02:00+01:00", "03:00")]
        self.assertEqual((list(told.values()), list(told)[1:5]), (["1"] * 25, night))
        told = came(self.tells("hours", model, trace, "--node", "desk"))
        self.assertEqual((len(told), told["02:00"]), (24, "2"))

    def test_comments_of_any_bytes(self):
        """As in mpsim; anything other than a comment is rejected."""
        model, trace = self.folder / "m.txt", self.file("t.csv", "source,time,d\ndoor,0,5\n")
        model.write_bytes(TOLD.encode().replace(b"\n", b"\n \t# B\xfcro\n", 1))
        report = self.file("jobs.txt", "".join(mpsim.run(model, trace, jobs=True).lines()))
        hour = self.tells("hours", model, trace, "--node", "desk")
        self.assertEqual(came(hour), {"08:00": "1"})
        self.assertEqual(self.tells("hours", report, "--model", model, "--node", "desk"), hour)
        self.assertEqual(list(rows_of(self.tells("days", model, trace), "day")), ["2026-03-27"])
        for name in "page.html", "network.svg":
            self.tells("page", report, "--model", model, "--out", self.folder / name)
        model.write_bytes(TOLD.encode() + b"source B\xfcro\n")
        self.refuses(f"{model}: line 5: the byte fc isn't valid UTF-8", "hours", report, "--model", model, "--node", "desk")

    def test_no_such_year(self):
        model, trace = self.file("m.txt", DESK), self.file("t.csv", "source,time,d\ndoor,0,5\ndoor,9,5\n")
        for tick, start, zone in ("1min", "9999-12-31T23:59", "UTC"), ("1s", "0001-01-01T00:00", "Europe/Berlin"):
            words = "hours", model, trace, "--node", "desk", "--tick", tick, "--start", start, "--zone", zone
            self.refuses("a time is before the year 1 or after the year 9999", *words)

    def test_nobody_and_only_lost_ones(self):
        """A part without departures has no wait, and none of its jobs is served."""
        model = "model 1\nsource door\nloss desk 1 d from door\n"
        visits = mpsim.run(model, [("door", HOUR - 1, 9), ("door", HOUR, 9), ("door", HOUR + 1, 9)], jobs=True).visits["desk"]
        told = list(hours(visits, Calendar(SECOND)))
        self.assertEqual(told[1], ["00:00", 1, 1, 0, 0, 0.0, 0, 0, 0, 0, 0, 1.0, 1.0])
        self.assertEqual(told[2], ["01:00", 2, 0, 2, 0, *[None] * 6, 0.0, None])
        model = self.file("m.txt", model)
        trace = self.file("t.csv", "source,time,d\n")
        self.assertEqual(self.tells("hours", model, trace, "--node", "desk", "--tick", "1s").count("\n"), 1)
        report = EXAMPLES / "callcentre" / "report.txt"
        self.refuses(f"{report}: the report has no job lines: run mpsim with --jobs", "hours", report, "--node", "desk", "--tick", "1s")


if __name__ == "__main__":
    unittest.main()
