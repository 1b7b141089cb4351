"""Scaled loads: how many records result, when, and the effect of each way on waits."""

import random
import unittest
from collections import Counter
from unittest import mock

from commands import InFolder, planner
from ground import Test, text_of

import mpsim
from mpsim.command import scale
from mpsim.command.scale import ratio
from mpsim.traces import Trace
from mpsim.times.calendar import Calendar
from mpsim.traces.scale import Walls, closer, copies, scaled

WEEK = 604800


class Scales(Test):
    def test_ratios(self):
        self.assertEqual([ratio(item) for item in ("2", "3/2", "9/10")], [(2, 1), (3, 2), (9, 10)])
        decimals = "1.12", "1,12", "112%", "+12%", "+12,0 %", "-10%", "0.9", "2.0"
        self.assertEqual([ratio(item) for item in decimals], [(28, 25)] * 5 + [(9, 10)] * 2 + [(2, 1)])
        for bad in "0", "1/0", "x", "2/", "-2", " 2", "0.0", "+12", "-100%", "0%", "1.5/2":
            self.assertRaisesRegex(ValueError, "expected a factor above 0, such as 2, 3/2, 1.12, 112% or [+]12%", ratio, bad)

    def test_how_many_come_out(self):
        """In total as many as the ratio says, and within one for each source; evenly, each at a time of its own record or whole shifts later."""
        draw = random.Random(6)
        times, sources = [draw.randrange(1000) for _ in range(100)], [draw.choice("ab") for _ in range(100)]
        for k, n in (2, 1), (3, 2), (9, 10), (1, 3), (1, 1), (7, 3):
            for shift in 0, 100, 7:
                made = copies(times, sources, k, n, shift)
                self.assertEqual(len(made), 100 * k // n)
                for item in "ab":
                    self.assertLess(abs(sum(sources[at] == item for _, at in made) - sources.count(item) * k / n), 1)
                self.assertEqual(made, sorted(made))
                counts = Counter(at for _, at in made)
                self.assertTrue(set(counts.values()) <= {k // n, -(-k // n)} and (k < n or len(counts) == 100))
                ends = (0, 1000) if shift in (0, 7) else (min(times) - shift // 8, max(times) + shift // 8)
                for time, at in made:
                    self.assertEqual((time - times[at]) % shift if shift else time - times[at], 0)
                    self.assertTrue(ends[0] <= time <= ends[1])
                # No two copies of a record arrive together if they are shifted.
                self.assertEqual(len(set(made)) == len(made), shift > 0 or k <= n)
        made = copies(times, sources, 2, 1, 100, only=["a"])
        self.assertEqual(Counter(sources[at] for _, at in made), {"a": 2 * sources.count("a"), "b": sources.count("b")})

    def test_every_second_of_each_source(self):
        """In order of time, not of the file."""
        times, sources = [50, 0, 10, 20, 30, 40], ["a", "a", "b", "a", "b", "a"]
        self.assertEqual(copies(times, sources, 1, 2), [(20, 3), (30, 4), (50, 0)])
        self.assertEqual(copies(times, sources, 3, 2), [(0, 1), (10, 2), (20, 3), (20, 3), (30, 4), (30, 4), (40, 5), (50, 0), (50, 0)])

    def test_many_sources_of_few_records(self):
        """Forty sources of three records: a tenth is removed, or a quarter added, although no source has ten, or four."""
        times, sources = list(range(120)), [f"ward{at % 40}" for at in range(120)]
        for k, n, each in (9, 10, {2, 3}), (5, 4, {3, 4}), (1, 2, {1, 2}), (2, 1, {6}):
            made = Counter(sources[at] for _, at in copies(times, sources, k, n))
            self.assertEqual((sum(made.values()), set(made.values())), (120 * k // n, each))
        # In turn: 3 records each, every fourth of which has a copy.
        self.assertEqual([at for _, at in copies([0, 1, 2, 3, 4, 5], list("aaabbb"), 5, 4)], [0, 1, 2, 3, 3, 4, 5])
        only = Counter(sources[at] for _, at in copies(times, sources, 4, 3, only=["ward1", "ward2"]))
        self.assertEqual((only["ward1"], only["ward2"], sum(only.values())), (4, 4, 122))

    def test_what_each_does(self):
        times, sources = [0, 10, 25], ["a"] * 3
        self.assertEqual(closer(times, 2, 1), [(0, 0), (5, 1), (12, 2)])
        self.assertEqual(closer(times, 2, 3), [(0, 0), (15, 1), (37, 2)])
        # A later job doesn't go before an earlier one, even in a trace in any order, if both arrive together.
        self.assertEqual(closer([11, 0, 10, 10], 2, 1), [(0, 1), (5, 2), (5, 3), (5, 0)])
        self.assertEqual(copies(times, sources, 2, 1), [(0, 0), (0, 0), (10, 1), (10, 1), (25, 2), (25, 2)])
        self.assertEqual(copies(times, sources, 2, 1, 10), [(0, 0), (5, 2), (10, 0), (10, 1), (20, 1), (25, 2)])
        self.assertEqual(copies(times, sources, 3, 1, 10), [(0, 0), (0, 1), (5, 2), (10, 0), (10, 1), (15, 2), (20, 0), (20, 1), (25, 2)])
        # The beginning is that of the trace.
        later = [(time + 103, at) for time, at in copies(times, sources, 3, 1, 10)]
        self.assertEqual(copies([time + 103 for time in times], sources, 3, 1, 10), later)
        self.assertEqual((copies([], [], 2, 1, 10), closer([], 2, 1)), ([], []))
        # Within one shift, or with more copies than shifts, one would fall on its own record.
        for shift, k in (30, 2), (26, 2), (10, 4):
            self.assertRaisesRegex(ValueError, "whole shifts away from", copies, times, sources, k, 1, shift)

    def test_a_month_by_weeks(self):
        """Each of 31 days is doubled by another one of its weekday, and no new day appears, wherever the month begins."""
        day, times = 86400, [at * 3600 + 600 for at in range(31 * 24)]
        for begin in 0, 5 * day + 7000, 14 * day:
            made = copies([begin + time for time in times], ["a"] * len(times), 2, 1, 7 * day)
            self.assertEqual(Counter((time - begin) // 3600 for time, _ in made), {at: 2 for at in range(31 * 24)})
            self.assertEqual(len(set(made)), len(made))

    def test_a_record_of_an_early_or_late_minute(self):
        """Two days: a job before the first record of the first day, or after the last of the second, gets the other day too; none arrives at
        night."""
        day = 86400
        times = [9 * 3600, 18 * 3600 + 60, day + 9 * 3600 - 60, day + 18 * 3600]
        made = sorted(time for time, _ in copies(times, ["a"] * 4, 2, 1, day))
        self.assertEqual(made, sorted([*times, *(time + day if time < day else time - day for time in times)]))
        self.assertRaisesRegex(ValueError, "no other time whole shifts away from 79200", copies, [*times, 22 * 3600], ["a"] * 5, 2, 1, day)
        self.assertRaisesRegex(ValueError, "there are 2 times whole shifts away from 32400", copies, times, ["a"] * 4, 3, 1, day)

    def test_what_each_does_to_waits(self):
        """Random calls of load 0.4, doubled: theory gives a mean wait of 4 services at 0.8. Twins make it twice that."""
        draw, clock, rows = random.Random(11), 0.0, []
        for _ in range(60000):
            clock += draw.expovariate(1 / 2500)
            rows.append(["a", str(int(clock)), str(round(draw.expovariate(1 / 1000)))])
        waits = {}
        for way in "times", "twins", "shift":
            made = scaled(Trace("t.csv", ["source", "time", "d"], rows), 2, 1, way, WEEK)
            waits[way] = mpsim.run("model 1\nsource a\nserver s d from a\n", made.lines())["s"].mean_wait / 1000
        self.assertTrue(3.2 < waits["times"] < 5 and 3.2 < waits["shift"] < 5 and 7 < waits["twins"] < 10, waits)


class ByTheCalendar(InFolder):
    """Three weeks of a shop in Berlin that opens at 8 and closes at 18; clocks go forward in the night before the last Sunday of March 2026."""

    START = "2026-03-16T00:00:00+01:00"

    def setUp(self):
        super().setUp()
        self.days = Calendar(10**9, self.START, "Europe/Berlin")
        self.walls = Walls(self.days)
        # One call a quarter of an hour, as the clock shows it, on 21 days.
        clock = [day * 86400 + at * 900 for day in range(21) for at in range(32, 72)]
        self.times = [self.walls.tick(time * 10**9) for time in clock]

    def hours(self, times):
        """Returns the days and the times of day, in quarters of an hour, that the clock shows."""
        return Counter(self.walls.of(time) // 10**9 // 900 for time in times)

    def test_copies_keep_the_time_of_day(self):
        """Each quarter of an hour in which the shop is open gets another call of its weekday, and none comes after it has closed."""
        made = copies(self.times, ["a"] * len(self.times), 2, 1, WEEK, days=self.days)
        self.assertEqual(self.hours(time for time, _ in made), dict.fromkeys(self.hours(self.times), 2))
        self.assertEqual(made, sorted(made))
        for time, at in made:
            self.assertEqual((self.walls.of(time) - self.walls.of(self.times[at])) % (WEEK * 10**9), 0)
        # By ticks alone a fortnight's Sunday has calls at seven, or at six in the evening.
        plain = copies(self.times, ["a"] * len(self.times), 2, 1, WEEK)
        self.assertNotEqual(self.hours(time for time, _ in plain), self.hours(time for time, _ in made))

    def test_the_hours_that_are_skipped_and_repeated(self):
        """A copy in the hour that is skipped comes at its end; one in an hour that occurs twice comes in the first."""
        self.assertEqual([self.walls.tick((13 * 86400 + at) * 10**9) - 13 * 86400 for at in (7199, 7200, 9000, 10800)], [7199, 7200, 7200, 7200])
        days = Calendar(10**9, "2026-10-19T00:00:00+02:00", "Europe/Berlin")
        made = copies([9000, 6 * 86400 + 9000 + 3600, 7 * 86400 + 3600], ["a"] * 3, 2, 1, 6 * 86400, days=days)
        self.assertEqual([time for time, at in made if at == 0], [9000, 6 * 86400 + 9000])
        # The second of the two half past twos keeps its own time.
        self.assertEqual([time for time, at in made if at == 1], [9000, 6 * 86400 + 9000 + 3600])

    def made(self, *words):
        trace = self.file("t.csv", "source,time\n" + "".join(f"a,{time}\n" for time in self.times))
        out = self.folder / "o.csv"
        status, _, told = planner("scale", trace, "--by", 2, "--out", out, *words)
        self.assertEqual(status, 0, told)
        return Trace.read(out).times(), told

    def test_command(self):
        wanted = [time for time, _ in copies(self.times, ["a"] * len(self.times), 2, 1, WEEK, days=self.days)]
        model = self.file("m.txt", f"model 1\n# a tick is 1s, time 0 is {self.START} in Europe/Berlin\nsource a\n")
        says = "each record has one copy, 7 days by the clock of Europe/Berlin later; copies past the end wrap round to the start"
        own = "--tick", "1s", "--start", self.START, "--zone", "Europe/Berlin"
        for words in ("--shift", WEEK, "--model", model), ("--shift", "7d", "--model", model), ("--shift", "7d", *own):
            times, told = self.made(*words)
            self.assertEqual((times, told), (wanted, f"mpplan: 1680 records (from 840): {says}\n".replace("1680", "1,680")))
        # Ticks without a zone, and a shift that isn't whole days, are as they were.
        plain = [time for time, _ in copies(self.times, ["a"] * len(self.times), 2, 1, WEEK)]
        self.assertEqual(self.made("--shift", WEEK)[0], plain)
        self.assertEqual(self.made("--shift", "7d", "--tick", "1s")[0], plain)
        self.assertEqual(self.made("--shift", "30h", "--model", model)[0], [it for it, _ in copies(self.times, ["a"] * 840, 2, 1, 108000)])

    def test_what_is_rejected(self):
        trace, bare = self.file("t.csv", "source,time\na,0\na,9\n"), self.file("m.txt", "model 1\nsource a\n")
        why = "expected a number of ticks; for a time, give --model, or --tick with --start and --zone"
        self.refuses(f"--shift 7d: {why}", "scale", trace, "--by", 2, "--shift", "7d")
        words = "scale", trace, "--by", 2, "--shift", 5, "--model", bare
        self.refuses(f"{bare}: the model doesn't say what a tick is: give --tick and --start", *words)
        self.refuses("--shift -3: expected a positive number of ticks, such as those of a day or a week", "scale", trace, "--by", 2, "--shift=-3")
        own = "--tick", "1s", "--start", self.START, "--zone", "Europe/Berlin"
        why = "within the trace there is no other time whole shifts away from 0, but 2 records need one"
        self.refuses(f"--shift 86400: {why}", "scale", trace, "--by", 2, "--shift", 86400, *own)


class Command(InFolder):
    def setUp(self):
        super().setUp()
        self.trace = self.file("t.csv", 'source,time,d,note\nb,7,6,"x,\ny"\na,0,5,\udcff\n')

    def made(self, *words):
        """Returns the rows that a call writes, and its messages."""
        out = self.folder / "o.csv"
        status, told, error = planner("scale", self.trace, "--out", out, *words)
        self.assertEqual((status, told), (0, ""))
        return text_of(out), error

    def test_each_way(self):
        text, told = self.made("--by", "2", "--twins")
        self.assertEqual(text, 'source,time,d,note\na,0,5,\udcff\na,0,5,\udcff\nb,7,6,"x,\ny"\nb,7,6,"x,\ny"\n')
        self.assertRegex(told, r"^mpplan: 4 records \(from 2\): each record has one copy, at its own time, so twins arrive together")
        text, told = self.made("--by", "2", "--shift", "4")
        self.assertEqual([it.split(",")[:2] for it in text.split("\n") if it[:2] in ("a,", "b,")], [["a", "0"], ["b", "3"], ["a", "4"], ["b", "7"]])
        self.assertEqual(told, "mpplan: 4 records (from 2): each record has one copy, 4 ticks later; copies past the end wrap round to the start\n")
        told = self.made("--by", "6/2", "--shift", "3", "--source", "b")[1]
        more = "each record of b has 2 copies, each 3 ticks after the one before; copies past the end wrap round to the start"
        self.assertEqual(told, f"mpplan: 4 records (from 2): {more}\n")
        told = self.made("--by", "3/2", "--shift", "4")[1]
        more = "every 2 records of a source become 3, each copy 4 ticks after the one before; copies past the end wrap round to the start"
        self.assertEqual(told, f"mpplan: 3 records (from 2): {more}\n")
        self.assertEqual(self.made("--by", "1", "--twins")[1], "mpplan: 2 records (from 2): each record is kept as it was\n")
        text, told = self.made("--by", "7/2", "--times")
        self.assertIn("\nb,2,6,", text)
        self.assertIn("each time is 2/7 of its old value: the same jobs arrive faster", told)
        text, told = self.made("--by", "2/3", "--times")
        self.assertIn("\nb,10,6,", text)
        self.assertIn("each time is 3/2 of its old value: the same jobs arrive more slowly, and their service times don't change", told)
        self.assertIn(". Days, nights and peaks are longer\n", told)
        self.assertEqual(self.made("--by", "3/3", "--times")[1], "mpplan: 2 records (from 2): each record is kept as it was\n")
        text, told = self.made("--by", "1/2")
        self.assertEqual(text, "source,time,d,note\na,0,5,\udcff\n")
        self.assertIn("1 record (from 2): every 2 records of a source become 1, at their own times", told)
        text, told = self.made("--by", "2", "--twins", "--source", "a")
        self.assertEqual((text.count("a,0,5"), text.count("b,7,6")), (2, 1))

    def test_ends_of_lines_in_a_field(self):
        """A carriage return ends a record too, and is quoted."""
        self.file("t.csv", 'source,time,d,note\na,0,5,"x\ry"\nb,7,6,"z\r"\n')
        text, _ = self.made("--by", "1")
        self.assertEqual(text, 'source,time,d,note\na,0,5,"x\ry"\nb,7,6,"z\r"\n')
        model = self.file("m.txt", "model 1\nsource a\nsource b\nserver desk d from a b\n")
        pool = "pool", model, self.trace, "--node", "desk", "--agents", 2, "--out", self.folder / "p"
        for words in ("days", model, self.trace, "--every", 5), pool:
            self.assertEqual(planner(*words)[0], 0, words)
        self.assertEqual(mpsim.run(model, self.folder / "p").jobs, 2)

    def test_limits(self):
        """As many records as mpsim takes, and times up to its limit; more is rejected with the messages of `mpplan edit`, and nothing is written."""
        self.assertEqual((scale.RECORDS, scale.GREATEST_TIME), (1 << 20, 1 << 60))
        more = "--by {}: {} above the limit of {}"
        trace, out = self.file("t.csv", f"source,time,d\na,0,1\nb,3,1\na,{2**58},1\n"), self.folder / "o.csv"
        words = "scale", trace, "--out", out, "--by"
        self.refuses(more.format(999999, "1,951,421 records", 1 << 20), *words, 999999, "--twins")
        with mock.patch.object(scale, "RECORDS", 4):
            for by, way, over in ("2", "--twins", "2 records"), ("5/2", "--shift=9", "3 records"), ("3", "--twins --source=b", "1 record"):
                self.refuses(more.format(by, over, 4), *words, by, *way.split())
            self.assertFalse(out.exists())
            for by, way in ("3/2", ["--twins"]), ("2", ["--twins", "--source", "b"]), ("9", ["--times"]):
                self.made("--by", by, *way)
        self.refuses(f"--by 1/5: the time {5 * 2**58} is above the limit of {1 << 60}", *words, "1/5", "--times")
        late = self.file("late.csv", f"source,time\na,{2**59}\na,{2**60}\n")
        self.refuses(f"--by 2: the time {2**60 + 1} is above the limit of {1 << 60}", "scale", late, "--by", 2, "--shift", 2**59 + 1)
        self.assertIn(f"a,{2**60},1", self.made("--by", "1/4", "--times")[0])

    def test_refusals(self):
        trace = str(self.trace)
        self.refuses("--by 2: choose how: --shift TICKS (those of a day or a week), --times or --twins", "scale", trace, "--by", 2)
        for text in "x", "0.0", "0", "1/0", "-1.5":
            why = f"--by {text}: expected a factor above 0, such as 2, 3/2, 1.12, 112% or +12%"
            self.refuses(why, "scale", trace, f"--by={text}", "--twins")
        self.refuses("--shift 0: expected a positive number of ticks, such as those of a day or a week", "scale", trace, "--by", 2, "--shift", 0)
        why = "--shift 8: within the trace there is no other time whole shifts away from 7, but 2 records need one"
        self.refuses(why, "scale", trace, "--by", 2, "--shift", 8)
        self.refuses(f"{trace}: no record has the source 'c'", "scale", trace, "--by", 2, "--twins", "--source", "c")
        self.assertEqual(planner("scale", trace, "--by", "2", "--times", "--source", "a")[0], 1)
        self.assertEqual(planner("scale", trace, "--by", "2", "--times", "--twins")[0], 2)
        self.file("t.csv", "source,time,d\na,0,5\nb,08:00,6\n")
        self.refuses(f"{trace}: record 2, column time: '08:00' is not a whole number", "scale", trace, "--by", 2, "--twins")
        for text in "\u00b2", "\u0663", "-1", "", " 1":
            self.file("t.csv", f"source,time,d\na,0,5\nb,{text},6\n")
            self.refuses(f"{trace}: record 2, column time: {text!r} is not a whole number", "scale", trace, "--by", 2, "--twins")
        self.file("t.csv", "source,time,d\na,0,5\n\nb,1\n")
        self.refuses(f"{trace}: record 2: 2 fields, but the header has 3: 'b,1'", "scale", trace, "--by", 2, "--twins")
        self.file("t.csv", "")
        self.refuses(f"{trace}: a trace begins with source,time, not with ''", "scale", trace, "--by", 2, "--twins")
        words = "scale", self.file("u.csv", "source,time\na,0\n"), "--by", 2, "--twins", "--out", "/dev/full"
        self.refuses("/dev/full: No space left on device", *words)
        self.assertEqual(sorted(path.name for path in self.folder.iterdir()), ["t.csv", "u.csv"])


if __name__ == "__main__":
    unittest.main()
