"""Resampled traces: each day is another one of its weekday by the clock; and the spread of figures beside single runs."""

import csv
import io
import math
import random
import unittest
from collections import Counter
from datetime import datetime, timedelta
from zoneinfo import ZoneInfo

from commands import InFolder, idle, planner
from ground import Test, text_of

from mpsim.times.calendar import Calendar
from mpsim.times.texts import SECOND
from mpsim.traces import Trace
from mpsim.traces.resample import Days

BERLIN = ZoneInfo("Europe/Berlin")
START = datetime(2026, 3, 9, tzinfo=BERLIN)
FRONT = "model 1\n# a tick is 1s, time 0 is 2026-03-09T00:00:00+01:00 in Europe/Berlin\n"


def when(tick):
    """Returns the local date and time of a tick."""
    return datetime.fromtimestamp(START.timestamp() + tick, BERLIN).replace(tzinfo=None)


def tick_of(moment):
    return int(moment.replace(tzinfo=BERLIN).timestamp() - START.timestamp())


def four_weeks():
    """Twenty-eight days from Monday, 9 March 2026, each with calls at minutes of its own; clocks go forward on the third Sunday; no call on the
    second Tuesday."""
    rows = []
    for day in range(28):
        for at in range(5 if day != 8 else 0):
            moment = START.replace(tzinfo=None) + timedelta(days=day, hours=8 + 2 * at, minutes=day, seconds=at)
            rows.append(["calls", str(tick_of(moment)), str(60 + 40 * (day % 5))])
    return Trace("t.csv", ["source", "time", "talk"], rows)


class Resampled(Test):
    def setUp(self):
        self.trace = four_weeks()
        self.days = Days(self.trace, Calendar(SECOND, "2026-03-09T00:00:00+01:00", "Europe/Berlin"))

    def by_date(self, trace):
        found = {}
        for (_, time, talk), tick in zip(trace.rows, trace.times()):
            found.setdefault(when(tick).date(), []).append((when(tick).time(), talk))
        return found

    def test_each_day_is_one_of_its_weekday(self):
        own = self.by_date(self.trace)
        pool = {at: [own.get((START + timedelta(days=day)).date(), []) for day in range(28) if day % 7 == at] for at in range(7)}
        seen = Counter()
        for number in range(1, 101):
            made = self.days.resampled(7, number)
            self.assertEqual(made.times(), sorted(made.times()))
            found = self.by_date(made)
            for day in range(28):
                mine = found.pop((START + timedelta(days=day)).date(), [])
                self.assertIn(mine, pool[day % 7])
                seen[day, pool[day % 7].index(mine)] += 1
            self.assertEqual(found, {})
        # Each of the four days in turn, about a quarter of the times: the Tuesday without calls too.
        self.assertEqual(len(seen), 28 * 4)
        self.assertTrue(all(8 <= count <= 45 for count in seen.values()), min(seen.values()))

    def test_a_first_day_that_begins_at_noon(self):
        """What other Mondays have before noon is left out of the first one: it doesn't come at noon, all at once."""
        noon = 12 * 3600
        rows = [[source, str(int(time) - noon), talk] for source, time, talk in self.trace.rows if int(time) >= noon]
        days = Days(Trace("t.csv", self.trace.header, rows), Calendar(SECOND, "2026-03-09T12:00:00+01:00", "Europe/Berlin"))
        whole = {number: self.by_date(self.days.resampled(7, number)) for number in range(1, 30)}
        for number, want in whole.items():
            found = [int(time) + noon for _, time, _ in days.resampled(7, number).rows]
            first = START.date()
            # The first Monday lacks its morning wherever it is drawn.
            for place, source in enumerate(days.drawn(7, number)):
                day = (START + timedelta(days=place)).date()
                if 0 in (place, source):
                    want[day] = [it for it in want[day] if it[0].hour >= 12]
            self.assertEqual(len(found), sum(map(len, want.values())))
            self.assertEqual(sorted({when(time).time() for time in found if when(time).date() == first}), sorted({it[0] for it in want[first]}))
        # Of three other Mondays, the calls at 8:00 and 10:00.
        self.assertEqual((days.early(), self.days.early()), (6, 0))

    def test_any_day(self):
        days = Days(self.trace, Calendar(SECOND, "2026-03-09T00:00:00+01:00", "Europe/Berlin"), "any")
        weekdays = {(place % 7, source % 7) for number in range(40) for place, source in enumerate(days.drawn(1, number))}
        self.assertEqual(len(weekdays), 49)

    def test_the_draws(self):
        """The same for the same seed and number, however many are drawn; others for others."""
        rows = [self.days.resampled(7, number).rows for number in (1, 2, 1)]
        self.assertEqual(rows[0], rows[2])
        self.assertNotEqual(rows[0], rows[1])
        self.assertNotEqual(rows[0], self.days.resampled(8, 1).rows)

    def test_without_dates(self):
        self.assertRaisesRegex(ValueError, "weekdays need the date of time 0: give --start, or --within any", Days, self.trace, Calendar(SECOND))
        days = Days(Trace("t.csv", ["source", "time"], [["a", str(3 * 86400 + 5)], ["a", str(4 * 86400 + 9)]]), Calendar(SECOND), "any")
        self.assertEqual(
            {tuple(days.resampled(1, number).times()) for number in range(30)},
            {(3 * 86400 + one, 4 * 86400 + other) for one in (5, 9) for other in (5, 9)},
        )


class Command(InFolder):
    def setUp(self):
        super().setUp()
        trace = four_weeks()
        # Calls that come in twos and threes, so that they wait.
        rows = [[source, str(int(time) + more), talk] for source, time, talk in trace.rows for more in (0, 20, 45)]
        self.trace = self.file("t.csv", "".join(Trace("t.csv", trace.header, rows).texts()))
        self.model = self.file("m.txt", f"{FRONT}source calls\nserver desk talk from calls\n")
        self.out = self.folder / "traces"

    def test_traces_and_spread(self):
        """The table beside a run of each trace that was written, and of the trace itself."""
        for model, trace, more in (self.model, self.trace, []), (self.model, self.trace, ["--agents", "1..2"]):
            words = "resample", trace, "--model", model, "--unit", "day", "--within", "weekday", "--count", 40, "--seed", 7, "--out", self.out
            status, text, said = planner(*words, "--node", "desk", "--within", "30s", "--percentile", 80, *more)
            self.assertEqual((status, said), (0, f"mpplan: 40 traces of 28 days: {self.out}/trace-01.csv to {self.out}/trace-40.csv\n"))
            paths = sorted(self.out.iterdir())
            self.assertEqual(len(paths), 40)
            seen = {}
            for path in [trace, *paths]:
                pool = "pool", model, path, "--node", "desk", *(more or ["--agents", 1]), "--within", 30, "--percentile", 80
                for row in csv.DictReader(io.StringIO(self.tells(*pool))):
                    for name, value in row.items():
                        seen.setdefault((row["agents"] if more else "", name), []).append(float(value))
            rows = list(csv.DictReader(io.StringIO(text)))
            self.assertEqual(len(rows), 9 * (2 if more else 1))
            for row in rows:
                own, *others = seen[row["agents"], row["figure"]]
                others.sort()
                want = [own, *(others[math.ceil(40 * percent / 100) - 1] for percent in (5, 50, 95))]
                self.assertEqual([float(row[name]) for name in ("trace", "p5", "p50", "p95")], want, row)
            spread = next(row for row in rows if row["figure"] == "mean_wait")
            self.assertLess(float(spread["p5"]), float(spread["p95"]))

    def test_each_source_and_weekday(self):
        """Each part's figures beside runs of the traces, each with the visits of the part only; a day without calls has none."""
        sources = "# a tick is 1s, time 0 is 2026-03-09T00:00:00+01:00 in Europe/Berlin\nsource a\nsource b\nserver desk talk from a b\n"
        model, draw = self.file("m.txt", f"model 1\n{sources}"), random.Random(5)
        calls = sorted(
            (86400 * draw.choice([0, 0, 1, 7, 7, 8, 14, 15]) + draw.randrange(3600), draw.choice("ab"), draw.randrange(300)) for _ in range(90)
        )
        trace = self.file("t.csv", "source,time,talk\n" + "".join(f"{it},{time},{talk}\n" for time, it, talk in calls))
        words = "resample", trace, "--model", model, "--count", 9, "--seed", 3, "--within", "30s", "--percentile", 80, "--node", "desk"
        for by, command in ("source", ["service", "--by", "source"]), ("weekday", ["hours", "--by", "weekday"]):
            for more in [], ["--agents", 1]:
                status, text, said = planner(*words, "--out", self.out, "--by", by, *more)
                self.assertEqual((status, "together" in said), (0, bool(more) and by == "weekday"))
                seen = {}
                for number, path in enumerate([trace, *sorted(self.out.iterdir())]):
                    for row in csv.DictReader(
                        io.StringIO(planner(command[0], model, path, "--node", "desk", *command[1:], "--within", 30, "--percentile", 80)[1])
                    ):
                        for name, value in row.items():
                            seen.setdefault((row[by], name), {})[number] = value
                rows = list(csv.DictReader(io.StringIO(text)))
                self.assertEqual([row for row in rows if row[by] == "Sunday" and row["figure"] == "came"][0]["p95"] if by == "weekday" else "0", "0")
                for row in rows:
                    mine = seen.get((row[by], row["figure"]), {})
                    if row[by] in ("a", "b", "Monday", "Tuesday"):
                        others = sorted(float(value) for number, value in mine.items() if number and value)
                        want = [float(mine[0]), *(others[math.ceil(len(others) * percent / 100) - 1] for percent in (5, 50, 95))]
                        self.assertEqual([float(row[name]) for name in ("trace", "p5", "p50", "p95")], want, row)

    def test_calls_without_work(self):
        """With --agents those of the trace are counted in a warning."""
        rows = text_of(self.trace).splitlines()
        empty = self.file("z.csv", "".join(f"{line}\n" for line in [*rows, "calls,50000,0", "calls,650000,0"]))
        words = "--model", self.model, "--count", 3, "--node", "desk"
        for more, said in (["--agents", 2], idle(2, len(rows) + 1)), ([], ""):
            self.assertEqual(planner("resample", empty, *words, *more)[2], said)
        self.assertEqual(planner("resample", self.trace, *words, "--agents", 2)[2], "")

    def test_the_trace_itself_is_never_overwritten(self):
        own = self.file("trace-2.csv", text_of(self.trace))
        words = "resample", own, "--model", self.model, "--count", 3, "--out", self.folder
        self.refuses(f"{own}: this is the trace, which is never overwritten", *words)
        self.assertEqual(text_of(own), text_of(self.trace))

    def test_records_before_time_0_are_counted(self):
        trace = self.file("n.csv", "source,time,talk\ncalls,5,60\ncalls,601200,60\ncalls,604900,60\n")
        words = "--tick", "1s", "--start", "2026-03-09T12:00", "--count", 2, "--out", self.out
        status, _, said = planner("resample", trace, *words)
        why = "of days that may replace the first one come earlier in the day than time 0, and are left out there"
        line = f"mpplan: 1 record {why}: mpplan prepare --begin day begins at midnight\n"
        self.assertEqual((status, said.splitlines(keepends=True)[1]), (0, line))

    def test_a_sweep_over_the_traces(self):
        planner("resample", self.trace, "--model", self.model, "--count", 3, "--out", self.out)
        text = self.tells("sweep", self.model, "--trace", f"{self.out}/*.csv", "--node", "desk")
        self.assertEqual([row["trace"] for row in csv.DictReader(io.StringIO(text))], ["trace-1", "trace-2", "trace-3"])

    def test_a_pool_of_the_model_is_pooled_again(self):
        """Also for calls that wait over midnight: on another day nobody may be there before them."""
        calls = (0, 86300, 900), (0, 86350, 900), (1, 30, 60), (1, 86350, 900), (2, 20, 60), (2, 30, 9)
        late = [[86400 * day + at, talk] for day, at, talk in calls]
        self.file("t.csv", text_of(self.trace) + "".join(f"calls,{time},{talk}\n" for time, talk in late))
        pooled, model = self.folder / "p.csv", self.folder / "p.txt"
        self.tells("pool", self.model, self.trace, "--node", "desk", "--agents", 2, "--out", pooled, "--out-model", model)
        words = "--count", 15, "--seed", 3, "--node", "desk", "--within", "any"
        plain = self.tells("resample", self.trace, "--model", self.model, *words, "--agents", 2)
        found = self.tells("resample", pooled, "--model", model, *words)
        self.assertEqual(found.replace("desk,,", "desk,2,"), plain)
        self.tells("pool", self.model, self.trace, "--node", "desk", "--agents", "0:00=2", "--out", pooled, "--out-model", model)
        why = "desk is a pool with a roster, patience or priorities: run mpplan pool for each trace"
        self.refuses(why, "resample", pooled, "--model", model, *words)

    def test_what_is_rejected(self):
        words = "resample", self.trace, "--model", self.model
        self.refuses("give --out FOLDER for the traces, or --node NAME for a table of its figures", *words)
        self.refuses("--count 0: expected a number from 1 to 100,000", *words, "--count", 0, "--node", "desk")
        self.refuses("--node needs --model, which is run for each trace", "resample", self.trace, "--tick", "1s", "--node", "desk")
        self.refuses("--within weekday and --within any exclude each other", *words, "--node", "desk", "--within", "any", "--within", "weekday")
        self.refuses("--agents needs one --node", *words, "--agents", 2, "--out", self.out)
        one = self.file("one.csv", "source,time,talk\ncalls,9,9\ncalls,86409,9\n")
        why = "no day has another one that may replace it: give more days, or --within any"
        self.refuses(f"{one}: {why}", "resample", one, "--model", self.model, "--node", "desk")
        self.assertEqual(planner("resample", one, "--model", self.model, "--within", "any", "--node", "desk", "--count", 2)[0], 0)
        eight = self.file("eight.csv", "source,time,talk\ncalls,9,9\ncalls,86409,9\ncalls,604809,9\n")
        said = planner("resample", eight, "--model", self.model, "--node", "desk", "--count", 2)[2]
        days = "Tuesday, one Wednesday, one Thursday, one Friday, one Saturday, one Sunday"
        self.assertEqual(said, f"mpplan: there is only one {days}, which is never replaced by another day\n")


if __name__ == "__main__":
    unittest.main()
