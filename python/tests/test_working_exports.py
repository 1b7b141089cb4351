"""Working time through an export, and back to the clock in tables, rosters and pages."""

import datetime
import json
import os
import random
import re
import unittest

from commands import InFolder, planner
from ground import DESK
from looking import NODE, StandIn
from test_working_time import EVENTS, LOG, MODEL, SHIFTS, TRACE, WORDS, at

import mpsim
from mpsim.exports.prepare import prepare, prepare_parts
from mpsim.page import page
from mpsim.times.calendar import Calendar, working_in
from mpsim.times.texts import SECOND
from mpsim.times.working import WorkingTime, read_openings
from mpsim.times.zones import Zone


class Exports(InFolder):
    def setUp(self):
        super().setUp()
        self.shifts = self.file("shifts.csv", SHIFTS)

    def made(self, text, **asked):
        return prepare(text.encode(), "when", calendar=self.shifts, **asked)

    def test_events(self):
        """A service over a pause, one over Easter, one that begins at night."""
        made = self.made(LOG, **EVENTS)
        self.assertEqual(list(made.rows()), [("jobs", 0, 5400, 3600), ("jobs", 9 * 3600, 600, 1800)])
        self.assertEqual(made.zero, "2026-04-02T13:00:00")
        self.assertIn(
            "1 record of 2 arrives outside of working time, and is counted at the next opening (the first is row 5, 2026-04-02T23:00:00)", made.warned
        )
        spans = "1 different span of services or waits begin or end outside of working time, which isn't counted"
        self.assertIn(f"{spans} (the first from 2026-04-02T23:00:00 to 2026-04-06T06:10:00)", made.warned)
        self.assertIn("# working time is mon-fri 06:00-14:00; mon-thu 14:30-22:30; 2026-04-03 off\n", made.first_lines())

    def test_back_to_the_clock(self):
        """Random records in working time have their own clock again after they were ticks."""
        for name in None, "Europe/Berlin":
            draw = random.Random(f"{name}")
            shifts = WorkingTime(read_openings(self.shifts), Zone(name))
            moments = []
            while len(moments) < 300:
                value = at("2026-03-20T00:00") + draw.randrange(30 * 86400) * SECOND
                moments += [value] if shifts.is_open(value) else []
            texts = [Zone(name).shown(value) for value in moments]
            made = self.made("when,d\n" + "".join(f"{text},5\n" for text in texts), demand="d", zone=name)
            days = Calendar(made.tick, made.zero, made.zone, made.working)
            self.assertEqual([days.shown(tick) for tick in made.times], [Zone(name).shown(value) for value in sorted(moments)])
            self.assertFalse([line for line in made.warned if "outside" in line])

    def test_lengths_of_columns(self):
        """Those between two times count working time, those that are lengths stay."""
        rows = "when,begin,end,talk\n2026-04-02 12:00:00,2026-04-02 13:50:00,2026-04-02 14:40:00,3600\n"
        made = self.made(rows, end="end=a", answered="begin", demand=["b=end-when", "c=end-begin+talk", "talk=d"], wait="begin")
        self.assertEqual((made.header[2:], list(made.rows())), (["b", "c", "d", "a", "wait"], [("jobs", 0, 7800, 4800, 3600, 1200, 6600)]))
        self.assertEqual([line for line in made.warned if "outside" in line], [])

    def test_spans_outside_are_counted(self):
        rows = "when,end\n2026-04-02 14:05:00,2026-04-02 14:20:00\n2026-04-02 14:05:00,2026-04-02 14:20:00\n2026-04-02 13:00:00,2026-04-02 14:15:00\n"
        for asked in {"end": "end=d"}, {"demand": "d=end-when"}:
            made = self.made(rows, **asked)
            self.assertEqual(sorted(made.values[0]), [0, 0, 3600])
            spans = "2 different spans of services or waits begin or end outside of working time, which isn't counted"
            self.assertIn(f"{spans} (the first from 2026-04-02T13:00:00 to 2026-04-02T14:15:00); 1 of them are wholly outside: 0 ticks", made.warned)

    def test_a_span_that_ends_with_the_shift(self):
        made = self.made("when,end\n2026-04-02 13:00:00,2026-04-02 14:00:00\n", end="end=d")
        self.assertEqual((list(made.values[0]), [line for line in made.warned if "outside" in line]), ([3600], []))

    def test_refused(self):
        with self.assertRaises(ValueError) as caught:
            self.made(LOG, outside="refuse", **EVENTS)
        what = "1 record of 2 arrives outside of working time (the first is row 5, 2026-04-02T23:00:00)"
        self.assertEqual(str(caught.exception), f"the export: {what}: --outside move counts them at the next opening")
        for text, why, asked in (
            ("when,d\n08:00,5\n", "column 'when' has no day, so working time can't be counted: give --date, or a --model without working time", {}),
            (
                "when,d\n800,5\n",
                "column 'when' has ticks, so working time can't be counted: give --date, or a --model without working time",
                {"format": "ticks"},
            ),
            (
                "when,d\n2026-03-02T08:00:00+01:00,5\n",
                "times have an offset from UTC, so the zone of the calendar's hours is unknown: give --zone",
                {},
            ),
            ("when,d\n2026-03-02T08:00:00,5\n", "--outside stop: expected one of move, refuse", {"outside": "stop"}),
        ):
            with self.assertRaises(ValueError) as caught:
                self.made(text, demand="d", **asked)
            self.assertEqual(str(caught.exception), f"the export: {why}")
        with self.assertRaisesRegex(ValueError, "--outside requires --calendar, or a model with working time"):
            prepare(b"when,d\n2026-03-02T08:00:00,5\n", "when", demand="d", outside="move")

    def test_time_0(self):
        rows = "when,d\n2026-04-02 14:10:00,5\n"
        for begin, zero, tick in ("hour", "14:30:00", 0), ("first", "14:30:00", 0), ("day", "06:00:00", 28800), ("8:00", "08:00:00", 21600):
            made = self.made(rows, demand="d", begin=begin)
            self.assertEqual((made.zero, list(made.times)), (f"2026-04-02T{zero}", [tick]), begin)
        with self.assertRaisesRegex(ValueError, "1 record before --begin 2026-04-03T00:00, which is to be time 0"):
            self.made(rows, demand="d", begin="2026-04-03T00:00")

    def test_parts(self):
        rows = "when,d\n2026-03-31T08:00:00,60\n2026-03-31T23:00:00,70\n2026-04-01T08:00:05,90\n"
        found = [
            (name, made.zero, list(made.rows())) for name, made in prepare_parts(rows.encode(), "when", "month", demand=["d"], calendar=self.shifts)
        ]
        self.assertEqual(found[0], ("2026-03", "2026-03-31T08:00:00", [("jobs", 0, 60), ("jobs", 14 * 3600, 70)]))
        self.assertEqual(found[1], ("2026-04", "2026-04-01T08:00:00", [("jobs", 5, 90)]))

    def test_model(self):
        """Another month counts by the model's calendar; one that differs is reported, and --out-model writes it."""
        rows = "when,d\n2026-04-02 13:00:00,5\n2026-04-02 14:30:00,5\n"
        model = self.made(rows, demand="d").first_lines()
        made = prepare(rows.encode(), "when", demand="d", model=model)
        self.assertEqual((list(made.times), made.unlike), ([0, 3600], []))
        self.assertIn("working time is that of the model", made.told)
        other = self.file("other.csv", "days,from,to\ndaily,00:00,24:00\n")
        made = prepare(rows.encode(), "when", demand="d", model=model, calendar=other)
        self.assertEqual(list(made.times), [0, 5400])
        said = "working time is daily 00:00-24:00, but in the model it is mon-fri 06:00-14:00; mon-thu 14:30-22:30; 2026-04-03 off"
        self.assertIn(said, made.unlike)
        self.assertEqual(working_in(made.model(model)), made.working)
        self.assertEqual(prepare(rows.encode(), "when", demand="d", model=made.model(model)).unlike, [])

    def test_clocks_set_back_while_closed(self):
        """An hour that occurs twice at night needs no --twice order if nobody works then."""
        rows = "when,end\n2026-10-24 13:00:00,2026-10-26 06:30:00\n2026-10-25 02:30:00,2026-10-26 07:00:00\n"
        made = self.made(rows, end="end=d", zone="Europe/Berlin", twice="first")
        self.assertEqual(list(made.values[0]), [1800, 3600])

    def test_a_doubt_in_working_time(self):
        """A begin in the hour that occurs twice, half of which is open: it must be said which, however short the work is."""
        path = self.file("sunday.csv", "days,from,to\nsun,02:00,02:20\n")
        rows = b"when,end\n2026-10-25 02:10:00,2026-10-25 07:00:00\n"
        for asked, what in ({"end": "end=d"}, "the service is 0 or 600 ticks long"), ({"demand": "d=end-when"}, "its times span 0 or 600 ticks"):
            with self.assertRaisesRegex(ValueError, what):
                prepare(rows, "when", zone="Europe/Berlin", twice="first", calendar=path, **asked)

    def test_command(self):
        log = self.file("log.csv", LOG)
        status, out, said = planner("prepare", log, *WORDS, "--calendar", self.shifts, "--first-lines", self.folder / "m.txt")
        self.assertEqual((status, out), (0, "source,time,saw,drill\njobs,0,5400,3600\njobs,32400,600,1800\n"))
        self.assertIn("mpplan: ticks count working time: mon-fri 06:00-14:00; mon-thu 14:30-22:30; 2026-04-03 off\n", said)
        self.assertIn("mpplan: warning: 1 record of 2 arrives outside of working time", said)
        again = planner(
            "prepare", log, *WORDS, "--model", self.file("model.txt", (self.folder / "m.txt").read_text() + "server saws saw from jobs\n")
        )
        self.assertEqual(again[:2], (0, out))
        os.mkdir(self.folder / "sub")
        self.file("sub/shifts.csv", SHIFTS)
        recipe = self.file(
            "sub/r.toml", 'time = "when"\nunit = "unit"\nsteps = "station"\nbegin-event = ["START"]\nend-event = ["END"]\ncalendar = "shifts.csv"\n'
        )
        self.assertEqual(planner("prepare", log, "--recipe", recipe)[:2], (0, out))
        self.refuses(
            f"{self.shifts}: this is the calendar, which is never overwritten",
            "prepare",
            log,
            *WORDS,
            "--calendar",
            self.shifts,
            "--out",
            self.shifts,
        )


class Clocks(InFolder):
    """What shows a clock shows that of the wall."""

    def setUp(self):
        super().setUp()
        self.model, self.trace = self.file("m.txt", MODEL), self.file("t.csv", TRACE)

    def first(self, *words):
        """Returns the first column of a table."""
        status, out, said = planner(*words)
        self.assertEqual(status, 0, said)
        return [line.split(",")[0] for line in out.splitlines()[1:]]

    def test_hours(self):
        for by, names in (
            ("hour", ["06:00", "13:00", "14:00", "22:00"]),
            ("day", ["2026-04-02", "2026-04-06"]),
            ("weekday", ["Monday", "Thursday"]),
            ("each", ["2026-04-02 13:00", "2026-04-02 14:00", "2026-04-02 22:00", "2026-04-06 06:00", "2026-04-06 14:00"]),
        ):
            self.assertEqual(self.first("hours", self.model, self.trace, "--node", "desk", "--by", by), names, by)

    def test_days(self):
        self.assertEqual(self.first("days", self.model, self.trace, "--node", "desk"), ["2026-04-02", "2026-04-06"])
        self.assertEqual(
            self.first("days", self.model, self.trace, "--node", "desk", "--open", "14:00", "--close", "6:30"),
            ["2026-04-02", "2026-04-05", "2026-04-06"],
        )

    def test_scale(self):
        """A copy a week later has its clock again; one that would come on Good Friday comes at the next opening."""
        trace = self.file("u.csv", "source,time,d\ndoor,0,1\ndoor,277200,1\n")
        for zone, name in ("+02:00 in Europe/Berlin", "Europe/Berlin"), ("", "the calendar"):
            text = MODEL.replace("+02:00 in Europe/Berlin", zone)
            told = planner("scale", trace, "--by", "2", "--shift", "7d", "--model", self.file("n.txt", text))
            self.assertEqual(told[0], 0, told[2])
            days = Calendar(SECOND, "2026-04-02T13:00:00", None, working_in(MODEL))
            self.assertEqual(days.shown(277200), "2026-04-10T10:00:00")
            times = [days.shown(int(line.split(",")[1])) for line in told[1].splitlines()[1:]]
            self.assertEqual(times, ["2026-04-02T13:00:00", "2026-04-06T06:00:00", "2026-04-09T13:00:00", "2026-04-10T10:00:00"], name)
            self.assertIn(f"by the clock of {name}", told[2])

    def test_copies_of_a_grid(self):
        """A week by the clock, though it has less than two weeks of working time in three of them."""
        from mpsim.command.loads import copying_of
        from mpsim.traces import Trace

        days = Calendar(SECOND, "2026-04-02T13:00:00", None, working_in(MODEL))
        last = days.tick_at(at("2026-04-20T13:00"))
        copying = copying_of(Trace("t.csv", ["source", "time"], [["door", "0"], ["door", str(last)]]), days)
        self.assertEqual((copying.shift, copying.days), (7 * 86400, days))

    def test_resampled_days(self):
        """A closed day is no day of the trace: Good Friday replaces no Friday."""
        from mpsim.traces import Trace
        from mpsim.traces.resample import Days

        days = Calendar(SECOND, "2026-03-26T13:00:00", None, working_in(MODEL))
        rows = [["door", str(days.tick_at(at(f"2026-{text}")))] for text in ("03-26T13:00", "03-27T07:00", "04-02T13:00", "04-10T09:00")]
        found = Days(Trace("t.csv", ["source", "time"], rows), days)
        self.assertEqual([len(found.groups[name]) for name in ("Thursday", "Friday")], [3, 2])
        self.assertNotIn("Saturday", found.groups)

    def test_data_frames_refuse_dates(self):
        dates = [datetime.datetime(2026, 4, 2, 13), datetime.datetime(2026, 4, 6, 6)]
        with self.assertRaisesRegex(
            ValueError, r"the model counts working time \(mon-fri 06:00-14:00; .*\), which dates in 'time' can't be turned into"
        ):
            mpsim.run(MODEL.replace("+02:00 in Europe/Berlin", ""), {"source": ["door"] * 2, "time": dates, "d": [1, 1]})

    def test_page(self):
        report = mpsim.run(MODEL, TRACE.encode(), jobs=True)
        days = Calendar(SECOND, "2026-04-02T13:00:00+02:00", "Europe/Berlin", working_in(MODEL))
        text = page([report], tick=1, start=datetime.datetime(2026, 4, 2, 13), working=days)
        data = json.loads(re.search(r'<script[^>]*type="application/json"[^>]*>(.*?)</script>', text, re.S)[1])
        friday = 4 * 86400
        self.assertEqual(data["working"], [[0, 13 * 3600], [3600, 14 * 3600 + 1800], [32400, friday + 6 * 3600], [61200, friday + 14 * 3600 + 1800]])
        out = self.folder / "p.html"
        self.assertEqual(planner("run", self.model, self.trace, "--page", out)[0], 0)
        self.assertIn('"working": [[0, 46800]', re.sub(r'"working":\[\[0,46800\]', '"working": [[0, 46800]', out.read_text()))
        self.assertNotIn('"working"', page([mpsim.run(DESK, [("door", 0, 5)], jobs=True)], tick=1))

    @unittest.skipUnless(NODE, "needs node")
    def test_axes_of_a_page(self):
        out, shown = self.folder / "p.html", StandIn()
        self.addCleanup(shown.close)
        trace = self.file("short.csv", TRACE.split("door,32400")[0])
        for name, marks in (self.trace, ["2026-04-02", "2026-04-06"]), (trace, ["13:00", "14:30", "06:00"]):
            self.assertEqual(planner("run", self.model, name, "--page", out)[0], 0)
            shown.show(out.read_text())
            texts = [text for text, _ in shown.all("text")]
            self.assertEqual([text for text in texts if re.fullmatch(r"\d+-\d+-\d+|\d+:\d+", text)], 2 * marks)


if __name__ == "__main__":
    unittest.main()
