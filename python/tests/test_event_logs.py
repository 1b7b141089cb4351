"""Event logs, with a row per event or per step: one record per unit."""

import io
import random
import unittest
from unittest import mock

from commands import InFolder, planner
from ground import Test
from test_prepare import table

from mpsim.exports import events
from mpsim.exports.prepare import prepare
from mpsim.exports.rows import TooManyLeft

HEADER = "time,serial,station,event,kind"
LOG = (
    "2026-03-02 08:00:00,A1,cut,START,x",
    "2026-03-02 08:01:00,A1,cut,END,x",
    "2026-03-02 08:01:00,A2,cut,START,y",
    "2026-03-02 08:02:00,A1,drill,START,x",
    "2026-03-02 08:03:30,A2,cut,END,y",
    "2026-03-02 08:04:00,A1,drill,END,x",
    "2026-03-02 08:05:00,A1,pack,START,x",
    "2026-03-02 08:05:00,A2,drill,START,y",
    "2026-03-02 08:06:00,A1,pack,END,x",
    "2026-03-02 08:06:00,A2,drill,END,y",
    "2026-03-02 08:06:00,A2,drill,START,z",
    "2026-03-02 08:07:00,A2,drill,END,y",
    "2026-03-02 08:07:30,A2,pack,START,y",
    "2026-03-02 08:09:00,A2,pack,END,y",
)
KINDS = {"begin_event": ["START"], "end_event": ["END"]}
QUEUE = """1772438400|NONE|NONE|NONE|QUEUESTART|
1772438410|10.1|support|NONE|ENTERQUEUE||+49301|1
1772438412|10.1|support|SIP/1|RINGNOANSWER|1000
1772438420|10.1|support|SIP/1|CONNECT|10|12.2|3
1772438425|25.3|sales|NONE|ENTERQUEUE||+49302|1
1772438470|10.1|support|SIP/1|COMPLETECALLER|10|50|1
1772438485|25.3|sales|NONE|ABANDON|1|1|60
1772438490|25.4|sales|NONE|ENTERQUEUE||+49302|1
1772438500|25.4|sales|NONE|EXITWITHTIMEOUT|1|1|10
1772438500|25.4|support|NONE|ENTERQUEUE||+49302|1
1772438505|25.4|support|SIP/2|CONNECT|5|12.3|3
1772438535|25.4|support|SIP/2|COMPLETEAGENT|5|30|1
"""
CALLS = {"header": "time,call,queue,agent,event,a,b,c", "format": "unix", "unit": "call", "source": "queue", "arrive_event": ["ENTERQUEUE"]}
CALLS.update(begin_event=["CONNECT"], end_event=["COMPLETECALLER", "COMPLETEAGENT"])


def made(*rows, header=HEADER, **options):
    return prepare(table(*rows, header=header), "time", **{"unit": "serial", "steps": "station", **options})


class Stations(InFolder):
    def test_begins_and_ends(self):
        it = made(*LOG, code=["kind"], route="way", **KINDS)
        self.assertEqual(it.header, ["source", "time", "cut", "drill", "drill_2", "pack", "kind", "way"])
        self.assertEqual(list(it.rows()), [("jobs", 0, 60, 120, 0, 60, 0, 0), ("jobs", 60, 150, 60, 60, 90, 1, 1)])
        self.assertEqual(it.codes["way"], {"cut > drill > pack": 0, "cut > drill > drill > pack": 1})
        for line in "column 'event' has the events", "14 events of 2 units", "drill_2: 1 unit without it: 0 ticks":
            self.assertIn(line, it.told)
        self.assertEqual(it.warned, ["kind: 1 unit with several values: that of the first event counts"])

    def test_services_at_once(self):
        """Each end is that of its own station."""
        rows = "8:00,A,cut,START,x", "8:01,A,drill,START,x", "8:03,A,cut,END,x", "8:07,A,drill,END,x"
        for kinds in KINDS, {"begin_event": "START", "end_event": "END"}:
            self.assertEqual(list(made(*rows, **kinds).rows()), [("jobs", 0, 180, 360)])

    def test_any_order_of_rows(self):
        """The newest first; by station; and shuffled, where no events of a station are at one time."""
        want = list(made(*LOG, **KINDS).rows())
        self.assertEqual(list(made(*reversed(LOG), **KINDS).rows()), want)
        self.assertEqual(list(made(*sorted(LOG, key=lambda row: row.split(",")[2]), **KINDS).rows()), want)
        rows = [row.replace("08:06:00,A2,drill,START", "08:06:30,A2,drill,START") for row in LOG]
        want = list(made(*rows, **KINDS).rows())
        for seed in range(5):
            random.Random(seed).shuffle(rows)
            self.assertEqual(list(made(*rows, **KINDS).rows()), want)

    def test_the_newest_first_with_equal_times(self):
        rows = [f"2026-03-02 08:0{at // 2}:00,A,{station},{at}" for at, station in enumerate(("cut", "drill", "pack", "ship"))]
        for some in rows, rows[::-1]:
            it = made(*some, header="time,serial,station,length", demand=["length"], route="way")
            self.assertEqual((it.header[2:6], list(it.codes["way"])), (["cut", "drill", "pack", "ship"], ["cut > drill > pack > ship"]))
            self.assertEqual(list(it.rows()), [("jobs", 0, 0, 1, 2, 3, 0)])

    def test_a_row_per_step(self):
        steps = "8:00,A1,Cut 1,8:02,1:00,5", "8:03,A1,drill,8:04,2:00,6", "8:01,A2,Cut 1,8:05,0:30,7", "8:06,A2,drill,8:07,0:10,8"
        for options, values in (
            ({"end": ["end"]}, [[120, 240], [60, 60]]),
            ({"demand": ["long:m:ss"]}, [[60, 30], [120, 10]]),
            ({"demand": ["long=d:m:ss", "wrap=d"]}, [[65, 37], [126, 18]]),
            ({"demand": ["d=end-time+wrap"]}, [[125, 247], [66, 68]]),
        ):
            it = made(*steps, header="time,serial,station,end,long,wrap", **options)
            self.assertEqual((it.header[2:], list(it.times), [list(column) for column in it.values]), (["cut_1", "drill"], [0, 60], values))
            self.assertIn("station 'Cut 1' is called cut_1", it.told)
        it = made(*steps, header="time,serial,station,end,long,wrap", end=["end"], steps=None, constant=["pause=3s"])
        self.assertEqual((it.header[2:], list(it.rows())[0]), (["service", "service_2", "pause"], ("jobs", 0, 120, 60, 3)))

    def test_names_of_columns(self):
        """A second visit and a station of that name; stations in the order in which they are passed."""
        rows = "8:00,A,z,1", "8:01,A,a,2", "8:02,A,a,3", "8:03,A,a 2,4", "8:04,A,wait,5"
        it = made(*rows, header="time,serial,station,d", demand=["d"])
        self.assertEqual((it.header[2:], list(it.rows())), (["z", "a", "a_2_2", "a_2", "wait_2"], [("jobs", 0, 1, 2, 3, 4, 5)]))
        it = made("8:00,A,a,1", "8:01,A,b,2", "8:02,B,a,3", "8:03,B,b,4", "8:02,C,b,5", "8:03,C,a,6", header="time,serial,station,d", demand=["d"])
        more = "1 unit in another order of stations (the first is unit 'C'): --route NAME writes the order as a column for a split"
        self.assertEqual((it.header[2:], it.warned[:1]), (["a", "b"], [more]))
        many = [f"8:{at:02},A,s{at},1" for at in range(17)]
        with self.assertRaisesRegex(ValueError, "17 columns; the limit of a trace is 16: 's0', 's1', "):
            made(*many, header="time,serial,station,d", demand=["d"])

    def test_incomplete_units(self):
        """None of them is silently shorter: each is left out, counted, and named with its first row."""
        for rows, why in (
            (["8:10,B,cut,START,x"], "a service doesn't end"),
            (["8:10,B,cut,END,x"], "a service ends that hasn't begun"),
            (["8:10,B,cut,START,x", "8:11,B,cut,START,x", "8:12,B,cut,END,x"], "a service begins twice before it ends"),
            (["8:10,B,cut,START,x", "8:12,B,drill,END,x"], "a service ends that hasn't begun"),
        ):
            out = io.StringIO()
            good = [row[11:] for row in LOG]
            it = made(*good, *rows, left_out_most="40%", left_out=out, **KINDS)
            self.assertEqual((len(it), it.left), (2, {why: 1}))
            self.assertIn(f"1 unit: {why} (row 16, unit 'B')", it.told)
            self.assertEqual(out.getvalue().splitlines()[1], f"16,{why},,B,,,")
            with self.assertRaisesRegex(TooManyLeft, "1 of 3 units would be left out, more than 5 percent"):
                made(*good, *rows, **KINDS)

    def test_rows_that_can_not_be_read(self):
        """The unit of such a row lacks an event, even if the rest of it looks complete."""
        rows = *LOG, "x,A1,pack,START,x", "2026-03-02 08:30:00,A1,pack,END,x"
        it = made(*rows, left_out_most="60%", **KINDS)
        self.assertEqual((len(it), it.left["a row of the unit can't be read"]), (1, 1))
        for bad in "2026-03-02 08:30:00,,pack,START,x", "2026-03-02 08:30:00,A1,,START,x":
            it = made(*LOG, bad, left_out_most="60%", **KINDS)
            self.assertEqual(sum(it.left.values()), 1 + (",A1," in bad))

    def test_which_units(self):
        """A unit is judged by its arrival: its later events are never cut off. An event that isn't asked for isn't judged."""
        for options, times in (
            ({"begins": "2026-03-02 08:00:30"}, [60]),
            ({"until": "2026-03-02 08:01"}, [0]),
            ({"where": ["serial=A2"]}, [60]),
        ):
            it = made(*LOG, "x,A1,cut,SETUP,x", begin="2026-03-02 08:00", **options, **KINDS)
            self.assertEqual((list(it.times), it.left), (times, {}))
        self.assertIn("1 unit excluded by --from or --until", made(*LOG, until="2026-03-02 08:01", **KINDS).told)
        it = made(*LOG, LOG[0], "2026-03-02 08:20:00,A3,cut,START,x", duplicates="drop", left_out_most="40%", **KINDS)
        self.assertEqual((len(it), it.left), (2, {"a service doesn't end": 1}))
        self.assertIn("1 unit: a service doesn't end (row 17, unit 'A3')", it.told)
        with self.assertRaisesRegex(ValueError, "row 16: 1900-01-01T00:00:00: its record lies"):
            made(*LOG, "1900-01-01 00:00,A3,cut,START,x", "1900-01-01 00:00,A3,cut,END,x", **KINDS)

    def test_next_month(self):
        model = made(*LOG, code=["kind"], route="way", **KINDS).first_lines() + "server a drill_2 from jobs\nserver b drill from a\n"
        rows = [row.replace("START,x", "START,y") for row in LOG if ",A1," in row]
        it = made(*rows, code=["kind"], route="way", model=model, **KINDS)
        self.assertEqual(dict(zip(it.header, list(it.rows())[0])), dict(source="jobs", time=0, cut=60, drill=120, drill_2=0, pack=60, kind=1, way=0))
        self.assertIn("drill_2: no unit comes this often: 0 ticks", it.told)
        with self.assertRaisesRegex(ValueError, "the model names drill_2, drill, which no station provides"):
            made(*LOG[:2], code=["kind"], route="way", model=model, **KINDS)

    def test_an_hour_that_occurs_twice(self):
        rows = "2026-10-25 02:55:00,A,cut,START,x", "2026-10-25 03:08:00,A,cut,END,x"
        says = "row 3: the service or the wait is 780 or 4380 ticks long, since an hour occurs twice: give --twice order"
        with self.assertRaisesRegex(ValueError, says):
            made(*rows, zone="Europe/Berlin", twice="first", **KINDS)
        self.assertEqual(list(made(*rows, zone="Europe/Berlin", twice="second", **KINDS).values[0]), [780])


class Queues(InFolder):
    def test_a_queue_log(self):
        """A call that leaves one queue for another is a record in each. The row of a callback has fewer fields, that of a call more."""
        it = prepare(QUEUE.encode(), "time", abandon_event=["ABANDON", "EXITWITHTIMEOUT"], **CALLS)
        want = [("support", 10, 50, 10, 0), ("sales", 25, 0, 60, 1), ("sales", 90, 0, 10, 1), ("support", 100, 30, 5, 0)]
        self.assertEqual((it.header[2:], list(it.rows())), (["service", "wait", "abandoned"], want))
        for line in "10 events of 4 units", "2 rows with other events: 'QUEUESTART', 'RINGNOANSWER'", "2 units gave up":
            self.assertIn(line, it.told)
        self.assertEqual(it.warned, [])

    def test_calls_that_give_up(self):
        """Without --abandon-event they are left out and counted."""
        it = prepare(QUEUE.encode(), "time", left_out_most="50%", **CALLS)
        self.assertEqual((list(it.rows()), it.left), ([("support", 10, 50), ("support", 100, 30)], {"no service begins": 2}))
        it = prepare(QUEUE.encode(), "time", left_out_most="50%", abandon_event=["ABANDONED"], **CALLS)
        self.assertIn("no row has the event 'ABANDONED' (--abandon-event)", it.warned)
        late = QUEUE + "1772438540|25.3|sales|NONE|CONNECT|1|1|60\n"
        it = prepare(late.encode(), "time", left_out_most="50%", abandon_event=["ABANDON", "EXITWITHTIMEOUT"], **CALLS)
        self.assertEqual(it.left, {"an event after the unit gave up": 1})
        early = "1772438401|9.1|support|SIP/1|COMPLETECALLER|10|50|1\n" + QUEUE
        it = prepare(early.encode(), "time", left_out_most="50%", abandon_event=["ABANDON", "EXITWITHTIMEOUT"], **CALLS)
        self.assertEqual((len(it), it.left), (4, {"the unit never arrives": 1}))

    def test_the_command(self):
        """The waits of the log are those that `recorded` reads."""
        log, out, lines = self.file("queue_log", QUEUE), self.folder / "trace.csv", self.folder / "model.txt"
        ends = "--end-event", "COMPLETECALLER", "--end-event", "COMPLETEAGENT", "--abandon-event", "ABANDON", "--abandon-event", "EXITWITHTIMEOUT"
        words = "--header", CALLS["header"], "--time", "time", "--format", "unix", "--unit", "call", "--source", "queue", "--first-lines", lines
        status, _, err = planner("prepare", log, *words, "--arrive-event", "ENTERQUEUE", "--begin-event", "CONNECT", *ends, "--out", out)
        self.assertEqual((status, err.splitlines()[-1]), (0, "mpplan: 4 records, 2 sources"))
        told = self.tells("recorded", out, "--model", lines, "--wait", "wait", "--abandoned", "abandoned", "--within", "5")
        self.assertEqual(told.splitlines()[1].split(",")[1:6], ["all", "4", "2", "2", "0.25"])


class Refusals(Test):
    def test_what_is_not_known(self):
        for options, says in (
            ({}, "each row of --unit serial needs one service time, but has none: give --begin-event and --end-event, --end, or --demand"),
            ({"begin_event": ["START"]}, "--begin-event and --end-event are given together"),
            ({"end_event": ["END"]}, "--begin-event and --end-event are given together"),
            ({"abandon_event": ["END"]}, "--begin-event and --end-event are given together"),
            ({**KINDS, "abandon_event": ["END"]}, r"the event 'END' is given twice \(--abandon-event\)"),
            ({**KINDS, "demand": ["kind=d"]}, "d: the events give the services: leave --demand and --end out"),
            ({"demand": ["kind=d"], "event": "event"}, "--event requires --begin-event and --end-event"),
            ({"demand": ["kind=d", "event=e"]}, "needs one service time, but has 2: add columns up by giving them one name"),
            ({"begin_event": ["Start"], "end_event": ["END"]}, "no column has the events 'Start', 'END': give --event"),
            ({**KINDS, "steps": "where"}, "no column 'where'"),
            ({**KINDS, "route": "Way"}, "the column's name 'Way' is invalid"),
            ({"unit": None}, "--steps requires --unit"),
            ({"unit": None, "steps": None, **KINDS}, "--begin-event requires --unit"),
            ({"unit": None, "steps": None, "route": "way"}, "--route requires --unit"),
        ):
            with self.subTest(options), self.assertRaisesRegex(ValueError, says):
                made(*LOG, **options)
        both = [f"{row},{row.split(',')[3]}" for row in LOG]
        with self.assertRaisesRegex(ValueError, "'event' and 'what' have the events 'START', 'END': give --event"):
            made(*both, header=f"{HEADER},what", **KINDS)
        self.assertEqual(len(made(*both, header=f"{HEADER},what", event="what", **KINDS)), 2)

    def test_limits(self):
        with mock.patch.object(events, "RECORDS", 1), self.assertRaisesRegex(ValueError, "2 units, but a trace has at most 1 records"):
            made(*LOG, **KINDS)
        with mock.patch("mpsim.exports.prepare.EVENTS", 13), self.assertRaisesRegex(ValueError, "more than 13 events: choose a part"):
            made(*LOG, **KINDS)
        # Rows of a file with a header have its fields.
        it = made(*LOG, "2026-03-02 09:00:00,A3,cut,START", left_out_most="50%", **KINDS)
        self.assertEqual(it.left["the number of fields isn't the header's 5"], 1)

    def test_rows_that_look_like_events(self):
        rows = [f"2026-03-02 08:{at:02},S{at // 3},{('cut', 'drill', 'pack')[at % 3]},{at}" for at in range(60)]
        hint = "rows look like events, since most values of 'serial' are in several: --unit serial --steps station"
        self.assertEqual(prepare(table(*rows, header="time,serial,station,d"), "time", demand=["d"]).warned[-1], hint)
        # Calls of some agents in some queues, days of calls, and callers who call again.
        for row in "A{0}", "{1}", "C{2}":
            rows = [f"2026-03-02 08:{at:02},{row.format(at % 7, at // 6, at % 50)},{'abc'[at % 3]},{at}" for at in range(60)]
            self.assertEqual(prepare(table(*rows, header="time,who,queue,d"), "time", demand=["d"]).warned, [])


class Random(Test):
    def test_against_a_plain_reading(self):
        """Random logs, read again by dictionaries, one unit after another."""
        for seed in range(60):
            dice = random.Random(seed)
            moment, rows, want = 0, [], {}
            for unit in range(dice.randrange(1, 9)):
                clock = moment = moment + dice.randrange(1, 50)
                counts, record = {}, {}
                for _ in range(dice.randrange(1, 5)):
                    station, long, gap = dice.choice(["cut", "drill", "pack"]), dice.randrange(0, 300), dice.randrange(1, 40)
                    counts[station] = counts.get(station, 0) + 1
                    record[station + (f"_{counts[station]}" if counts[station] > 1 else "")] = long
                    rows += [(clock, unit, station, "in"), (clock + long, unit, station, "out")]
                    clock += long + gap
                want[moment] = record
            rows.sort(key=lambda row: row[0])
            texts = [f"{at},u{unit},{station},{kind}" for at, unit, station, kind in rows]
            options = {"format": "ticks", "begin_event": ["in"], "end_event": ["out"]}
            it = made(*texts, header="time,serial,station,event", **options)
            names = set().union(*want.values())
            self.assertEqual(set(it.header[2:]), names)
            found = {row[1]: dict(zip(it.header[2:], row[2:])) for row in it.rows()}
            self.assertEqual(found, {at: {name: record.get(name, 0) for name in names} for at, record in want.items()})


if __name__ == "__main__":
    unittest.main()
