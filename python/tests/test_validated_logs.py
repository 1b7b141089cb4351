"""The log of a line beside a model: a log that the model itself would write, logs with known differences, and what can't be compared."""

import csv
import io
import random
import unittest
from datetime import datetime, timedelta

from commands import InFolder, planner
from ground import Test, words_of

import mpsim
from mpsim.exports.prepare import passages
from mpsim.tables.passages import Limits, of_log, of_model, places_of, verdict
from mpsim.traces import Trace

BEGIN = datetime(2026, 3, 2, 6)
RECIPE = 'time = "time"\nunit = "serial"\nsteps = "station"\narrive-event = ["IN"]\nbegin-event = ["START"]\nend-event = ["END"]\ncode = ["type"]\n'
LINES = "server saw saw from jobs\ntandem line cut / 2 mill from saw\nloss oven 9 bake from line\ndelay dry dry from oven\n"
LINES += "split ways cut type 1 from dry\nserver pack pack from ways\n"
NOTE = "mpplan: the log is read beside the proved programs: tested, not proved\n"
WHATEVER = ("lead time", "all", "p50", 100, 100, 0.0, 50, 50)


def percentile(values, percent):
    ordered = sorted(values)
    return ordered[-(-percent * len(ordered) // 100) - 1] if ordered else None


def clock(second):
    """Returns the time on the wall of a second of work, from 6:00 to 14:00 each day."""
    day, rest = divmod(second, 8 * 3600)
    return BEGIN + timedelta(days=day, seconds=rest)


class Logs(InFolder):
    def setUp(self):
        super().setUp()
        self.recipe = self.file("r.toml", RECIPE)
        self.shifts = self.file("shifts.csv", "days,from,to\ndaily,06:00,14:00\n")
        draw = random.Random(8)
        self.columns = ["saw", "cut", "mill", "bake", "dry", "pack"]
        self.rows = []
        time = 0
        for _ in range(300):
            time += draw.randrange(1, 700)
            services = [draw.randrange(1, 300) for _ in self.columns]
            # One unit in four isn't dried.
            services[4] *= draw.random() < 0.75
            self.rows.append([time, *services, draw.randrange(2)])
        first = '# a tick is 1s, time 0 is 2026-03-02T06:00:00\n# working time is daily 06:00-14:00\n# type: 0 is "oak", 1 is "pine"\n'
        self.model = self.file("m.txt", f"model 1\n{first}source jobs\n{LINES}")
        self.trace = self.file(
            "t.csv", f"source,time,{','.join(self.columns)},type\n" + "".join(f"jobs,{','.join(map(str, row))}\n" for row in self.rows)
        )
        self.report = mpsim.run(self.model, self.trace, jobs=True)

    def events(self, late=lambda job, node: 0):
        """Returns the events that the stations of the model would write (list of second, job, station, event); `late` says how much later a unit
        ends at a station and everywhere after it."""
        made, shift = [], {}
        for words in words_of("".join(self.report.lines(jobs=True)), "job"):
            job, node = int(words[1]), words[2]
            columns = {"line": ["cut", "mill"], "oven": ["bake"]}.get(node, [node])
            if node == "jobs":
                made.append((int(words[4]), job, "saw", "IN"))
            elif columns[-1] in self.columns and words[5] == "wait" and self.rows[job - 1][1 + self.columns.index(columns[-1])]:
                shift[job] = shift.get(job, 0) + late(job, node)
                end = int(words[8]) + shift[job]
                demands = dict(zip(self.columns, self.rows[job - 1][1:]))
                for column in columns:
                    made.append((min(end, int(words[4]) + shift[job]), job, column, "START"))
                    made.append((end, job, column, "END"))
                # The last of them ends last, and begins with its own service.
                made[-2] = (max(0, end - demands[columns[-1]]), job, columns[-1], "START")
        return sorted(made, key=lambda it: (it[0], it[3] != "END"))

    def log(self, events):
        types = [row[-1] for row in self.rows]
        rows = "".join(f"{clock(second)},{job},{station},{event},{['oak', 'pine'][types[job - 1]]}\n" for second, job, station, event in events)
        return self.file("log.csv", "time,serial,station,event,type\n" + rows)

    def table(self, log, *more, model=None):
        status, out, said = planner("validate", model or self.model, self.trace, "--log", log, "--recipe", self.recipe, *more)
        self.assertEqual(status, 0, said)
        return list(csv.DictReader(io.StringIO(out))), said

    def test_its_own_log(self):
        """A log that the model itself would write has no gap, in working time over many nights, and the model may be trusted."""
        rows, said = self.table(self.log(self.events()), "--product", "type")
        self.assertEqual(
            {(row["gap"], row["log"] == row["model"], row["log_count"] == row["model_count"]) for row in rows}, {("0.0", True, True)}, rows
        )
        self.assertIn("mpplan: the model may be trusted: lead times differ by at most 10 %, times in stations by 20 %, shifts by 10 %\n", said)
        self.assertTrue(said.endswith(NOTE))
        names = [(row["of"], row["name"]) for row in rows if row["figure"] in ("p50", "left")]
        self.assertEqual(
            names[:8],
            [("lead time", name) for name in ("all", "oak", "pine")] + [("station", name) for name in ("saw", "line", "oven", "dry", "pack")],
        )
        begins = [name for of, name in names if of == "shift"]
        self.assertEqual(begins, [f"{clock(8 * 3600 * day):%Y-%m-%d} 06:00" for day in range(len(begins))])

    def test_figures(self):
        """Beside the figures that the test takes from the job lines and the events."""
        events = self.events(lambda job, node: 90 * (node == "oven") + 40 * (node == "saw" and job % 2))
        rows, _ = self.table(self.log(events), "--product", "type", "--per", "day")
        found = {(row["of"], row["name"], row["figure"]): [row["log"], row["model"], row["log_count"], row["model_count"]] for row in rows}
        ends, came = {}, {job: second for second, job, _, event in events if event == "IN"}
        nodes = {"cut": "line", "mill": "line", "bake": "oven"}
        for second, job, station, event in events:
            if event == "END":
                ends.setdefault(job, {})[nodes.get(station, station)] = second
        expected = {}
        visits = {}
        for words in words_of("".join(self.report.lines(jobs=True)), "job"):
            if words[5] == "wait":
                needs = words[2] != "dry" or self.rows[int(words[1]) - 1][5]
                visits.setdefault(words[2], []).extend([int(words[8]) - int(words[4])] if needs else [])
        order = ["saw", "line", "oven", "dry", "pack"]
        for place, node in enumerate(order):
            mine = []
            for job, its in ends.items():
                if node in its:
                    before = max([its[name] for name in order[:place] if name in its], default=came[job])
                    mine.append(max(its[node], before) - before)
            for percent in 50, 90:
                expected["station", node, f"p{percent}"] = [
                    percentile(mine, percent),
                    percentile(visits[node], percent),
                    len(mine),
                    len(visits[node]),
                ]
        leads = {job: max(its.values()) - came[job] for job, its in ends.items()}
        last = {}
        for words in words_of("".join(self.report.lines(jobs=True)), "job"):
            last[int(words[1])] = int(words[8])
        theirs = {job: end - self.rows[job - 1][0] for job, end in last.items()}
        for name, jobs in (
            ("all", list(leads)),
            ("oak", [job for job in leads if not self.rows[job - 1][-1]]),
            ("pine", [job for job in leads if self.rows[job - 1][-1]]),
        ):
            for percent in 50, 90:
                both = [percentile([side[job] for job in jobs], percent) for side in (leads, theirs)]
                expected["lead time", name, f"p{percent}"] = [*both, len(jobs), len(jobs)]
        for day in range(60):
            both = [sum(side[job] // (8 * 3600) == day for job in leads) for side in ({job: max(its.values()) for job, its in ends.items()}, last)]
            if any(both):
                expected["shift", f"{clock(day * 8 * 3600):%Y-%m-%d}", "left"] = [*both, *both]
        self.assertEqual(found, {key: [str(it) for it in values] for key, values in expected.items()})

    def test_slower_than_its_model(self):
        rows, said = self.table(self.log(self.events(lambda job, node: 200 * (node == "dry"))))
        dry = next(row for row in rows if (row["name"], row["figure"]) == ("dry", "p50"))
        self.assertEqual(int(dry["log"]) - int(dry["model"]), 200)
        self.assertIn("mpplan: the model may not be trusted: lead time all p50 -", said)
        self.assertIn("station dry p50 -", said)
        _, said = self.table(self.log(self.events(lambda job, node: 200 * (node == "dry"))), "--trust-lead", "50", "--trust-station", "90")
        self.assertIn("the model may be trusted: lead times differ by at most 50 %, times in stations by 90 %, shifts by 10 %", said)

    def test_without_working_time(self):
        model = self.file("n.txt", self.model.read_text().replace("# working time is daily 06:00-14:00\n", ""))
        _, said = self.table(self.log([it for it in self.events() if it[0] < 8 * 3600]), "--trust-units", "3", model=model)
        self.assertIn("trusted", said)
        recipe = self.file("r.toml", RECIPE + 'calendar = "shifts.csv"\n')
        told = planner("validate", model, self.trace, "--log", self.log(self.events()), "--recipe", recipe)
        self.assertEqual(told[0], 1)
        self.assertIn("the log counts working time (daily 06:00-14:00), but the model counts all hours", told[2])

    def test_units_that_gave_up(self):
        self.file("r.toml", RECIPE.replace("code", 'abandon-event = ["GONE"]\ncode'))
        rows, said = self.table(
            self.log([it for it in self.events() if it[1] <= 30] + [(10**5, 299, "saw", "IN"), (10**5 + 9, 299, "saw", "GONE")])
        )
        self.assertIn("mpplan: 1 unit gave up, and is left out\n", said)
        self.assertEqual((rows[0]["log_count"], rows[0]["model_count"]), ("30", "300"))

    def test_what_cannot_be_compared(self):
        model = self.file("n.txt", self.model.read_text() + "server extra =9 from ways.1\nserver late never from pack\n")
        self.file("t.csv", "".join(f"{line},{'never' if at == 0 else 5}\n" for at, line in enumerate(self.trace.read_text().splitlines())))
        log = self.log([*self.events(), (10**6, 4, "paint", "START"), (10**6 + 4, 4, "paint", "END")])
        _, said = self.table(log, model=model)
        self.assertIn("mpplan: no node of the model has the service of 'paint': their times aren't compared, and count in the lead time only\n", said)
        self.assertIn("mpplan: the log has no station for 'late'\n", said)
        self.assertIn("mpplan: no column of services at 'extra': the log can't be compared there\n", said)

    def test_arguments(self):
        log, base = self.log([it for it in self.events() if it[1] <= 9]), ("validate", self.model, self.trace)
        self.refuses("--log requires --recipe: the options with which mpplan prepare reads the log", *base, "--log", log)
        self.refuses("give --node, or --log with an event log", *base, "--wait", "w")
        self.refuses("--wait is missing: the column with the recorded waits", *base, "--node", "saw")
        self.refuses("--recipe requires --log", *base, "--recipe", self.recipe)
        self.refuses("--trust-units requires --log", *base, "--trust-units", 3)
        whole = (*base, "--log", log, "--recipe", self.recipe)
        for option, value in ("--node", "saw"), ("--wait", "w"), ("--page", "p.html"), ("--trust-overall", "4"), ("--within", "20"):
            self.refuses(f"{option} can't be used with --log", *whole, option, value)
        self.refuses("--trust-units 0: expected a number of units, 1 or more", *whole, "--trust-units", 0)
        self.refuses("--trust-lead x: expected a percentage from 0 to 1000", *whole, "--trust-lead", "x")
        self.refuses(f"--product size: no such column in {self.trace}; it has {', '.join([*self.columns, 'type'])}", *whole, "--product", "size")
        self.refuses("--product saw: the recipe has no code of this name", *whole, "--product", "saw")
        model = self.file(
            "n.txt", self.model.read_text().replace("# working time is daily 06:00-14:00\n", "").replace(", time 0 is 2026-03-02T06:00:00", "")
        )
        self.refuses(f"{model}: it doesn't say when time 0 is: give --start", "validate", model, *whole[2:])
        model = self.file("n.txt", self.model.read_text().replace("06:00:00", "06:00:00+01:00 in Europe/Berlin"))
        self.refuses("the log is read in the zone of a clock that never changes, but the model has Europe/Berlin", "validate", model, *whole[2:])
        self.file("r.toml", 'time = "time"\ndemand = ["serial=d"]\nwhere = ["event=END"]\n')
        self.refuses(f"{log}: it isn't read as an event log: give unit, steps and the events", *whole)

    def test_forms(self):
        log = self.log(self.events())
        for form in "json", "md":
            status, out, _ = planner("validate", self.model, self.trace, "--log", log, "--recipe", self.recipe, "--format", form)
            self.assertEqual((status, "lead time" in out), (0, True))


class Pieces(Test):
    def test_passages(self):
        """Steps in a row of their own, ticks, and a station that is visited again."""
        log = b"when,id,where,took\n5,a,saw,4\n12,a,mill,2\n20,a,saw,7\n6,b,mill,1\n"
        found, _, _ = passages(log, "when", format="ticks", unit="id", steps="where", demand="took")
        self.assertEqual(
            [(it.arrival, it.visits) for it in found], [(5, [("saw", 5, 9), ("mill", 12, 14), ("saw_2", 20, 27)]), (6, [("mill", 6, 7)])]
        )

    def test_seconds(self):
        """Steps with their lengths in seconds, and a unit that two stations have at once: it leaves with the later end."""
        log = b"when,id,where,took\n2026-03-02T08:00:05,a,saw,40\n2026-03-02T08:00:50,a,mill,90\n2026-03-02T08:01:00,a,drill,10\n"
        found, _, _ = passages(log, "when", unit="id", steps="where", demand="took")
        (unit,) = [(it.arrival, [(name, begin - it.arrival, end - it.arrival) for name, begin, end in it.visits]) for it in found]
        second = 10**9
        self.assertEqual(unit[1], [("saw", 0, 40 * second), ("mill", 45 * second, 135 * second), ("drill", 55 * second, 65 * second)])
        sides = of_log(found, {"saw": ["saw"], "mill": ["mill"], "drill": ["drill"]}, unit[0], second, {}, None)
        self.assertEqual((sides.leads, sides.left, sides.stations), ({"all": [135]}, [135], {"saw": [40], "mill": [95], "drill": [0]}))

    def test_lost_jobs(self):
        """They left no station, and have no lead time."""
        text = "model 1\nsource in\nloss oven 1 bake from in\n"
        trace = Trace("t.csv", ["source", "time", "bake"], [["in", "0", "9"], ["in", "1", "9"], ["in", "20", "4"]])
        sides = of_model(mpsim.run(text, trace.lines(), jobs=True), places_of(text), trace, {}, None)
        self.assertEqual((sides.stations, sides.leads, sides.left), ({"oven": [9, 4]}, {"all": [9, 4]}, [9, 24]))

    def test_places(self):
        text = "model 2\nsource in\nsplit s cut kind 2 from in\nfork f 2 from s\nforkjoin b a | c from f\ndelay desk_queue desk_wait from f.1\n"
        text += "trunk desk 2 talk from desk_queue\njoin j from b desk\ndelay x =4 from j\n"
        self.assertEqual(places_of(text), {"b": ["a", "c"], "desk": ["talk"]})

    def test_verdicts(self):
        """Each limit by itself, at its end and past it."""
        for rows, limits, said in (
            ([WHATEVER], Limits(), "the model may be trusted: lead times differ by at most 10 %, times in stations by 20 %, shifts by 10 %"),
            ([["lead time", "all", "p50", 100, 110, 0.1, 20, 20]], Limits(), "the model may be trusted"),
            (
                [["lead time", "all", "p50", 100, 111, 0.11, 20, 20]],
                Limits(),
                "the model may not be trusted: lead time all p50 +11.0 % (10 % allowed)",
            ),
            (
                [["lead time", "all", "p50", 100, 900, 8.0, 19, 99]],
                Limits(),
                "it can't be said whether the model may be trusted: the log has fewer than 20 units (--trust-units)",
            ),
            (
                [WHATEVER, ["station", "saw", "p90", 10, 13, 0.3, 20, 20]],
                Limits(),
                "the model may not be trusted: station saw p90 +30.0 % (20 % allowed)",
            ),
            ([WHATEVER, ["station", "saw", "p90", 10, 12, 0.2, 20, 20]], Limits(), "the model may be trusted"),
            ([WHATEVER, ["station", "saw", "p90", 4, 6, 0.5, 20, 20]], Limits(), "the model may be trusted"),
            ([WHATEVER, ["station", "saw", "p90", 4, 7, 0.75, 20, 20]], Limits(), "the model may not be trusted: station saw p90 +75.0 %"),
            (
                [WHATEVER, ["station", "saw", "p90", 4, None, None, 20, 0]],
                Limits(),
                "the model may not be trusted: station saw p90 isn't in the model",
            ),
            (
                [WHATEVER, ["shift", "Monday", "left", 20, 23, 0.15, 20, 23]],
                Limits(),
                "the model may not be trusted: shift Monday +15.0 % (10 % allowed)",
            ),
            ([WHATEVER, ["shift", "Monday", "left", 19, 3, -0.8, 19, 3]], Limits(), "the model may be trusted"),
            ([["lead time", "all", "p50", 9, 9, 0.0, 3, 3]], Limits(units=3), "the model may be trusted"),
        ):
            self.assertTrue(verdict([list(row) for row in rows], limits).startswith(said), (rows, verdict([list(row) for row in rows], limits)))


if __name__ == "__main__":
    unittest.main()
