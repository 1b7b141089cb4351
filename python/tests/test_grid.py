"""The grid of agents and loads: each cell beside the commands that it stands for, and its page as a reader uses it."""

import csv
import io
import json
import random
import re
import unittest
from fractions import Fraction

from commands import InFolder, idle, planner
from ground import EXAMPLES, Test, text_of
from looking import DRIVER, NODE, Browser, StandIn, webdriver

from mpsim.page.grids import Cell, heat_map
from mpsim.tables.grids import loads_of
from mpsim.traces import Trace

WEEK = EXAMPLES / "week" / "model.txt", EXAMPLES / "week" / "trace.csv"


class Loads(Test):
    def test_forms(self):
        ranges = ("80%..130%..10%", range(80, 131, 10)), ("80%..120%", range(80, 121, 10)), ("95%..100%..2.5%", [95, 97.5, 100])
        for text, loads in *ranges, ("1,1.25", [100, 125]):
            self.assertEqual(loads_of(text), [Fraction(str(it)) / 100 for it in loads])
        for text in "", "0%", "x", "130%..80%", "80%..90%..0%", "80%..90%..10%..5%", "-5%", "1..1000000..0.0001":
            self.assertRaises(ValueError, loads_of, text)


class Grid(InFolder):
    def rows(self, *words):
        status, out, said = planner("grid", *words)
        self.assertEqual(status, 0, said)
        return list(csv.DictReader(io.StringIO(out))), said

    def test_each_cell(self):
        """As scaled, changed and pooled by the commands, one by one."""
        made, longer = self.folder / "made.csv", self.folder / "longer.csv"
        changes = self.file("changes.csv", "record,talk\n*,+20\n")
        for more in [], ["--add", "handling=20s"], ["--add", "talk=+20s"]:
            rows, _ = self.rows(*WEEK, "--node", "desk", "--agents", "1..3", "--load", "90%,100%,112%", *more)
            self.assertEqual([(row["load"], row["agents"]) for row in rows], [(load, it) for load in ("90%", "100%", "112%") for it in "123"])
            for at, (load, how) in enumerate((("90%", []), ("100%", ["--twins"]), ("112%", ["--shift", "1d", "--model", WEEK[0]]))):
                self.assertEqual(planner("scale", WEEK[1], "--by", load, *how, "--out", made)[0], 0)
                if more:
                    self.assertEqual(planner("edit", made, changes, "--out", longer)[0], 0)
                text = self.tells("pool", WEEK[0], longer if more else made, "--node", "desk", "--agents", "1..3", "--within", 20)
                found = [{key: it for key, it in row.items() if key != "load"} for row in rows[3 * at : 3 * at + 3]]
                self.assertEqual(list(csv.DictReader(io.StringIO(text))), found)

    def test_each_source_and_weekday(self):
        """The rows of a source or weekday are what `service` and `hours` report of the pool; those of all are the ones without --by."""
        draw = random.Random(2)
        calls = sorted((draw.randrange(9 * 86400), draw.choice(["phone", "mail"]), draw.randrange(6000)) for _ in range(300))
        first = "model 1\n# a tick is 1s, time 0 is 2026-03-27T00:00:00+01:00 in Europe/Berlin\n"
        model = f"{first}source phone\nsource mail\nserver desk d from phone mail\n"
        model, pooled = self.file("m.txt", model), self.folder / "p.txt"
        trace, out = self.file("t.csv", "source,time,d\n" + "".join(f"{it},{time},{d}\n" for time, it, d in calls)), self.folder / "o.csv"
        words = model, trace, "--node", "desk", "--agents", "1..2", "--load", "100%"
        plain, said = self.rows(*words)
        self.assertIn("mpplan: figures of several sources together (mail, phone) at desk; --by source gives each\n", said)
        for by, report in ("source", ["service", "--by", "source"]), ("weekday", ["hours", "--by", "weekday"]):
            rows, said = self.rows(*words, "--by", by)
            self.assertEqual("together" in said, by == "weekday")
            self.assertEqual([{key: it for key, it in row.items() if key != by} for row in rows if row[by] == "all"], plain)
            for agents in "12":
                planner("pool", model, trace, "--node", "desk", "--agents", agents, "--out", out, "--out-model", pooled)
                command, *more = report
                wanted = csv.DictReader(io.StringIO(planner(command, pooled, out, "--node", "desk", *more)[1]))
                wanted = [{key: it for key, it in row.items() if key != "node"} for row in wanted if row[by] != "all"]
                found = [row for row in rows if row["agents"] == agents and row[by] != "all"]
                self.assertEqual([{key: it for key, it in row.items() if key not in ("load", "agents", "util")} for row in found], wanted)
                self.assertEqual({row["util"] for row in found}, {""})
        text = text_of(model).replace(", time 0 is 2026-03-27T00:00:00+01:00 in Europe/Berlin", "")
        self.refuses("--by weekday needs the date of time 0: give --start", "grid", self.file("n.txt", text), *words[1:], "--by", "weekday")

    def test_shorter_calls_and_times(self):
        """Down to 0; and the same calls closer together."""
        rows, _ = self.rows(*WEEK, "--node", "desk", "--agents", 1, "--load", "100%", "--add", "handling=-9999s")
        self.assertEqual((rows[0]["mean_wait"], rows[0]["util"]), ("0.0", "0.0000"))
        rows, _ = self.rows(*WEEK, "--node", "desk", "--agents", 2, "--load", "150%", "--times")
        made = self.folder / "made.csv"
        planner("scale", WEEK[1], "--by", "3/2", "--times", "--out", made)
        (want,) = csv.DictReader(io.StringIO(self.tells("pool", WEEK[0], made, "--node", "desk", "--agents", 2)))
        self.assertEqual({"load": "150%", **want}, rows[0])

    def test_copies_are_a_week_later_if_there_are_two(self):
        """Sixteen days: the copies are on the same weekday, so a Sunday stays without calls."""
        times = [day * 86400 + 36000 + at * 60 for day in range(16) if day % 7 != 6 for at in range(9)]
        model = self.file("m.txt", "model 1\n# a tick is 1s, time 0 is 2026-03-02T00:00:00+01:00 in Europe/Berlin\nsource a\nserver desk d from a\n")
        trace = self.file("t.csv", "source,time,d\n" + "".join(f"a,{time},30\n" for time in times))
        made = self.folder / "made.csv"
        for more, shift in ([], "7d"), (["--shift", "1d"], "1d"):
            rows, _ = self.rows(model, trace, "--node", "desk", "--agents", 1, "--load", "200%", *more)
            planner("scale", trace, "--by", 2, "--shift", shift, "--model", model, "--out", made)
            self.assertEqual({time // 86400 % 7 == 6 for time in Trace.read(made).times()}, {False} if shift == "7d" else {False, True})
            (want,) = csv.DictReader(io.StringIO(self.tells("pool", model, made, "--node", "desk", "--agents", 1)))
            self.assertEqual({"load": "200%", **want}, rows[0])

    def test_what_is_said(self):
        """The least number of agents per load from which on the goal is reached."""
        rows, said = self.rows(*WEEK, "--node", "desk", "--agents", "1..3", "--load", "50%,130%", "--goal", "95/1min")
        lines = [line.removeprefix("mpplan: ") for line in said.splitlines()]
        for load, line in zip(("50%", "130%"), lines):
            least = min(int(row["agents"]) for row in rows if row["load"] == load and float(row["within_60_of_all"]) >= 0.95)
            self.assertEqual(line, f"load {load}: {least} agents for 95/1min")
        said = self.rows(*WEEK, "--node", "desk", "--agents", 1, "--load", "100%")[1]
        self.assertEqual(said, "mpplan: load 100%: more than 1 agents for 80/20\n")

    def test_calls_without_work(self):
        """Those of the trace as it is; --add doesn't make them longer, and says how many there are. Nor do they get work by a second --add."""
        trace = EXAMPLES / "week" / "recorded.csv"
        lines, made = text_of(trace).splitlines(), self.folder / "made.csv"
        rows = [line.split(",") for line in lines[1:]]
        shortest = sorted(int(row[2]) for row in rows if row[2] != "0")[:9][-1]
        few = sum(0 < int(row[2]) <= shortest for row in rows)
        stay, become = "24 of 713 calls need 0 ticks and stay so", f"{few} of 713 calls become ones of 0 ticks"
        both = f"{24 + few} of 713 calls need 0 ticks and stay so"
        for more, change, says in (
            ([], lambda talk: talk, []),
            (["handling=20s"], lambda talk: talk + 20, [f"handling=20s: {stay}"]),
            (
                [f"handling=-{shortest}s"],
                lambda talk: max(0, talk - shortest),
                [f"handling=-{shortest}s: {stay}", f"handling=-{shortest}s: {become}"],
            ),
            (
                [f"talk=-{shortest}s", "talk=+20s"],
                lambda talk: talk - shortest + 20 if talk > shortest else 0,
                [f"talk=-{shortest}s: {stay}", f"talk=-{shortest}s: {become}", f"talk=+20s: {both}"],
            ),
        ):
            words = WEEK[0], trace, "--node", "desk", "--load", "100%", *(word for it in more for word in ("--add", it))
            (found,), said = self.rows(*words, "--agents", 3)
            lines_said = "".join(f"mpplan: --add {line}\n" for line in says)
            self.assertEqual(said, f"{lines_said}{idle(24, 713)}mpplan: load 100%: 3 agents for 80/20\n")
            changed = [[*row[:2], str(change(int(row[2])) if int(row[2]) else 0), *row[3:]] for row in rows]
            made.write_text("".join(f"{','.join(row)}\n" for row in [lines[0].split(","), *changed]))
            (want,) = csv.DictReader(io.StringIO(planner("pool", WEEK[0], made, "--node", "desk", "--agents", 3)[1]))
            self.assertEqual(found, {"load": "100%", **want})

    def test_forms(self):
        words = *WEEK, "--node", "desk", "--agents", "2..3", "--load", "100%"
        rows, _ = self.rows(*words)
        objects = json.loads(planner("grid", *words, "--format", "json")[1])
        self.assertEqual(
            [{key: str(it) for key, it in row.items() if key != "util"} for row in objects],
            [{key: it for key, it in row.items() if key != "util"} for row in rows],
        )

    def test_what_is_rejected(self):
        words = "grid", *WEEK, "--node", "desk", "--agents", "1..2"
        self.refuses("--load 0%: expected loads above 0, such as 80%..130%..10% or 80%,100%", *words, "--load", "0%")
        self.refuses("--add talk: expected handling=20s, or a column and a time", *words, "--add", "talk")
        self.refuses(f"{WEEK[1]}: no column 'walk'; it has talk", *words, "--add", "walk=5s")
        self.refuses("--times makes no copies: give it without --shift", *words, "--load", "120%", "--times", "--shift", "1d")
        why = "the service time of desk is the same for all calls (=5): change it in the model"
        model = self.file("m.txt", "model 1\n# a tick is 1s\nsource calls\nserver desk =5 from calls\n")
        self.refuses(f"--add handling=5s: {why}", "grid", model, WEEK[1], "--node", "desk", "--agents", 1, "--add", "handling=5s")
        self.refuses("2 numbers of agents and 10,001 loads: more than 10,000 cells", *words, "--load", "1..2..0.0001")
        out, made = self.folder / "o.csv", self.folder / "o.txt"
        planner("pool", *WEEK, "--node", "desk", "--agents", 2, "--out", out, "--out-model", made)
        why = "was made for a pool at desk: its waits hold only for this trace and this number of agents; scale or edit first, then pool"
        self.refuses(f"{out} {why}: give the trace before the pool", "grid", WEEK[0], out, "--node", "desk", "--agents", 1)


class Looking:
    CELLS = [
        Cell(load, agents, 100 + at, share, wait, 3 * wait, util)
        for at, (load, agents, share, wait, util) in enumerate(
            [
                ("90 %", 2, 0.79, 31.0, 0.5),
                ("90 %", 3, 0.8, 5.0, 0.4),
                ("90 %", 4, 0.95, 0.0, 0.3),
                ("100 %", 2, 0.4, 90.0, 0.6),
                ("100 %", 3, 0.65, 45.0, 0.45),
                ("100 %", 4, 0.91, 4.0, 0.35),
            ]
        )
    ]

    def setUp(self):
        super().setUp()
        self.looker = self.make()
        self.addCleanup(self.looker.close)
        self.looker.show(heat_map(self.CELLS, "Desk", "20 s", 0.8))

    def cells(self):
        return [(text, attributes["class"]) for text, attributes in self.looker.all("#grid td")]

    def told(self):
        return self.looker.all("#told")[0][0]

    def test_cells(self):
        """Text and colour say the same; the goal is reached from 80 % on, which a tick and a frame show."""
        texts = ["79.0 %", "80.0 % ✓", "95.0 % ✓", "40.0 %", "65.0 %", "91.0 % ✓"]
        kinds = ["load3", "load4 reached", "load5 reached", "load1", "load2", "load5 reached"]
        self.assertEqual(self.cells(), list(zip(texts, kinds)))
        self.assertEqual([text for text, _ in self.looker.all("#grid th")], ["load", "2", "3", "4", "90 %", "100 %"])
        self.assertEqual([it["scope"] for _, it in self.looker.all("#grid th")], ["col"] * 4 + ["row"] * 2)

    def test_another_figure(self):
        self.looker.pick("#figure", 1)
        self.assertEqual([text.split(" ✓")[0] for text, _ in self.cells()], ["31 s", "5 s", "0 s", "1 min 30 s", "45 s", "4 s"])
        self.assertEqual([re.search(r"load(\d)", kind)[1] for _, kind in self.cells()], ["2", "1", "1", "5", "3", "1"])
        self.assertEqual(["reached" in kind for _, kind in self.cells()], [False, True, True, False, False, True])

    def test_the_steps_of_each_figure(self):
        """As the legend says: waits by fifths of the longest, work by fifths of the whole time, whatever the greatest is."""
        ((legend, _),) = self.looker.all(".legend")
        self.assertTrue(legend.endswith("Waits: by fifths of the longest; work: by fifths of the whole time."), legend)
        for figure, values in (1, [it.mean_wait / 90 for it in self.CELLS]), (3, [it.util for it in self.CELLS]):
            self.looker.pick("#figure", figure)
            self.assertEqual([re.search(r"load(\d)", kind)[1] for _, kind in self.cells()], [str(min(5, 1 + int(5 * it))) for it in values])

    def test_by_keys(self):
        self.looker.press("#grid", "ArrowRight")
        self.assertIn("marked", self.cells()[1][1])
        self.assertEqual(
            self.told(),
            "Load 90 %, 3 agents: 101 calls, 80.0 % served within 20 s, mean wait 5 s, 90 of 100 waited at most 15 s, "
            "agents work 40.0 % of the whole time",
        )
        for key, at in ("End", 2), ("ArrowRight", 2), ("Home", 0), ("ArrowLeft", 0):
            self.looker.press("#grid", key)
            self.assertEqual(["marked" in kind for _, kind in self.cells()].index(True), at, key)

    def test_by_clicks(self):
        self.looker.click("#grid td", 4)
        self.assertTrue(self.told().startswith("Load 100 %, 3 agents: 104 calls"))
        self.assertEqual(["marked" in kind for _, kind in self.cells()], [at == 4 for at in range(6)])


@unittest.skipUnless(NODE, "node isn't installed")
class ByStandIn(Looking, Test):
    def make(self):
        return StandIn()

    def test_up_and_down(self):
        for key, at in ("ArrowDown", 3), ("ArrowDown", 3), ("ArrowRight", 4), ("ArrowUp", 1), ("ArrowUp", 1):
            self.looker.press("#grid", key)
            self.assertEqual(["marked" in kind for _, kind in self.cells()].index(True), at, key)


@unittest.skipUnless(webdriver and DRIVER, "selenium or the driver of Chromium isn't installed")
class ByBrowser(Looking, Test):
    def make(self):
        return Browser()


class Page(InFolder):
    def test_page_of_a_run(self):
        """The figures of the table, in seconds; nothing from outside, and no text that is markup."""
        page = self.folder / "grid.html"
        status, out, _ = planner("grid", *WEEK, "--node", "desk", "--agents", "1..2", "--load", "90%,100%", "--page", page)
        self.assertEqual(status, 0)
        text, rows = text_of(page), list(csv.DictReader(io.StringIO(out)))
        for row in rows:
            self.assertIn(f"{100 * float(row['within_20_of_all']):.1f} %", text)
        self.assertIn("Content-Security-Policy", text)
        self.assertNotRegex(text.replace("http-equiv", ""), r"https?://|src=|@import")
        self.assertIn("@media print", text)
        text = heat_map([Cell("<b>", 1, 0, None, None, None, 0.0)], "<i>&", "20 s")
        self.assertNotIn("<b>", text)
        self.assertNotIn("<i>", text)
        self.assertIn("–", text)


if __name__ == "__main__":
    unittest.main()
