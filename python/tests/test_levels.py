"""The share answered in time over the day, as recorded and in a model: the page of `mpplan validate` and the chart of `mpplan decision`, beside a
count and a queue written here, as a reader uses them, and on paper."""

import csv
import functools
import heapq
import io
import pathlib
import re
import tempfile
import unittest

from commands import InFolder, planner
from ground import EXAMPLES, Test, text_of
from looking import DRIVER, NODE, Browser, StandIn, webdriver

from mpsim.page.levels import Level, level_chart, levels_page, said

WEEK = EXAMPLES / "week"
MODEL, RECORDED = WEEK / "model.txt", WEEK / "recorded.csv"
WAITS = "--wait", "wait", "--abandoned", "gone"
# The edges of the chart's area.
LEFT, RIGHT, TOP, FLOOR = 38, 440 - 62, 10, 170 - 32


def waits_in_queue(agents, rows):
    """Returns the wait of each call (None if its caller leaves) with this many agents all day: the first free agent takes the next call; a caller who
    was recorded as gone leaves after the recorded wait."""
    free, found = [0] * agents, []
    for row in rows:
        begin = max(int(row["time"]), free[0])
        wait = begin - int(row["time"])
        if row["gone"] != "0" and wait > int(row["wait"]):
            found.append(None)
        else:
            found.append(wait)
            heapq.heapreplace(free, begin + int(row["talk"]))
    return found


def shares(every, agents=None, days=range(7), within=20):
    """Returns, per minute of the day at which an interval of `every` minutes begins, the calls and the shares answered in time as recorded, and with
    this many agents; counted from the file, whose time 0 is a midnight and whose ticks are seconds."""
    rows = list(csv.DictReader(io.StringIO(text_of(RECORDED))))
    modelled = waits_in_queue(agents, rows) if agents else [None] * len(rows)
    cells = {}
    for row, wait in zip(rows, modelled):
        time = int(row["time"])
        if time // 86400 in days:
            in_time = row["gone"] == "0" and int(row["wait"]) <= within, wait is not None and wait <= within
            cells.setdefault(time % 86400 // 60 // every * every, []).append(in_time)
    return {minute: (len(it), *(sum(pair[at] for pair in it) / len(it) for at in (0, 1))) for minute, it in sorted(cells.items())}


def clock(minute):
    return f"{minute // 60:02}:{minute % 60:02}"


@functools.lru_cache(maxsize=None)
def page_of(*words):
    """Returns the text of the page that a call with --page or --out writes; with status 0."""
    with tempfile.TemporaryDirectory() as folder:
        path = pathlib.Path(folder, "page.html")
        status, _, said_ = planner(
            words[0], MODEL, RECORDED, "--node", "desk", *WAITS, "--page" if words[0] == "validate" else "--out", path, *words[1:]
        )
        assert status == 0, said_
        return text_of(path)


class Looking:
    def setUp(self):
        super().setUp()
        self.looker = self.make()
        self.addCleanup(self.looker.close)

    def texts(self, selector):
        return [text for text, _ in self.looker.all(selector)]

    def one(self, selector, name):
        ((_, attributes),) = self.looker.all(selector)
        return attributes[name]

    def drawn(self, chart, kind):
        """Returns the points of a line."""
        return [(float(x), float(y)) for x, y in re.findall(r"[ML]([\d.]+) ([\d.]+)", self.one(f"{chart} path.{kind}", "d"))]

    def check(self, chart, want, every, place=0):
        """A chart has a line each for these shares, and says them interval by interval, forth by keys and back."""
        first, last = min(want), max(want) + every
        across = lambda minute: LEFT + (RIGHT - LEFT) * (minute - first) / (last - first)
        for kind, at in ("p50", 1), ("p90", 2):
            points = self.drawn(chart, kind)
            self.assertEqual(len(points), len(want))
            for (x, y), minute in zip(points, want):
                self.assertAlmostEqual(x, across(minute + every / 2), delta=0.06)
                self.assertAlmostEqual(y, FLOOR - (FLOOR - TOP) * want[minute][at], delta=0.07)
        highs = [float(it["height"]) for _, it in self.looker.all(f"{chart} rect.calls")]
        most = max(calls for calls, _, _ in want.values())
        for high, (calls, _, _) in zip(highs, want.values()):
            self.assertAlmostEqual(high, 40 * calls / most, delta=0.06)
        told = []
        self.looker.press("svg[data-steps]", "Home", place)
        for _ in want:
            told += self.texts("output")[:1]
            self.looker.press("svg[data-steps]", "ArrowRight", place)
        says = [
            f"{clock(it)} to {clock(it + every)}: {calls} call{'s' * (calls != 1)}, answered in time {100 * one:.1f} % as recorded, "
            f"{100 * other:.1f} % in the model"
            for it, (calls, one, other) in want.items()
        ]
        self.assertEqual(told, says)
        self.assertEqual(self.texts("output")[:1], says[-1:])
        self.looker.press("svg[data-steps]", "ArrowLeft", place)
        self.assertEqual(self.texts("output")[:1], says[-2:-1])
        self.looker.press("svg[data-steps]", "Home", place)
        self.assertEqual(self.texts(".step.marked title"), says[:1])


class Looked(Looking):
    def test_a_model_that_was_compared(self):
        """By half-hours and whole hours; the table has the same figures."""
        for words, every, agents in ([], 30, 2), (["--every", "1h"], 60, 3):
            self.looker.show(page_of("validate", "--agents", agents, *words))
            want = shares(every, agents)
            self.check("figure", want, every)
            rows = [self.texts("tbody tr")[at] for at in range(len(want) + 1)]
            for row, (minute, (calls, one, other)) in zip(rows[1:], want.items()):
                gap = f"{100 * (other - one):+.1f}"
                self.assertTrue(row.startswith(f"{clock(minute)}{calls}{100 * one:.1f} %{100 * other:.1f} %{gap}"), (row, minute))
            self.assertTrue(rows[0].startswith("all day713"))
            self.assertIn("answered within 20 seconds", self.texts(".legend")[0])

    def test_each_queue(self):
        rows = [["all", "all", 30, 0.5, 0.75, 0.25, 0.9], ["all", "a", 20, 0.5, 0.75, 0.25, 0.9], ["all", "b", 10, 0.5, 0.75, 0.25, 0.9]]
        rows += [["09:15", "all", 30, 0.5, 0.75, 0.25, 0.9], ["09:15", "a", 20, 0.25, 1.0, 0.75, 0.9], ["09:15", "b", 10, 0.0, 0.5, 0.5, None]]
        self.looker.show(levels_page(rows, "<i>", "it <b>", 90, 15))
        self.assertEqual(self.texts("figure h3"), ["All calls", "a", "b"])
        self.assertEqual(self.texts("caption"), ["All calls", "a", "b"])
        self.assertEqual(
            self.texts("title")[1:],
            [said(Level(555, calls, one, other), 15) for calls, one, other in ((30, 0.5, 0.75), (20, 0.25, 1.0), (10, 0.0, 0.5))],
        )
        self.assertIn("answered within 1 minute 30 seconds", self.texts(".legend")[0])
        self.assertEqual((self.texts("p.answer"), self.texts("h1")), (["It <b>."], ["<i>"]))
        self.looker.press("svg[data-steps]", "End", 2)
        self.assertEqual(self.texts("output"), ["09:15 to 09:30: 10 calls, answered in time 0.0 % as recorded, 50.0 % in the model"])

    def test_a_decision(self):
        """What was, beside the agents of the roster; of the chosen days only. The chart of each weekday is stepped through too."""
        for words, days in ([], range(7)), (["--date", "2026-03-24"], [1]), (["--weekday", "wednesday"], [2]):
            self.looker.show(page_of("decision", "--agents", 2, *words))
            self.check(".beside figure", shares(30, 2, days), 30)
        goal = self.one("line.goal", "y1")
        self.assertAlmostEqual(float(goal), FLOOR - (FLOOR - TOP) * 0.8, delta=0.06)
        self.looker.press("svg[data-steps]", "End", 1)
        last = self.texts(".charts title")[-1]
        self.assertEqual((self.texts("output")[1], self.texts(".step.marked title")), (last, [last]))
        self.assertRegex(last, r"^Wednesday \d\d:\d\d: \d (person|people) needed, the roster has 2 people$")
        self.looker.click(".charts .step", 0)
        self.assertEqual(self.texts("output")[1], self.texts(".charts title")[0])

    def test_a_decision_without_a_roster(self):
        """Only what was recorded, in words and in the chart; without recorded waits no chart."""
        self.looker.show(page_of("decision", "--date", "2026-03-24", "--goal", "90/60"))
        want = shares(30, days=[1], within=60)
        for (_, y), (_, one, _) in zip(self.drawn(".beside figure", "p50"), want.values()):
            self.assertAlmostEqual(y, FLOOR - (FLOOR - TOP) * one, delta=0.07)
        self.assertEqual((self.texts(".beside path.p90"), self.texts(".beside text.p90")), ([], []))
        titles = self.texts(".beside .step title")
        self.assertEqual(
            titles,
            [
                f"{clock(it)} to {clock(it + 30)}: {calls} call{'s' * (calls != 1)}, answered in time {100 * one:.1f} % as recorded"
                for it, (calls, one, _) in want.items()
            ],
        )
        self.assertNotIn("method", self.texts(".beside")[0])
        self.assertEqual(float(self.one("line.goal", "y1")), round(FLOOR - (FLOOR - TOP) * 0.9, 1))


@unittest.skipUnless(NODE, "node isn't there")
class ByStandIn(Looked, Test):
    make = StandIn


@unittest.skipUnless(webdriver and DRIVER, "Chromium, its driver or selenium isn't there")
class ByBrowser(Looked, Test):
    make = Browser

    def test_on_paper_and_on_a_telephone(self):
        """Nothing is wider than its place, on paper nothing is hidden but what only answers keys, and the browser has nothing to say."""
        made = page_of("validate", "--agents", 2), page_of("decision", "--agents", 2, "--cost", "3/h")
        all_of = "[...document.querySelectorAll('html, figure, p, svg text')]"
        wide = f"return {all_of}.filter(it => it.scrollWidth > it.clientWidth + 1).map(it => it.outerHTML)"
        past = """return [...document.querySelectorAll('svg')].flatMap(svg => [...svg.querySelectorAll('text')].filter(it =>
            it.getBoundingClientRect().right > svg.getBoundingClientRect().right + 1)).map(it => it.outerHTML)"""
        for text in made:
            self.looker.show(text)
            for width in 400, 1280:
                metrics = {"width": width, "height": 900, "deviceScaleFactor": 1, "mobile": False}
                self.looker.driver.execute_cdp_cmd("Emulation.setDeviceMetricsOverride", metrics)
                self.assertEqual(self.looker.driver.execute_script(wide.replace(", svg text", "")), [])
                self.assertEqual(self.looker.driver.execute_script(past), [])
            self.looker.driver.execute_cdp_cmd("Emulation.setEmulatedMedia", {"media": "print"})
            shown = "return [...document.querySelectorAll(arguments[0])].map(it => getComputedStyle(it).display !== 'none')"
            self.assertEqual(set(self.looker.driver.execute_script(shown, "figure, svg, table, h2, p")), {True})
            self.assertEqual(set(self.looker.driver.execute_script(shown, "output, footer")), {False})
            self.looker.driver.execute_cdp_cmd("Emulation.setEmulatedMedia", {"media": ""})
            self.assertEqual([item for item in self.looker.driver.get_log("browser") if "favicon" not in item["message"]], [])


class Charts(Test):
    LEVELS = [
        Level(None, 9, 0.5, 0.5),
        Level(480, 1, 0.25, 0.5),
        Level(510, 2, None, 1.0),
        Level(540, 0, None),
        Level(570, 4, 0.5, 0.75),
        Level(600, 4, 1.0, 0.0),
    ]

    def test_gaps(self):
        """A line is broken at an interval without a share, and at one that isn't there."""
        text = level_chart(self.LEVELS, 30, "x")
        one, other = (re.search(rf'<path class="{kind}" d="([^"]+)"', text)[1] for kind in ("p50", "p90"))
        self.assertEqual((re.sub(r"[\d. ]", "", one), re.sub(r"[\d. ]", "", other)), ("MML", "MLML"))
        text = level_chart([it for it in self.LEVELS if it.minute != 510], 30, "x")
        self.assertEqual([re.sub(r"[\d. ]", "", it) for it in re.findall(r'<path class="p.0" d="([^"]+)"', text)], ["MML", "MML"])
        self.assertEqual((text.count("<circle"), text.count('<rect class="p90"')), (3, 3))

    def test_the_names_of_lines_that_end_together(self):
        for one, other in (0.5, 0.5), (0.5, 0.52), (0.9, 0.1), (0.0, 1.0):
            text = level_chart([Level(0, 1, one, other)], 30, "x")
            ys = [float(it) for it in re.findall(r'<text class="p.0" x="[\d.]+" y="([\d.]+)"', text)]
            self.assertGreaterEqual(abs(ys[0] - ys[1]), 12.9)

    def test_nobody_called(self):
        self.assertIn("Nobody called", level_chart([Level(None, 0, None)], 30, "x"))


class Pages(InFolder):
    def test_it_loads_nothing_and_is_the_same_each_time(self):
        one, other = (page_of.__wrapped__("validate", "--agents", 2) for _ in range(2))
        self.assertEqual(one, other)
        self.assertNotRegex(one.replace("http-equiv", ""), r"https?://|src=|@import|url\(")
        self.assertIn("Content-Security-Policy", one)

    def test_a_caller_who_leaves(self):
        """In the model too, after the recorded wait, and isn't served; the next one then waits less."""
        trace = self.file("t.csv", "source,time,talk,wait,gone\ncalls,0,100,0,0\ncalls,10,50,5,1\ncalls,20,30,80,0\n")
        model, path = self.file("m.txt", "model 1\n# a tick is 1s\nsource calls\nserver desk talk from calls\n"), self.folder / "p.html"
        words = "validate", model, trace, "--node", "desk", "--agents", 1, *WAITS, "--within"
        for within, share in ("100s", "66.7 %"), ("79s", "33.3 %"):
            self.assertEqual(planner(*words, within, "--page", path)[0], 0)
            self.assertIn(f"00:00 to 00:30: 3 calls, answered in time {share} as recorded, {share} in the model", text_of(path))

    def test_no_file_is_overwritten(self):
        words = "validate", MODEL, RECORDED, "--node", "desk", "--agents", 2, *WAITS
        self.refuses(f"{RECORDED}: this is the trace, which is never overwritten", *words, "--page", RECORDED)


if __name__ == "__main__":
    unittest.main()
