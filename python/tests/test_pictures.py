"""The chart of the number in a node over time, and a pool on a page, as the page's script makes them (test_looks.py has the others)."""

import re
import unittest

from ground import Test, nodes_of, waits_of
from looking import DRIVER, NODE, Browser, StandIn, webdriver
from test_looks import Looking, day, places
from test_page import number

import mpsim
from mpsim.agents.queues import Queue
from mpsim.page import page
from mpsim.traces import Trace


class Pictures(Looking):
    def test_number_over_time(self):
        """Interval by interval, from the job lines, at a node that loses some, and at a delay."""
        self.looker.show(page([self.report]))
        span = int(re.search(r" span (\d+)", self.text)[1])
        for name in "expert", "wrap":
            self.looker.click("g.node", self.nodes()[name])
            captions = self.texts("figcaption")
            width = int(re.search(r"interval of ([\d,]+) ticks", captions[1 if name == "expert" else 0])[1].replace(",", ""))
            mine = [line for line in map(str.split, self.text.splitlines()) if line[0] == "job" and line[2] == name and line[5] == "wait"]
            stays = [(int(item[4]), int(item[8])) for item in mine]
            steps = {}
            for begin, end in stays:
                steps[begin], steps[end] = steps.get(begin, 0) + 1, steps.get(end, 0) - 1
            there, number = [], 0
            for tick in range(span):
                number += steps.get(tick, 0)
                there.append(number)
            self.looker.press("[data-picture=number]", "Home")
            pieces = [there[at : at + width] for at in range(0, span, width)]
            # The lines: 198 high at the maximum, and 12 from the top.
            for kind, values in ("max", list(map(max, pieces))), ("p50", [sum(piece) / len(piece) for piece in pieces]):
                path = self.attributes(f"[data-picture=number] path.{kind}", "d")[0]
                drawn = [float(found) for found in re.findall(r"[ML][\d.]+ ([\d.]+)", path)]
                self.assertEqual(len(drawn), len(pieces))
                for y, value in zip(drawn, values):
                    self.assertAlmostEqual(y, 210 - 198 * value / max(map(max, pieces)), delta=0.11)
            names = [text for text in self.texts("[data-picture=number] text.max") + self.texts("[data-picture=number] text.p50")]
            self.assertEqual(names, ["max", "mean"])
            for at, mine in zip(range(0, span, width), pieces):
                mean = f"{round(sum(mine) / len(mine), 3):.3f}".rstrip("0").rstrip(".")
                want = f"{at:,} to {at + len(mine):,}: {mean} in the node on average, {max(mine)} at most"
                self.assertEqual(self.texts("[data-told=number]"), [want])
                self.looker.press("[data-picture=number]", "ArrowRight")

    def test_one_curve_a_load(self):
        """Runs by agents and by load: the number with more values is the axis, and each load has a line of its own, in rising order."""
        runs = {(places_, load): mpsim.run(places(places_), day(load, 300), jobs=True) for load in (2, 5) for places_ in (6, 2, 3)}
        self.looker.show(page(runs.values(), runs))
        self.looker.click("g.node", self.nodes()["expert"])
        self.looker.pick("#figure", self.texts("#figure option").index("mean wait"))
        self.assertEqual(self.attributes("#curve path.share", "data-curve"), ["2", "5"])
        self.assertEqual(self.texts("#curve text.curve"), ["2", "5"])
        labels, *both = (self.attributes("#curve circle", name) for name in ("data-label", "cx", "cy"))
        dots = dict(zip(labels, zip(*both)))
        self.assertEqual(set(dots), {f"{one}, {load}" for one, load in runs})
        for load, path in zip((2, 5), self.attributes("#curve path.share", "d")):
            self.assertEqual(re.findall(r"[ML]([\d.]+) ([\d.]+)", path), [dots[f"{it}, {load}"] for it in (2, 3, 6)])
        self.assertEqual(len(set(self.attributes("#curve path.share", "stroke-dasharray"))), 2)
        # Plain labels have one line; labels without a number one by one.
        for labels, curves in ([2, 3, 6], [""]), ([("a", "b"), ("a", "c"), ("d", "e")], [""]), (["x", ("a", 1), ("b", 2)], [""]):
            self.looker.show(page(self.several, labels))
            self.assertEqual(self.attributes("#curve path.share", "data-curve"), curves)

    def test_the_time_to_be_served_within(self):
        """The field begins with the time that the page was made for, and shows the shares of it; without one with the median."""
        self.looker.show(page([self.report], within=60))
        self.looker.click("g.node", self.nodes()["expert"])
        self.assertEqual(self.attributes("#ticks", "value"), ["60"])
        waits, came = waits_of(self.text, "expert"), int(next(node["in"] for node in nodes_of(self.text) if node["name"] == "expert"))
        told = [float(found) for found in re.findall(r"([\d.]+) %", self.texts("#of-all")[0])]
        self.assertTrue(told[0] - 0.051 <= 100 * sum(wait <= 60 for wait in waits) / came <= told[-1] + 0.051)
        self.looker.show(page([self.report]))
        self.looker.click("g.node", self.nodes()["expert"])
        self.assertEqual(self.attributes("#ticks", "value"), [next(node["p50"] for node in nodes_of(self.text) if node["name"] == "expert")])

    def test_a_pool(self):
        """Its box, cards and charts show the waits in its queue; without job lines its box has the mean wait, in each run."""
        rows = [["calls", time, talk] for time, talk in (((at * 37) % 500, 3 + (at * at) % 17) for at in range(120))]
        trace = Trace("t.csv", ["source", "time", "talk"], [list(map(str, row)) for row in rows])
        model, trace = Queue("model 1\nsource calls\nserver desk talk from calls\n", trace, "desk").with_pool(3)
        whole, short = (mpsim.run(model, trace.lines(), jobs=item) for item in (True, False))
        lines = [line.split() for line in "".join(whole.lines()).splitlines() if line.split()[2:3] == ["desk_queue"] and line.startswith("job ")]
        waits = sorted(int(line[8]) - int(line[4]) for line in lines)
        # Of 120 the 60th, the 108th and the 119th.
        want = {"in": 120, "lost": 0, "mean wait": round(sum(waits) / 120, 3)}
        want.update(zip(("p50", "p90", "p99", "max"), (waits[item] for item in (59, 107, 118, 119))))
        self.assertTrue(0 < waits[59] < waits[107] < waits[119])
        self.looker.show(page([whole, short], ["a", "b"]))
        self.looker.click("g.node", self.nodes()["desk"])
        cards = dict(zip(self.attributes(".card", "data-figure"), map(number, self.attributes(".card", "data-v"))))
        self.assertEqual({name: cards[name] for name in want}, want)
        self.looker.press("[data-picture=waits]", "End")
        self.assertEqual(self.texts("[data-told=waits]"), [f"100.0 % waited {waits[119]:,} or less"])
        self.looker.type("#ticks", str(waits[59]))
        self.assertEqual(self.texts("#of-all"), [f"{100 * sum(wait <= waits[59] for wait in waits) / 120:.1f} %"])
        box = self.nodes()["desk"]
        for run, text in (1, f"mean wait {want['mean wait']:,}"), (0, f"p90 {waits[107]:,}"):
            self.looker.pick("#run", run)
            self.assertEqual(self.texts("g.node .figures"), ["120 in", "120 in", text])
            self.assertTrue(self.attributes("g.node", "aria-label")[box].endswith(text))
        self.looker.pick("#run", 1)
        self.assertIn("This report has no lines of jobs", self.texts("#pictures p")[0])
        self.looker.click("g.node", self.nodes()["desk_queue"])
        self.assertEqual(self.attributes(".card[data-figure=in]", "data-v"), ["120"])
        # In one run it is a pool, in the other a trunk group that loses calls.
        loses = mpsim.run(model.replace("trunk desk 3", "trunk desk 2"), trace.lines(), jobs=True)
        lost = next(node["lost"] for node in nodes_of(str(loses)) if node["name"] == "desk")
        self.looker.show(page([loses, whole], ["a", "b"]))
        for run, kind, text in (1, "pool", f"p90 {waits[107]:,}"), (0, "trunk", f"120 in, lost {lost}"):
            self.looker.pick("#run", run)
            self.assertEqual((self.texts("g.node .figures")[box], self.texts("#nodes tr[data-node=desk] td")[0]), (text, kind))


@unittest.skipUnless(NODE, "node isn't there")
class ByStandIn(Pictures, Test):
    make = StandIn


@unittest.skipUnless(webdriver and DRIVER, "Chromium, its driver or selenium isn't there")
class ByBrowser(Pictures, Test):
    make = Browser


if __name__ == "__main__":
    unittest.main()
