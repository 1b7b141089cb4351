"""The stations over time and the jobs one by one on a page, as a reader uses them, by a stand-in and in a browser."""

import re
import unittest
from datetime import datetime

from ground import Test
from looking import DRIVER, NODE, Browser, StandIn, webdriver
from test_looks import CALLS, day
from test_page import many
from test_stations import LABELS, LINE, PARTS, PASSED, crowded, in_pieces, kinds, rows, run_of, span_of, there, three, visits

import mpsim
from mpsim.page import page


class Looking:
    @classmethod
    def setUpClass(cls):
        cls.report = mpsim.run(LINE, rows(5, 40, 14), jobs=True)
        cls.text = "".join(cls.report.lines())

    def setUp(self):
        super().setUp()
        self.looker = self.make()
        self.addCleanup(self.looker.close)

    def texts(self, selector):
        return [text for text, _ in self.looker.all(selector)]

    def attributes(self, selector, name):
        return [attributes.get(name) for _, attributes in self.looker.all(selector)]

    def told(self, name):
        return self.texts(f"[data-told={name}]")[0]

    def boxes(self):
        """Returns the boxes of jobs: record, station, kind, and left and width in percent of the window."""
        found = []
        for _, it in self.looker.all("#units .box"):
            left, wide = (float(re.search(rf"{name}:([\d.]+)%", it["style"])[1]) for name in ("left", "width"))
            found.append((int(it["data-job"]), it["data-station"], it["class"].split()[1], left, wide))
        return found


class Looked(Looking):
    def test_the_busiest_station_is_picked(self):
        """The one with the greatest utilisation, wherever waits are longest."""
        busiest = max(
            (words for words in map(str.split, self.text.splitlines()) if words[0] == "node" and words[-1] != "-"), key=lambda it: float(it[-1])
        )
        self.looker.show(page([self.report]))
        self.assertEqual(self.attributes("g.node.marked", "data-node"), [busiest[1]])
        self.assertEqual(self.attributes("#stations .strip.marked", "data-strip"), [busiest[1]])
        waits = "model 1\nsource s\nserver a x from s\ndelay b =9 from a\nloss c 90 =50 from s2\nsource s2\n"
        made = [("source", "time", "x"), *(("s", 20 * it, 19) for it in range(50)), *(("s2", it, 0) for it in range(10))]
        report = mpsim.run(waits, sorted(made[1:], key=lambda it: it[1]) and [made[0], *sorted(made[1:], key=lambda it: it[1])], jobs=True)
        self.assertTrue(report["a"].util > report["c"].util and report["a"].p90 < report["c"].p90)
        self.looker.show(page([report]))
        self.assertEqual(self.attributes("g.node.marked", "data-node"), ["a"])

    def test_strips_by_keys(self):
        """Interval by interval, the network and a station; up and down, to the ends, and by Enter."""
        self.looker.show(page([self.report]))
        line = run_of(self.report)["line"]
        width, span = line["width"], span_of(self.text)
        names = [name for name, kind in kinds(self.text).items() if kind not in PASSED]
        self.assertEqual(self.texts("#stations .strip b"), ["throughput", *names])
        number, served = there(self.text, "oven")
        numbers, shares = in_pieces(number, width), in_pieces(served, width)
        self.looker.press("#stations", "Home")
        for _ in names:
            self.looker.press("#stations", "ArrowDown")
        for _ in names[names.index("oven") + 1 :]:
            self.looker.press("#stations", "ArrowUp")
        plain = lambda value: f"{three(value):,}".removesuffix(".0")
        for at, (one, other) in enumerate(zip(numbers, shares)):
            begin, end = at * width, min((at + 1) * width, span)
            want = f"{begin:,} to {end:,}, oven: {plain(sum(one) / len(one))} there on average, busy "
            told = self.told("stations")
            self.assertTrue(told.startswith(want), (told, want))
            self.assertAlmostEqual(float(re.search(r"busy ([\d.]+) % of the time", told)[1]), 50 * sum(other) / len(other), delta=0.26)
            self.looker.press("#stations", "ArrowRight")
        self.looker.press("#stations", "Enter")
        self.assertEqual(self.attributes("g.node.marked", "data-node"), ["oven"])
        self.looker.press("#stations", "Home")
        for _ in names:
            self.looker.press("#stations", "ArrowUp")
        came = left = lost = 0
        for at in range(len(numbers)):
            told = self.told("stations")
            came += int(re.search(r": ([\d,]+) came", told)[1])
            left += int(re.search(r", ([\d,]+) left", told)[1])
            lost += int((re.search(r"and ([\d,]+) left without service", told) or [0, 0])[1])
            self.looker.press("#stations", "ArrowRight")
        gone = sum(it[-1] == "lost" and it[1] == "bench" for it in visits(self.text))
        self.assertEqual((came, left, lost), (40, 40 - gone, gone))
        self.assertGreater(gone, 0)
        self.looker.press("#stations", "Enter")
        self.assertEqual(self.attributes("g.node.marked", "data-node"), ["oven"])
        self.looker.press("#stations", "ArrowLeft")
        self.assertTrue(self.told("stations").startswith(f"{(len(numbers) - 2) * width:,} to "))

    def test_strips_are_drawn_as_told(self):
        """The outlines of each strip on one axis: as long as the span, each on its scale; utilisation from 0 to 100 percent."""
        few = mpsim.run("model 2\nsource s\ntrunk t 5 =7 from s\n", [("s", 3 * number) for number in range(20)], jobs=True)
        self.assertLess(max(run_of(few)["line"]["stations"][0]["busy"]), 100)
        for report in few, self.report:
            self.looker.show(page([report]))
            line, span = run_of(report)["line"], report.span
            last = span / line["width"]
            self.assertEqual({float(it.split()[2]) for it in self.attributes("#stations .strip svg", "viewBox")}, {round(last, 3)})
            for station in line["stations"]:
                for kind, values, floor, high, most in (
                    ("number", station["number"], 28, 26, max(station["number"])),
                    ("busy", station["busy"], 42, 12, 100),
                ):
                    paths = self.attributes(f"#stations .strip[data-strip={station['name']}] path.{kind}", "d")
                    self.is_drawn(paths, values, last, floor, high, most)
        self.looker.click("#stations .strip[data-strip=belt] .named", 0)
        self.assertEqual(self.attributes("g.node.marked", "data-node"), ["belt"])
        self.assertEqual(self.attributes("#stations .strip.marked", "data-strip"), ["belt"])

    def is_drawn(self, paths, values, last, floor, high, most):
        """The outline of these values is the only path; without values there is none."""
        if values is None:
            self.assertEqual(paths, [])
            return
        steps = re.findall(r"V([\d.]+)H([\d.]+)", paths[0])
        self.assertEqual(len(steps), len(values))
        for at, ((y, x), value) in enumerate(zip(steps, values)):
            self.assertAlmostEqual(float(y), floor - high * value / most, delta=0.006)
            self.assertAlmostEqual(float(x), min(at + 1, last), delta=0.0006)

    def test_boxes_of_jobs(self):
        """In each window, the boxes of the visits that are there, from the lines; hatched until service begins, then filled."""
        self.looker.show(page([self.report]))
        units, text, rules = run_of(self.report)["units"], self.text, kinds(self.text)
        windows, span = self.texts("#window option"), span_of(self.text)
        seen = set()
        for at, window in enumerate(windows):
            self.looker.pick("#window", at)
            begin, end = (int(it.replace(",", "")) for it in window.split(" to "))
            self.assertEqual(end - begin, units["width"])
            percent = lambda since, until: (
                100 * (max(since, begin) - begin) / (end - begin),
                100 * (min(until, end) - max(since, begin)) / (end - begin),
            )
            want, jobs = [], set()
            for job, node, arrive, wait, depart, how in visits(text):
                stop = {"left": depart, "held": span, "lost": arrive}[how]
                if rules[node] in PASSED or not (arrive < end and (stop > begin or arrive >= begin)):
                    continue
                jobs.add(job)
                parts = (
                    {"lost": [("lost", arrive, arrive)], "held": [("wait", arrive, span)]}.get(how)
                    or {
                        "tandem": [("whole", arrive, stop)],
                        "forkjoin": [("whole", arrive, stop)],
                        "delay": [("delay", arrive, stop)],
                        "join": [("wait", arrive, stop)],
                    }.get(rules[node])
                    or [("wait", arrive, arrive + wait)] * (wait > 0) + [("busy", arrive + wait, depart)]
                )
                want += [
                    (job, node, kind, *percent(since, until)) for kind, since, until in parts if since < end and (until > begin or since >= begin)
                ]
            self.assertRegex(self.texts("#units-said")[0], rf"^{len(jobs)} job{'s' * (len(jobs) != 1)} from {window}[.;]")
            found = [it for batch in range(len(self.texts("#batch option"))) for it in (self.looker.pick("#batch", batch), self.boxes())[1]]
            self.assertEqual(len(found), len(want))
            for one, other in zip(sorted(found, key=lambda it: it[:3]), sorted(want)):
                self.assertEqual(one[:3], other[:3])
                self.assertAlmostEqual(one[3], max(0, other[3]), delta=0.006)
                self.assertAlmostEqual(one[4], max(0, other[4]), delta=0.006)
            seen |= {it[2] for it in found}
        self.assertEqual(seen, {"wait", "busy", "whole", "delay", "lost"})

    def test_jobs_by_keys(self):
        self.looker.show(page([self.report]))
        self.looker.press("#units", "ArrowDown")
        job = int(self.attributes("#units .unit", "data-job")[0])
        begin, end = (int(it.replace(",", "")) for it in self.texts("#window option")[self.chosen("#window")].split(" to "))
        mine = sorted((it for it in visits(self.text) if it[0] == job and kinds(self.text)[it[1]] not in PASSED), key=lambda it: it[2])
        mine = [it for it in mine if it[2] < end and ((it[4] or it[2]) > begin or it[2] >= begin)]
        for at, (_, node, arrive, wait, depart, how) in enumerate(mine):
            told = self.told("units")
            self.assertTrue(told.startswith(f"Record {job}, visit {at + 1} of {len(mine)} here, {node}: "), told)
            if how == "lost":
                self.assertTrue(told.endswith(f"lost at {arrive:,}"))
            elif kinds(self.text)[node] == "delay":
                self.assertTrue(told.endswith(f"{arrive:,} to {depart:,}, delay of {depart - arrive} ticks"))
            else:
                self.assertTrue(told.endswith(f"{arrive:,} to {depart:,}, waited {wait} ticks, service {depart - arrive - wait} ticks"), told)
            self.assertEqual(set(self.attributes("#units .box.marked", "data-station")), {node})
            self.looker.press("#units", "ArrowRight")
        self.looker.press("#units", "End")
        self.assertTrue(self.told("units").startswith(f"Record {self.attributes('#units .unit', 'data-job')[-1]}, visit 1 of "))
        self.looker.press("#units", "ArrowUp")
        self.assertTrue(self.told("units").startswith(f"Record {self.attributes('#units .unit', 'data-job')[-2]}, visit 1 of "))
        self.looker.press("#units", "Home")
        self.assertTrue(self.told("units").startswith(f"Record {job}, visit 1 of "))
        self.looker.click("#units .unit .box", 0)
        self.assertTrue(self.told("units").startswith(f"Record {job}, visit 1 of "))

    def chosen(self, selector):
        return next(at for at, it in enumerate(self.attributes(f"{selector} option", "selected")) if it is not None)

    def test_parts_of_a_job_have_lanes(self):
        """No box of a job covers another."""
        report = mpsim.run(PARTS, rows(3, names="abc", longest=20), jobs=True)
        self.looker.show(page([report]))
        lanes = set()
        for at in range(len(self.texts("#window option"))):
            self.looker.pick("#window", at)
            mine = []
            for _, it in self.looker.all("#units .box"):
                left, wide, top = (float(re.search(rf"{name}:([\d.]+)", it["style"])[1]) for name in ("left", "width", "top"))
                mine.append((int(it["data-job"]), top, left, left + wide))
                lanes.add(top)
            mine.sort()
            for (job, top, _, end), (other, lane, begin, _) in zip(mine, mine[1:]):
                self.assertTrue((other, lane) != (job, top) or begin >= end - 0.02, mine)
        self.assertTrue(lanes > {0.0, 18.0} or lanes == {0.0, 18.0}, lanes)

    def test_what_is_left_out_is_told(self):
        report = mpsim.run(CALLS, day(), jobs=True)
        self.looker.show(page([report], tick=1, start=datetime(2026, 3, 2, 6, 30), hour=19800))
        self.assertEqual(self.texts("#window option"), ["12:00 to 13:00"])
        text = "".join(report.lines())
        jobs = {it[0] for it in visits(text) if kinds(text)[it[1]] not in PASSED and it[2] < 23400 and ((it[4] or it[2]) > 19800 or it[2] >= 19800)}
        self.assertTrue(self.texts("#units-said")[0].startswith(f"{len(jobs)} jobs from 12:00 to 13:00; rows 1 to 40. Other times are left out"))
        self.assertEqual(len(self.texts("#units .unit")), min(40, len(jobs)))
        self.assertEqual(len(self.texts("#batch option")), -(-len(jobs) // 40))
        self.looker.pick("#batch", len(self.texts("#batch option")) - 1)
        self.assertEqual(len(self.texts("#units .unit")), len(jobs) - 40 * (len(self.texts("#batch option")) - 1))
        self.looker.press("#units", "Home")
        self.assertRegex(
            self.told("units"), r"^Record \d+, visit 1 of \d here, \w+: \d\d:\d\d(:\d\d)? to \d\d:\d\d(:\d\d)?, (waited|delay of) \d+ (s|min)"
        )
        self.looker.show(page([many(3, 32768, 86400)]))
        says = r"^[\d,]+ jobs from [\d,]+ to [\d,]+; the page has the first \d+; rows 1 to 40\. Other times are left out: make"
        self.assertRegex(self.texts("#units-said")[0], says)

    def test_another_run(self):
        """It has its own stations and jobs; a run for which there is no room says so."""
        other = mpsim.run(LINE.replace("oven 2", "oven 3"), rows(6, 40, 14), jobs=True)
        self.looker.show(page([other]))
        want = self.looker.all("#stations path"), self.boxes()
        self.looker.show(page([self.report, other], ["a", "b"]))
        first = self.looker.all("#stations path")
        self.looker.pick("#run", 1)
        wide = lambda found: [len(re.findall("V", it["d"])) > 9 for _, it in found]
        self.assertEqual(self.boxes(), want[1])
        self.assertEqual(wide(self.looker.all("#stations path")), wide(want[0]))
        self.assertNotEqual([it for it in self.looker.all("#stations path")], first)
        self.looker.show(page([self.report] * 12))
        self.looker.pick("#run", 11)
        self.assertEqual(self.texts("#units p"), ["This page has no room for the jobs of this run: make a page of it alone."])


@unittest.skipUnless(NODE, "node isn't there")
class ByStandIn(Looked, Test):
    make = StandIn


@unittest.skipUnless(webdriver and DRIVER, "Chromium, its driver or selenium isn't there")
class ByBrowser(Looked, Test):
    make = Browser

    def test_labels_of_64_nodes(self):
        """None covers another, nor passes its box, with the longest names and long figures."""
        made = [("source", "time", "a"), *(("s", 10**8 * at, 10**8 * (1 + at % 7)) for at in range(300))]
        for shape in "series", "wide":
            for name in (lambda it: f"n{it}"), (lambda it: f"m{it:02}_wwwwwwwwwwwwwwwwwwwwwwwwwww"), (lambda it: f"station_{it}"):
                report = mpsim.run(crowded(shape, name), made)
                self.assertEqual(len(report.nodes), 64)
                self.looker.show(page([report]))
                count, found = self.looker.driver.execute_script(LABELS)
                self.assertEqual(found, [])
                self.assertGreater(count, 64)

    def test_its_places(self):
        """On a screen, on a telephone and on paper: nothing is wider than its place, and the strips share one axis."""
        self.looker.show(page([mpsim.run(CALLS, day(), jobs=True)], tick=1, start=datetime(2026, 3, 2, 6, 30)))
        all_of = "[...document.querySelectorAll('html, figure, p, #stations, #units')]"
        wide = f"return {all_of}.filter(it => it.scrollWidth > it.clientWidth + 1).map(it => it.outerHTML.slice(0, 200))"
        axes = "[...document.querySelectorAll('#stations svg, #stations .times')]"
        edges = f"return [...new Set({axes}.map(it => Math.round(it.getBoundingClientRect().left)))]"
        marks = "return [...document.querySelectorAll('.times')].map(it => [...it.children].map(one => one.getBoundingClientRect()))"
        marks += ".every(all => all.every((it, at) => !at || it.left >= all[at - 1].right))"
        for width in 400, 800, 1280:
            metrics = {"width": width, "height": 900, "deviceScaleFactor": 1, "mobile": False}
            self.looker.driver.execute_cdp_cmd("Emulation.setDeviceMetricsOverride", metrics)
            self.assertEqual(self.looker.driver.execute_script(wide), [], width)
            self.assertEqual(len(self.looker.driver.execute_script(edges)), 1)
            self.assertTrue(self.looker.driver.execute_script(marks))
        self.looker.driver.execute_cdp_cmd("Emulation.setEmulatedMedia", {"media": "print"})
        shown = "return [...document.querySelectorAll(arguments[0])].every(it => getComputedStyle(it).display !== 'none')"
        self.assertTrue(self.looker.driver.execute_script(shown, ".strip, .box, #stations svg, table, #units-said"))
        self.assertEqual([item for item in self.looker.driver.get_log("browser") if "favicon" not in item["message"]], [])

    def test_waiting_and_service_differ_without_colours(self):
        self.looker.show(page([self.report]))
        looks = (
            "return [...arguments[0]].map(kind => getComputedStyle(document.querySelector(`.legend .${kind}`)).backgroundImage.includes('gradient'))"
        )
        self.assertEqual(self.looker.driver.execute_script(looks, ["wait", "busy", "whole"]), [True, False, True])


if __name__ == "__main__":
    unittest.main()
