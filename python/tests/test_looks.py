"""The page as its script makes it: after clicks, keys and choices it shows the figures of the report's text. It is viewed in Chromium, if there is a
driver and selenium, and in the stand-in run by node (looking.py)."""

import http.server
import random
import re
import threading
import unittest
from datetime import datetime, timedelta

from ground import Test, nodes_of, text_of, waits_of
from looking import DRIVER, NODE, Browser, StandIn, webdriver
from test_page import MODEL, figures_of, many, number

import mpsim
from mpsim.page import page

CALLS = text_of(MODEL).replace("bound 1000\n", "")


def day(seed=1, calls=700):
    """A made-up day: rows of calls that arrive in a wave, with times in seconds."""
    draw, rows = random.Random(seed), [("source", "time", "g", "kind", "e", "a", "b")]
    for time in sorted(int(draw.triangular(0, 50000, 20000)) for _ in range(calls)):
        demands = 1 + int(draw.expovariate(1 / 3)), int(draw.random() < 0.2), 30 + int(draw.expovariate(1 / 200))
        rows.append((draw.choice(["phone", "phone", "web"]), time, *demands, 20 + int(draw.expovariate(1 / 40)), 5 + int(draw.expovariate(1 / 14))))
    return rows


def places(number):
    return CALLS.replace("loss expert 2", f"loss expert {number}")


class Looking:
    """The common tests; `make` makes the viewer."""

    @classmethod
    def setUpClass(cls):
        cls.report = mpsim.run(CALLS, day(), jobs=True)
        cls.text = "".join(cls.report.lines())
        cls.several = [mpsim.run(places(item), day(), jobs=True) for item in (2, 3, 6)]

    def setUp(self):
        super().setUp()
        self.looker = self.make()
        self.addCleanup(self.looker.close)

    def texts(self, selector):
        return [text for text, _ in self.looker.all(selector)]

    def attributes(self, selector, name):
        return [attributes.get(name) for _, attributes in self.looker.all(selector)]

    def nodes(self):
        """Returns the places of the boxes, by name."""
        return {name: at for at, name in enumerate(self.attributes("g.node", "data-node"))}

    def shows(self, text, name):
        """The cards show what a report's text says about a node."""
        values = zip(map(number, self.attributes(".card", "data-v")), map(number, self.texts(".card b")))
        cards = dict(zip(self.attributes(".card", "data-figure"), values))
        self.assertEqual(cards, {word: (value, value) for word, value in figures_of(text)[name].items()}, name)


class Looked(Looking):
    def test_each_node_is_clicked(self):
        self.looker.show(page([self.report]))
        for name, at in self.nodes().items():
            self.looker.click("g.node", at)
            self.shows(self.text, name)
            self.assertEqual(self.attributes("g.node[aria-pressed=true]", "data-node"), [name])
            self.assertEqual(self.attributes("#nodes tr.marked", "data-node"), [name])
        self.looker.click("#nodes tr[data-node=expert] td")
        self.shows(self.text, "expert")
        self.looker.pick("#node", self.texts("#node option").index("wrap"))
        self.shows(self.text, "wrap")
        self.assertEqual(self.texts("#pictures p"), ["This node has no waits of its own."])
        self.assertEqual(self.attributes("#pictures svg", "data-picture"), ["number"])
        self.looker.pick("#node", self.texts("#node option").index("menu"))
        self.assertEqual(self.texts("#pictures p"), ["No job can wait at this node, or none arrived."])

    def test_node_to_begin_with(self):
        """The one with the greatest utilisation."""
        self.looker.show(page([self.report]))
        busiest = max((node for node in nodes_of(self.text) if node["util"] != "-"), key=lambda item: float(item["util"]))["name"]
        self.assertEqual(self.attributes("g.node.marked", "data-node"), [busiest])
        self.shows(self.text, busiest)

    def test_colours_as_one_chooses(self):
        """The colour rules respect the page's own choice."""
        self.looker.show(page([self.report]))
        for at, theme in (1, "light"), (2, "dark"), (0, ""):
            self.looker.pick("#theme", at)
            self.assertEqual(self.attributes("html", "data-theme"), [theme])

    def test_by_keys_alone(self):
        self.looker.show(page([self.report]))
        self.looker.press("g.node", "Enter", self.nodes()["expert"])
        self.shows(self.text, "expert")
        self.looker.press("[data-picture=time]", "Home")
        came = lost = longest = 0
        before, texts = None, []
        while (text := self.texts("[data-told=time]")[0]) != before:
            before = text
            texts.append(text)
            came += int(re.search(r": ([\d,]+) arrived", text)[1].replace(",", ""))
            lost += int((re.search(r"([\d,]+) lost", text) or [0, "0"])[1].replace(",", ""))
            longest = max(longest, int((re.search(r"longest wait was ([\d,]+)", text) or [0, "0"])[1].replace(",", "")))
            self.looker.press("[data-picture=time]", "ArrowRight")
        node = next(node for node in nodes_of(self.text) if node["name"] == "expert")
        self.assertEqual((came, lost, longest), (int(node["in"]), int(node["lost"]), int(node["max"])))
        self.looker.press("[data-picture=time]", "ArrowLeft")
        self.assertEqual(self.texts("[data-told=time]"), [texts[-2]])
        self.looker.press("[data-picture=waits]", "End")
        self.assertEqual(self.texts("[data-told=waits]"), [f"100.0 % waited {int(node['max']):,} or less"])
        self.looker.press("[data-picture=waits]", "Home")
        waits = waits_of(self.text, "expert")
        share = 100 * sum(wait <= min(waits) for wait in waits) / len(waits)
        self.assertEqual(self.texts("[data-told=waits]"), [f"{share:.1f} % waited {min(waits):,} or less"])

    def test_pieces_of_time(self):
        """Interval by interval, from the job lines."""
        self.looker.show(page([self.report]))
        self.looker.click("g.node", self.nodes()["expert"])
        width = int(re.search(r"Intervals of ([\d,]+) ticks", self.texts("figcaption")[0])[1].replace(",", ""))
        visits = [line.split() for line in self.text.splitlines() if line.startswith("job ") and line.split()[2] == "expert"]
        span = int(re.search(r" span (\d+)", self.text)[1])
        self.looker.press("[data-picture=time]", "Home")
        for at in range(span // width + 1):
            mine = [visit for visit in visits if at * width <= int(visit[4]) < (at + 1) * width]
            waits = sorted(int(item[6]) for item in mine if item[5] == "wait")
            want = f"{at * width:,} to {(at + 1) * width:,}: {len(mine):,} arrived"
            want += f", {len(mine) - len(waits):,} lost or held" if len(waits) < len(mine) else ""
            if waits:
                half, most = waits[(len(waits) + 1) // 2 - 1], waits[(9 * len(waits) + 9) // 10 - 1]
                want += f"; half waited {half:,} or less, 9 of 10 {most:,} or less, the longest wait was {waits[-1]:,}"
            self.assertEqual(self.texts("[data-told=time]"), [want])
            self.looker.press("[data-picture=time]", "ArrowRight")

    def test_tables_sort(self):
        self.looker.show(page([self.report]))
        figures = figures_of(self.text)
        heads = self.texts("#nodes thead button")
        for at, word in enumerate(heads):
            values = {name: name if word == "node" else kind if word == "kind" else figures[name].get(word) for name, kind in self.kinds().items()}
            before = self.attributes("#nodes tbody tr", "data-node")
            for is_up in (True, False) if word == "node" else (False, True):
                self.looker.click("#nodes thead button", at)
                names = self.attributes("#nodes tbody tr", "data-node")
                # Missing values come last, and equal ones keep their order.
                there = [item for item in before if values[item] is not None]
                want = sorted(there, key=values.get) if is_up else sorted(there, key=values.get, reverse=True)
                self.assertEqual(names, want + [item for item in before if values[item] is None], (word, is_up))
                sorts = self.attributes("#nodes thead th", "aria-sort")
                self.assertEqual([sort for sort in enumerate(sorts) if sort[1] != "none"], [(at, "ascending" if is_up else "descending")])
                before = names

    def kinds(self):
        return {node["name"]: node["kind"] for node in nodes_of(self.text)}

    def test_share_within(self):
        """Of the arrivals and of the departures; exact where all waits are stored, and between two bounds otherwise."""
        self.looker.show(page([self.report]))
        for name in "desk", "expert":
            self.looker.click("g.node", self.nodes()[name])
            waits, came = waits_of(self.text, name), int(next(node["in"] for node in nodes_of(self.text) if node["name"] == name))
            self.assertEqual(self.texts("#of-all") == self.texts("#of-departed"), len(waits) == came)
            for ticks in (0, 1, 20, 60, 123, 500, *sorted(waits)[:: len(waits) // 9], max(waits) - 1, max(waits), max(waits) + 1, 10**6):
                self.looker.type("#ticks", str(ticks))
                for selector, whole in ("#of-all", came), ("#of-departed", len(waits)):
                    told = [float(found) for found in re.findall(r"([\d.]+) %", self.texts(selector)[0])]
                    share = 100 * sum(wait <= ticks for wait in waits) / whole
                    self.assertTrue(told[0] - 0.051 <= share <= told[-1] + 0.051, (name, ticks, told, share))
                    self.assertLess(told[-1] - told[0], 1.1)
                    if ticks >= max(waits) or ticks < min(waits):
                        self.assertEqual(told, [round(share, 1)])

    def test_few_waits_are_exact(self):
        report = mpsim.run("model 1\nsource s\nserver d =4 from s\n", [("s", number) for number in range(9)], jobs=True)
        self.looker.show(page([report]))
        # The waits are 0, 3, 6 and so on to 24.
        for ticks, share in (2, "11.1 %"), (3, "22.2 %"), (5, "22.2 %"), (6, "33.3 %"), (23, "88.9 %"), (24, "100.0 %"):
            self.looker.type("#ticks", str(ticks))
            self.assertEqual(self.texts("#of-all"), [share])

    def test_runs_side_by_side(self):
        self.looker.show(page(self.several, ["2", "3", "6"]))
        self.looker.click("g.node", self.nodes()["expert"])
        figures = [figures_of(str(item)) for item in self.several]
        words = self.texts("#figure option")
        self.assertEqual(words, list(self.texts("#nodes thead button")[2:]))
        for at, word in enumerate(words):
            self.looker.pick("#figure", at)
            values = [figure["expert"][word] for figure in figures]
            dots = dict(zip(self.attributes("#curve circle", "data-label"), map(number, self.attributes("#curve circle", "data-v"))))
            self.assertEqual(dots, dict(zip("236", values)))
            rows = [[number(text) for text in self.texts(f"#compared tr[data-run='{run}'] td")] for run in range(3)]
            self.assertEqual([row[1:] for row in rows], [[figure["expert"][one] for one in words] for figure in figures])
            self.assertEqual([row[0] for row in rows], [round(value - values[0], 4) for value in values])
        for at, report in enumerate(self.several):
            self.looker.pick("#run", at)
            for node in "desk", "expert":
                self.looker.click("g.node", self.nodes()[node])
                self.shows(str(report), node)
            self.assertEqual(self.attributes("#compared tr.marked", "data-run"), [str(at)])
            row = dict(zip(self.texts("#nodes thead button")[2:], map(number, self.texts("#nodes tr[data-node=desk] td")[1:])))
            self.assertEqual(row, figures[at]["desk"])

    def test_compared_rows_sort_by_their_labels(self):
        """As numbers if all are, else as text."""
        for labels, want in (["10", "9", "100"], ["9", "10", "100"]), (["b 10", "a", "b 9"], ["a", "b 10", "b 9"]):
            self.looker.show(page(self.several, labels))
            self.looker.click("#compared thead button")
            self.assertEqual(self.texts("#compared tbody th"), want)

    def test_the_figures_of_another_run_are_not_sorted(self):
        """The table shows that it is sorted as long as it has the figures by which it was sorted."""
        self.looker.show(page(self.several))
        self.looker.click("#nodes thead button", 3)
        self.assertEqual(self.attributes("#nodes thead th", "aria-sort").count("none"), len(self.texts("#nodes thead th")) - 1)
        self.looker.click("g.node", 2)
        self.assertIn("descending", self.attributes("#nodes thead th", "aria-sort"))
        self.looker.pick("#run", 1)
        self.assertEqual(set(self.attributes("#nodes thead th", "aria-sort")), {"none"})

    def test_network_of_another_run(self):
        """It is the one on a page of that run alone; so is the line above."""
        calm = mpsim.run(places(6).replace("server greet g", "server greet =0"), day(2, 30), jobs=True)
        for one, other in (self.report, calm), (calm, self.report):
            self.looker.show(page([other, one], ["x", "y"]))
            self.looker.pick("#run", 1)
            found = self.looker.all("svg.network g, svg.network path, svg.network rect, svg.network text, svg.network title"), self.texts("#facts")
            self.looker.show(page([one]))
            chosen = self.attributes("g.node.marked", "data-node")
            if chosen != [next(item[1]["data-node"] for item in found[0] if "marked" in item[1].get("class", ""))]:
                self.looker.click("g.node", self.nodes()[next(item[1]["data-node"] for item in found[0] if "marked" in item[1].get("class", ""))])
            want = self.looker.all("svg.network g, svg.network path, svg.network rect, svg.network text, svg.network title"), self.texts("#facts")
            self.assertEqual(found[1], want[1])
            for (text, attributes), (other_text, others) in zip(found[0], want[0]):
                self.assertEqual(text, other_text)
                for name in {*attributes, *others} - {"class", "stroke-width"}:
                    self.assertEqual(attributes.get(name), others.get(name), (text, name))
                self.assertEqual(set(attributes.get("class", "").split()), set(others.get("class", "").split()), text)
                self.assertAlmostEqual(float(attributes.get("stroke-width", 0)), float(others.get("stroke-width", 0)), delta=0.11)

    def test_share_within_is_a_figure(self):
        sweep = mpsim.sweep(day(), {item: places(item) for item in (1, 2, 4)}, jobs=True)
        self.looker.show(page(sweep.reports().values(), sweep, within=60))
        self.looker.click("g.node", self.nodes()["expert"])
        self.assertEqual(self.texts("#figure option")[0], "within 60")
        dots = dict(zip(self.attributes("#curve circle", "data-label"), map(number, self.attributes("#curve circle", "data-v"))))
        want = {}
        for label, it in sweep.items():
            text = "".join(it.report.lines())
            came = int(next(node["in"] for node in nodes_of(text) if node["name"] == "expert"))
            want[str(label)] = round(sum(wait <= 60 for wait in waits_of(text, "expert")) / came, 4)
        self.assertEqual(dots, want)

    def seconds_of(self, caption):
        """Returns the length of an interval that a caption gives."""
        number_, unit = re.search(r"Intervals of (\d+) (s|min|h|d)\.", caption).groups()
        return int(number_) * {"s": 1, "min": 60, "h": 3600, "d": 86400}[unit]

    def test_waits_in_minutes(self):
        """Wherever the length of a tick is known: in cards, in charts and on their axes, and what they say."""
        report = mpsim.run("model 1\nsource s\nserver d =16 from s\n", [("s", number * 10) for number in range(400)], jobs=True)
        self.assertEqual(waits_of("".join(report.lines()), "d"), [6 * number for number in range(400)])
        self.looker.show(page([report], tick=0.5))
        # Halves of seconds: the 200th, the 360th and the last of 0, 3, 6, ... seconds.
        cards = dict(zip(self.attributes(".card", "data-figure"), self.texts(".card b")))
        want = {"p50": "9 min 57 s", "p90": "17 min 57 s", "p99": "19 min 45 s", "max": "19 min 57 s", "mean wait": "9 min 58 s"}
        self.assertEqual({name: cards[name] for name in want}, want)
        self.looker.press("[data-picture=waits]", "End")
        self.assertEqual(self.texts("[data-told=waits]"), ["100.0 % waited 19 min 57 s or less"])
        self.looker.press("[data-picture=time]", "Home")
        longest = 3 * (self.seconds_of(self.texts("figcaption")[0]) // 5 - 1)
        says = "the longest wait was " + (f"{longest // 60} min {longest % 60} s" if longest > 60 else f"{longest} s")
        self.assertTrue(self.texts("[data-told=time]")[0].endswith(says), self.texts("[data-told=time]"))
        for name, mark in ("time", "5 min"), ("waits", "10 min"):
            self.assertIn(mark, self.texts(f"[data-picture={name}] .axis text"))
        self.assertEqual([it for it in self.texts("figcaption") + self.texts(".axis text") if "ticks" in it], [])

    def test_times_of_the_day(self):
        """Ticks of half a second from 23:00, past midnight, as in datetime."""
        rows = [("s", number * 900) for number in range(40)]
        report = mpsim.run("model 1\nsource s\nserver d =1000 from s\n", rows, jobs=True)
        for start, first in (datetime(2026, 2, 28, 23, 0), "23:00 to 23:10: 2 arrived"), (None, "00:00 to 00:10: 2 arrived"):
            self.looker.show(page([report], tick=0.5, start=start))
            self.looker.press("[data-picture=time]", "Home")
            told = self.texts("[data-told=time]")[0]
            width = self.seconds_of(self.texts("figcaption")[0])
            came = sum(number * 450 < width for number in range(40))
            begin = start or datetime(2000, 1, 1)
            end = begin + timedelta(seconds=width)
            self.assertTrue(told.startswith(f"{begin:%H:%M} to {end:%H:%M}: {came} arrived"), told)
        long = mpsim.run("model 1\nsource s\nserver d =9 from s\n", [("s", number * 86400 * 7) for number in range(30)], jobs=True)
        self.looker.show(page([long], tick=1, start=datetime(2026, 2, 27, 6, 30)))
        self.looker.press("[data-picture=time]", "End")
        width = self.seconds_of(self.texts("figcaption")[0])
        last = datetime(2026, 2, 27, 6, 30) + timedelta(seconds=(29 * 86400 * 7 + 9) // width * width)
        self.assertEqual(width % 86400, 0)
        told = self.texts("[data-told=time]")[0]
        self.assertTrue(told.startswith(f"{last:%Y-%m-%d %H:%M} to "), told)
        self.assertTrue(any(re.fullmatch(r"2026-\d\d-\d\d", text) for text in self.texts(".axis text")))

    def test_times_after_all_dates(self):
        """If dates with a time are read as ticks, days are numbered."""
        for time in 20260302080017, 86400 * 366 * 8000, 0:
            report = mpsim.run("model 1\nsource s\nserver d =9 from s\n", [("s", time), ("s", time + 86400 * 3)], jobs=True)
            self.looker.show(page([report], tick=1, start=datetime(2026, 3, 2)))
            self.looker.press("[data-picture=time]", "End")
            self.assertEqual(len(self.texts("#pictures figure")), 3)
            last = self.texts("[data-told=time]")[0]
            self.assertRegex(last, r" to 2026-03-0\d \d\d:00: " if time == 0 else r" to day \d+ \d\d:\d\d: ")

    def test_numbers_that_no_double_holds(self):
        report = many(2, 4096, (1 << 60) + 1)
        self.looker.show(page([report, report]))
        self.looker.click("g.node", 1)
        shown = f"{(1 << 60) + 1:,}"
        self.assertEqual(self.texts(".card[data-figure=max] b"), [shown])
        self.assertIn(shown, self.texts("#nodes tr[data-node=n0] td"))
        self.looker.pick("#run", 1)
        self.assertIn(shown, self.texts("#nodes tr[data-node=n0] td"))
        self.looker.press("[data-picture=waits]", "End")
        self.assertEqual(self.texts("[data-told=waits]"), [f"100.0 % waited {max(report.visits['n0'].raw_wait):,} or less"])

    def test_report_without_jobs(self):
        self.looker.show(page([mpsim.run(CALLS, day())]))
        self.assertIn("This report has no lines of jobs", self.texts("#pictures p")[0])
        self.shows(self.text, self.attributes("g.node.marked", "data-node")[0])

    def test_a_run_without_the_node(self):
        """From another network: what it doesn't have is left blank."""
        other = mpsim.run("model 1\nsource phone\nserver desk =4 from phone\n", [("phone", 0)], jobs=True)
        self.looker.show(page([self.report, other], ["a", "b"]))
        self.looker.pick("#run", 1)
        self.looker.click("g.node", self.nodes()["expert"])
        self.assertEqual(set(self.texts(".card b")), {"–"})
        self.assertEqual(self.texts("#compared tr[data-run='1'] td")[0], "–")


@unittest.skipUnless(NODE, "node isn't there")
class ByStandIn(Looked, Test):
    make = StandIn


@unittest.skipUnless(webdriver and DRIVER, "Chromium, its driver or selenium isn't there")
class ByBrowser(Looked, Test):
    make = Browser

    def test_it_says_nothing(self):
        self.looker.show(page(self.several))
        driver = self.looker.driver
        self.assertEqual(driver.execute_script('return performance.getEntriesByType("resource").length'), 0)
        self.assertEqual([item for item in driver.get_log("browser") if "favicon" not in item["message"]], [])

    def test_nothing_is_cut_off(self):
        """In a window of 1200 by 1000, with another column, nothing is wider than its place."""
        sweep = mpsim.sweep(day(), {item: places(item) for item in (1, 2, 4)}, jobs=True)
        for made in page([self.report]), page(sweep.reports().values(), sweep, within=600):
            self.looker.show(made)
            script = (
                "return [...document.querySelectorAll('html, .scroll, figure, p')]"
                ".filter(it => it.scrollWidth > it.clientWidth).map(it => it.outerHTML)"
            )
            self.assertEqual(self.looker.driver.execute_script(script), [])

    def test_its_policy_lets_it_ask_for_nothing(self):
        """The same page from a server: not even its own server gets a request."""
        made = page([self.report])

        class Handler(http.server.BaseHTTPRequestHandler):
            asked = []

            def do_GET(self):
                self.asked.append(self.path)
                self.send_response(200)
                self.send_header("Content-Type", "text/html; charset=utf-8")
                self.end_headers()
                self.wfile.write(made.encode())

            def log_message(self, *_):
                pass

        server = http.server.ThreadingHTTPServer(("127.0.0.1", 0), Handler)
        thread = threading.Thread(target=server.serve_forever)
        thread.start()
        self.addCleanup(thread.join)
        self.addCleanup(server.server_close)
        self.addCleanup(server.shutdown)
        self.looker.driver.get(f"http://127.0.0.1:{server.server_port}/page")
        told = self.looker.driver.execute_async_script("fetch('/data').then(() => arguments[0]('came'), () => arguments[0]('blocked'));")
        self.assertEqual(told, "blocked")
        self.assertLessEqual(set(Handler.asked), {"/page", "/favicon.ico"})


if __name__ == "__main__":
    unittest.main()
