"""The stations over time and the jobs one by one on a page, beside a count tick by tick from the lines of the report, and as a reader uses them."""

import functools
import json
import random
import re
import unittest
from collections import Counter
from datetime import datetime

from commands import InFolder, planner
from ground import EXAMPLES, Test, text_of
from test_looks import CALLS, day
from test_page import many

import mpsim
from mpsim.agents.queues import Queue
from mpsim.page import page
from mpsim.page.stations import intervals_for
from mpsim.page.units import VISITS
from mpsim.traces import Trace

PASSED = "source", "split", "fork"
LINE = """model 2
source parts
split share 2 turn from parts
server mill1 a from share
server mill2 a from share.1
delay belt =4 from mill1 mill2
tandem lathe b / 2 c from belt
trunk oven 2 d from lathe
loss bench 1 e from oven.1
forkjoin test b | c from oven bench
"""
PARTS = "model 2\nsource s\nfork f 2 from s\nserver a a from f\nserver b b from f.1\njoin j from a b\nloss c 1 c from j\n"


HELD = "model 2\nsource s\nfork f 2 from s\nloss a 1 a from f\nserver b b from f.1\njoin j from a b\nserver c c from j\n"


def rows(seed, count=60, longest=9, names="abcde"):
    """Returns a made trace."""
    draw, time, found = random.Random(seed), 0, [("source", "time", *names)]
    for _ in range(count):
        time += draw.choice([0, 1, 2, 3, 8])
        found.append(("s" if names == "abc" else "parts", time, *(draw.randrange(longest) * (4 if it in "de" else 1) for it in names)))
    return found


@functools.lru_cache(maxsize=None)
def visits(text):
    """Returns the visits of a report's text: record, node, arrival, wait (None if there is none), and departure (None likewise), and how it ends."""
    found = []
    for words in map(str.split, text.splitlines()):
        if words[:1] == ["job"]:
            end = words[5] if words[5] in ("lost", "held") else "left"
            found.append((int(words[1]), words[2], int(words[4]), *((int(words[6]), int(words[8])) if end == "left" else (None, None)), end))
    return found


@functools.lru_cache(maxsize=None)
def kinds(text):
    return {words[1]: words[2] for words in map(str.split, text.splitlines()) if words[:1] == ["node"]}


def span_of(text):
    return int(re.search(r" span (\d+)\n", text)[1])


def there(text, name):
    """Returns, tick by tick, how many are at a node, and how many are served there."""
    span = span_of(text)
    number, served = [0] * span, [0] * span
    for _, node, arrive, wait, depart, end in visits(text):
        if node == name and end != "lost":
            for tick in range(arrive, span if end == "held" else depart):
                number[tick] += 1
                served[tick] += end == "left" and tick >= arrive + wait
    return number, served


def left_at(text, exits, losers):
    """Returns when jobs leave by the first of these nodes, and when those leave that are lost at the others."""
    left = [(job, node, depart) for job, node, _, _, depart, end in visits(text) if node in exits and end == "left"]
    return left, [arrive for _, node, arrive, _, _, end in visits(text) if node in losers and end == "lost"]


def in_pieces(values, width):
    return [values[at : at + width] for at in range(0, len(values), width)]


def three(value):
    return float(f"{value:.3g}")


def data_of(text):
    return json.loads(text.split('id="data">')[1].split("</script>")[0])


def run_of(report, **more):
    return data_of(page([report], **more))["runs"][0]


class Figures(Test):
    def check(self, report, servers, exits, losers):
        text = "".join(report.lines())
        line, span = run_of(report)["line"], span_of(text)
        width = line["width"]
        self.assertEqual([it["name"] for it in line["stations"]], [name for name, kind in kinds(text).items() if kind not in PASSED])
        for station in line["stations"]:
            number, served = there(text, station["name"])
            means = [sum(piece) / len(piece) for piece in in_pieces(number, width)]
            self.assertEqual(station["number"], [three(it) for it in means], station["name"])
            if station["name"] not in servers:
                self.assertIsNone(station["busy"])
                continue
            count = servers[station["name"]]
            want = [three(100 * sum(piece) / count / len(piece)) for piece in in_pieces(served, width)]
            for one, other in zip(station["busy"], want):
                self.assertAlmostEqual(one, other, delta=0.005 * other + 1e-9)
            self.assertEqual(len(station["busy"]), len(want))
        left, lost = left_at(text, exits, losers)
        left = [time for _, _, time in left]
        sources = [name for name, kind in kinds(text).items() if kind == "source"]
        came = [arrive for _, node, arrive, *_ in visits(text) if node in sources]
        counted = lambda times: [sum(min(time // width, len(in_pieces(range(span), width)) - 1) == at for time in times) for at in range(len(means))]
        self.assertEqual(line["through"], {"came": counted(came), "left": counted(left), "lost": counted(lost)})

    def test_random_lines(self):
        """Parallel machines, a delay, a tandem, several servers whose calls overflow, a loss station that loses for good, and a fork-join."""
        for seed in range(10):
            report = mpsim.run(LINE, rows(seed, longest=4 + seed), jobs=True)
            self.check(report, {"mill1": 1, "mill2": 1, "oven": 2, "bench": 1}, ["test"], ["bench"])

    def test_random_parts(self):
        """A fork makes two of each job and a join one again; then some are lost."""
        for seed in range(10):
            report = mpsim.run(PARTS, rows(seed, names="abc", longest=4 + seed), jobs=True)
            self.check(report, {"a": 1, "b": 1, "c": 1}, ["c"], ["c"])

    def test_random_parts_that_are_held(self):
        """A part whose other part is lost stays at the join to the end."""
        for seed in range(5):
            report = mpsim.run(HELD, rows(seed, names="abc", longest=9), jobs=True)
            self.assertGreater(report["j"].held, 0)
            self.check(report, {"a": 1, "b": 1, "c": 1}, ["c"], ["a"])

    def test_the_call_centre(self):
        self.check(mpsim.run(CALLS, day(), jobs=True), {"greet": 1, "expert": 1}, ["wrap"], [])

    def test_without_the_model(self):
        """What the lines show without it; of a fork and a join they don't show how many leave."""
        for model, made, is_there in (LINE, rows(1), True), (PARTS, rows(1, names="abc"), False):
            report = mpsim.run(model, made, jobs=True)
            with_model, report.model = run_of(report)["line"], None
            line = run_of(report)["line"]
            self.assertEqual(line["stations"], with_model["stations"])
            self.assertEqual(line["through"], with_model["through"] if is_there else None)

    def test_a_pool_is_one_station(self):
        """Of all its agents; callers who leave its queue leave without service."""
        made = [[str(it) for it in ("calls", time, talk, 25)] for time, talk in (((at * 37) % 500, 3 + (at * at) % 17) for at in range(120))]
        trace = Trace("t.csv", ["source", "time", "talk", "patience"], made)
        model, trace = Queue("model 1\nsource calls\nserver desk talk from calls\n", trace, "desk").with_pool(3)
        report = mpsim.run(model, trace.lines(), jobs=True)
        text = "".join(report.lines())
        line, width = run_of(report)["line"], run_of(report)["line"]["width"]
        self.assertEqual([it["name"] for it in line["stations"]], ["desk"])
        (queue, _), (served, _) = there(text, "desk_queue"), there(text, "desk")
        both = [one + other for one, other in zip(queue, served)]
        self.assertEqual(line["stations"][0]["number"], [three(sum(piece) / len(piece)) for piece in in_pieces(both, width)])
        want = [100 * sum(piece) / 3 / len(piece) for piece in in_pieces(served, width)]
        for one, other in zip(line["stations"][0]["busy"], want):
            self.assertAlmostEqual(one, other, delta=0.005 * other + 1e-9)
        self.assertEqual(sum(line["through"]["left"]), 120)
        self.assertEqual(run_of(report)["units"]["names"], ["desk"])

    def test_callers_who_leave_a_queue(self):
        with_gone = "model 2\nsource s\nsplit desk_left cut desk_agent 1 from s\ndelay desk_queue desk_wait from desk_left.1\n"
        with_gone += "trunk desk 1 talk from desk_queue\ndelay desk_gone desk_wait from desk_left\n"
        made = [("source", "time", "talk", "desk_agent", "desk_wait"), ("s", 0, 9, 1, 0), ("s", 2, 9, 0, 5), ("s", 4, 6, 1, 5)]
        line = run_of(mpsim.run(with_gone, made, jobs=True))["line"]
        self.assertEqual(line["width"], 1)
        times = lambda values: [at for at, it in enumerate(values) for _ in range(it)]
        self.assertEqual({name: times(it) for name, it in line["through"].items()}, {"came": [0, 2, 4], "left": [9, 14], "lost": [7]})

    def test_nothing_to_show(self):
        for model, made in ("model 1\nsource s\n", []), ("model 1\nsource s\nserver d =0 from s\n", [("s", 0)]), ("model 1\nsource s\n", [("s", 5)]):
            run = run_of(mpsim.run(model, made, jobs=True))
            self.assertEqual((run["line"], run["has"]), (None, True))
        runs = data_of(page([mpsim.run(LINE, rows(1, 9), jobs=True)] * 30))["runs"]
        self.assertEqual([run["line"] is False for run in runs], [False] * 23 + [True] * 7)
        self.assertNotIn('id="stations"', page([mpsim.run("model 1\nsource s\nserver d =4 from s\n", [("s", 5)])]))

    def test_how_many_intervals(self):
        """As many numbers as a page has room for, whatever the stations and the runs."""
        for stations in 1, 2, 9, 63:
            for runs in 1, 2, 5, 40, 1000:
                count, shown = intervals_for(stations, runs)
                self.assertTrue(24 <= count <= 144 and 1 <= shown <= runs)
                self.assertLessEqual(2 * stations * count * shown, 8000)
                self.assertTrue(shown == runs or count == 24)

    def test_the_number_of_servers(self):
        """From the figures of a trunk group alone; where they leave it open, its utilisation isn't shown."""
        for servers in 1, 2, 7, 60:
            made = [("source", "time", "d"), *(("s", at, 50 + at % 9) for at in range(400))]
            report = mpsim.run(f"model 2\nsource s\ntrunk t {servers} d from s\n", made, jobs=True)
            report.model = None
            busy = run_of(report)["line"]["stations"][0]["busy"]
            width, served = run_of(report)["line"]["width"], there("".join(report.lines()), "t")[1]
            for one, piece in zip(busy, in_pieces(served, width)):
                self.assertAlmostEqual(one, 100 * sum(piece) / servers / len(piece), delta=0.005 * one + 1e-9)
        for each in 1, 200:
            few = mpsim.run(f"model 2\nsource s\ntrunk t 200 ={each} from s\n", [("s", 0), ("s", 9000)], jobs=True)
            self.assertIsNone(run_of(few)["line"]["stations"][0]["busy"])


class Units(Test):
    def wanted(self, report, begin=None, end=None):
        """Returns the rows from the lines: all visits, or those that are there at some time of a window."""
        text = "".join(report.lines())
        names, found, span = [name for name, kind in kinds(text).items() if kind not in PASSED], {}, span_of(text)
        for job, node, arrive, wait, depart, end_ in visits(text):
            last = {"left": depart, "held": span, "lost": arrive}[end_]
            if node in names and (begin is None or arrive < end and (last > begin or arrive >= begin)):
                found.setdefault(job, []).append([names.index(node), arrive, {"left": wait, "held": -2, "lost": -1}[end_], last])
        return names, {job: sorted(mine, key=lambda it: (it[1], it[3], it[0])) for job, mine in sorted(found.items())}

    def test_all_of_them(self):
        for model, made in (LINE, rows(1)), (PARTS, rows(2, names="abc")):
            report = mpsim.run(model, made, jobs=True)
            units = run_of(report)["units"]
            names, want = self.wanted(report)
            self.assertEqual((units["names"], [(job, mine) for job, mine in units["rows"]]), (names, list(want.items())))
            self.assertEqual((units["only"], units["units"]), (False, len(want)))

    def test_those_of_one_hour(self):
        """If all are too many: those of the hour in which most come, until there are too many; or those of the hour that is asked for."""
        report = mpsim.run(CALLS, day(), jobs=True)
        begin = datetime(2026, 3, 2, 6, 30)
        for hour in None, 20000:
            units = run_of(report, tick=1, start=begin, hour=hour)["units"]
            came = Counter((int(row[1]) + 1800) // 3600 for row in day()[1:])
            most = min(it for it in came if came[it] == max(came.values()))
            chosen = 3600 * most - 1800 if hour is None else hour
            self.assertEqual((units["width"], units["chosen"], units["only"]), (3600, chosen, True))
            names, want = self.wanted(report, chosen, chosen + 3600)
            self.assertEqual(units["units"], len(want))
            self.assertEqual([(job, mine) for job, mine in units["rows"]], list(want.items())[: len(units["rows"])])
            count = sum(len(mine) for _, mine in units["rows"])
            self.assertLessEqual(count, VISITS)
            if len(units["rows"]) < len(want):
                self.assertGreater(count + len(list(want.values())[len(units["rows"])]), VISITS)

    def test_the_edges_of_an_hour(self):
        """Who leaves as it begins isn't in it, nor who comes as it ends; who comes as it begins is, and who is lost then."""
        made = [("s", 10 * number) for number in range(3000)]
        for model, count in ("server d =10", 360), ("server d =11", 360 + 33), ("loss d 1 =15", 360):
            report = mpsim.run(f"model 1\nsource s\n{model} from s\n", made, jobs=True)
            units = run_of(report, tick=1, hour=3600)["units"]
            _, want = self.wanted(report, 3600, 7200)
            self.assertEqual((units["units"], [job for job, _ in units["rows"]], units["only"]), (count, list(want), True))

    def test_a_page_stays_small(self):
        report = many(3, 32768, 86400)
        units = run_of(report)["units"]
        _, want = self.wanted(report, units["chosen"], units["chosen"] + units["width"])
        self.assertEqual(units["units"], len(want))
        self.assertTrue(units["only"] and len(units["rows"]) < len(want))
        self.assertLessEqual(sum(len(mine) for _, mine in units["rows"]), VISITS)
        runs = data_of(page([many(1, 4096, 86400)] * 12))["runs"]
        self.assertEqual([run["units"] is not False for run in runs], [True] * 9 + [False] * 3)
        self.assertTrue(all(sum(len(mine) for _, mine in run["units"]["rows"]) <= 100 for run in runs[:9]))

    def test_windows(self):
        """An hour, from a full hour on; of a short run less; without a tick about a 24th of the span."""
        report = mpsim.run("model 1\nsource s\nserver d =4 from s\n", [("s", it) for it in range(0, 90000, 300)], jobs=True)
        for more, width, first in (
            ({}, 50000, 0),
            ({"tick": 0.01, "start": datetime(2026, 3, 2, 8, 15)}, 30000, 0),
            ({"tick": 1}, 3600, 0),
            ({"tick": 0.01}, 30000, 0),
            ({"tick": 1, "start": datetime(2026, 3, 2, 8, 15)}, 3600, -900),
            ({"tick": 60, "start": datetime(2026, 3, 2, 8, 15)}, 60, -15),
            ({"tick": 1, "start": datetime(2026, 3, 2, 8, 15), "hour": 4000}, 3600, 400 - 3600),
        ):
            units = run_of(report, **more)["units"]
            self.assertEqual((units["width"], units["first"]), (width, first), more)
            self.assertEqual((units["chosen"] - first) % width, 0)
        # A run with few visits is one window.
        for more in {}, {"tick": 1, "start": datetime(2026, 3, 2, 8, 15)}:
            units = run_of(mpsim.run("model 1\nsource s\nserver d =4 from s\n", [("s", it) for it in range(30)], jobs=True), **more)["units"]
            self.assertEqual((units["width"], units["first"], units["chosen"]), (121, 0, 0))


LABELS = """const box = it => it.getBoundingClientRect(), found = [];
const texts = [...document.querySelectorAll('svg.network text')].filter(it => it.textContent);
texts.forEach((it, at) => {
  const mine = box(it), around = it.closest('g.node') && box(it.closest('g.node').querySelector('.box'));
  if (around && (mine.left < around.left || mine.right > around.right + .5)) found.push(['past its box', it.textContent]);
  for (const other of texts.slice(0, at)) {
    const its = box(other), wide = Math.min(mine.right, its.right) - Math.max(mine.left, its.left);
    const high = Math.min(mine.bottom, its.bottom) - Math.max(mine.top, its.top);
    if (wide > 1 && high > 2.5) found.push([it.textContent, other.textContent]);
  }
});
return [texts.length, found];"""


def crowded(shape, name):
    """Returns a model of 64 nodes: one after the other, or many side by side."""
    if shape == "series":
        names = ["s", *map(name, range(63))]
        return "model 1\nsource s\n" + "".join(f"server {it} a from {before}\n" for before, it in zip(names, names[1:]))
    lines = ["model 1", "source s", "split top 8 turn from s", *(f"split m{it} 8 turn from top.{it}" for it in range(8))]
    lines += [f"loss {name(it)} 1 a from m{it // 8}.{it % 8}" for it in range(54)]
    return "".join(f"{line}\n" for line in lines)


class Commands(InFolder):
    def test_hour(self):
        """By ticks, and by a date if the calendar is known; anything else is an error."""
        model, trace, out = self.folder / "m.txt", self.folder / "t.csv", self.folder / "p.html"
        model.write_text("model 2\n# a tick is 1s, time 0 is 2026-03-02T06:30:00+01:00 in Europe/Berlin\n" + CALLS.split("\n", 1)[1])
        trace.write_text("".join(",".join(map(str, row)) + "\n" for row in day()))
        for text in "19800", "2026-03-02 12:00", "2026-03-02T11:00Z":
            status, report, said = planner("run", model, trace, "--page", out, "--hour", text, "--jobs")
            self.assertEqual((status, said), (0, ""))
            self.assertEqual(data_of(text_of(out))["runs"][0]["units"]["chosen"], 19800)
            self.file("r.txt", report)
            self.tells("page", self.folder / "r.txt", "--model", model, "--out", out, "--hour", text)
            self.assertEqual(data_of(text_of(out))["runs"][0]["units"]["chosen"], 19800)
        self.refuses("--hour requires --page", "run", model, trace, "--hour", "5")
        self.refuses("--hour 2026-03-01 12:00: it is before time 0", "run", model, trace, "--page", out, "--hour", "2026-03-01 12:00")
        self.assertEqual(planner("run", model, trace, "--page", out, "--hour", "noon")[0], 1)
        plain = EXAMPLES / "callcentre"
        self.assertIn("the length of a tick is unknown", planner("page", plain / "jobs.txt", "--out", out, "--hour", "2026-03-02 12:00")[2])


if __name__ == "__main__":
    unittest.main()
