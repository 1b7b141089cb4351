"""What changes of a network are worth, beside models that the test changes itself and figures that it takes from the job lines."""

import csv
import io
import os
import random
import unittest
from fractions import Fraction

from commands import InFolder, planner
from ground import words_of

import mpsim
from mpsim.sweeps.investments import changes, stations_of
from mpsim.tables.bottlenecks import Worth, worth
from mpsim.traces import Trace

COUNT = int(os.environ.get("CASES", 25))
NOTE = "mpplan: changes are made beside the proved programs, which run them: tested, not proved\n"


def part(value, percent):
    """Returns a number less a percentage, rounded half up."""
    exact = Fraction(value) * (100 - Fraction(percent)) / 100
    return exact.numerator // exact.denominator + (exact % 1 >= Fraction(1, 2))


class Net:
    """A chain of stations: pairs of a kind and its parameters, and the columns of the trace (dict of lists)."""

    def __init__(self, draw, percent):
        self.percent, self.times = percent, sorted(draw.randrange(400) for _ in range(draw.randint(2, 40)))
        self.columns, self.nodes = {}, []
        for number in range(draw.randint(1, 4)):
            kind = draw.choice(["server", "server", "delay", "loss", "tandem", "tandem", "trunk", "forkjoin"])
            count = {"tandem": draw.randint(2, 4), "forkjoin": draw.randint(2, 3)}.get(kind, 1)
            demands = [self._demand(draw, f"d{number}{at}") for at in range(count)]
            places = [draw.choice([1, 2, 4]) for _ in demands]
            self.nodes.append([f"n{number}", kind, demands, places])

    def _demand(self, draw, name):
        if draw.random() < 0.2:
            return f"={draw.choice([20, 40, 7])}"
        if self.columns and draw.random() < 0.2:
            return draw.choice(list(self.columns))
        self.columns[name] = [draw.randrange(60) for _ in self.times]
        return name

    def text(self):
        lines, before = ["model 2", "source door"], "door"
        for name, kind, demands, places in self.nodes:
            words = {
                "loss": [str(places[0]), demands[0]],
                "trunk": [str(places[0]), demands[0]],
                "tandem": [demands[0], *(word for place, demand in zip(places[1:], demands[1:]) for word in ("/", str(place), demand))],
                "forkjoin": [word for demand in demands for word in ("|", demand)][1:],
                "pair": [demands[0]],
            }.get(kind, demands)
            if kind == "pair":
                lines += [f"delay {name}_queue {name}_wait from {before}", f"trunk {name} 2 {words[0]} from {name}_queue"]
            else:
                lines.append(f"{kind} {name} {' '.join(words)} from {before}")
            before = name
        return "\n".join(lines) + "\n"

    def rows(self):
        return [["source", "time", *self.columns], *(["door", time, *values] for time, *values in zip(self.times, *self.columns.values()))]

    def report(self):
        return mpsim.run(self.text(), self.rows(), jobs=True)

    def changed(self, draw):
        """Yields the station, the change and the network of each change that can be made."""
        for at, (name, kind, demands, places) in enumerate(self.nodes):
            for number, demand in enumerate(demands):
                column = demand if demand[0] != "=" and demands.count(demand) == 1 else str(number + 1)
                label = name if kind not in ("tandem", "forkjoin") else f"{name}:{column}"
                values = [int(demand[1:])] if demand[0] == "=" else self.columns[demand]
                less = [part(value, self.percent) for value in values]
                if less != values:
                    other = self.copy()
                    other.nodes[at][2][number] = f"={less[0]}" if demand[0] == "=" else "less"
                    other.columns.update({} if demand[0] == "=" else {"less": less})
                    yield label, "service", other
                if kind == "loss" or kind == "tandem" and number:
                    room = next((it for it in [number] if kind == "loss" or places[it] < 4), None)
                    other = self.copy()
                    if room is not None:
                        other.nodes[at][3][number] += 1
                        yield label, "capacity", other
                    elif len(demands) < 4:
                        other.nodes[at][2].insert(number, "=0")
                        other.nodes[at][3].insert(number, 1)
                        yield label, "capacity", other
                if kind == "trunk":
                    other = self.copy()
                    other.nodes[at][3][0] += 1
                    yield label, "server", other
                if kind == "server":
                    yield label, "server", self.with_two(at)

    def copy(self):
        other = object.__new__(Net)
        other.percent, other.times, other.columns = self.percent, self.times, dict(self.columns)
        other.nodes = [[name, kind, list(demands), list(places)] for name, kind, demands, places in self.nodes]
        return other

    def with_two(self, at):
        """Returns the network with two servers at one queue, each free at a time."""
        name, _, (demand,), _ = self.nodes[at]
        other, free = self.copy(), [0, 0]
        other.nodes[at][1] = "pair"
        waits = [0] * len(self.times)
        for visit in sorted(self.report().visits[name], key=lambda it: it.arrive):
            service = int(demand[1:]) if demand[0] == "=" else self.columns[demand][visit.job - 1]
            begin = max(visit.arrive, min(free))
            free[free.index(min(free))] = begin + service
            waits[visit.job - 1] = begin - visit.arrive
        other.columns[f"{name}_wait"] = waits
        return other


def plain(text, times):
    """Returns the figures of a run from its job lines: how many left by the last arrival per 1,000 ticks, the 90th percentile of the times of those
    that left, the mean number in the network, and those that were lost."""
    last, out, lost, held = {}, {}, set(), set()
    for words in words_of(text, "job"):
        job, end = int(words[1]), words[5]
        if end == "lost":
            last[job] = int(words[4])
            lost.add(job)
        elif end == "held":
            held.add(job)
        elif int(words[8]) >= last.get(job, 0):
            last[job] = int(words[8])
    out = {job: end - times[job - 1] for job, end in last.items() if job not in lost | held}
    begin, end = min(times), max(times)
    stays = sorted(out.values())
    there = sum(
        sum(time <= moment for time in times) - sum(it <= moment for job, it in last.items() if job not in held) for moment in range(begin, end)
    )
    span = end - begin
    left = sum(last[job] <= end for job in out)
    p90 = stays[-(-9 * len(stays) // 10) - 1] if stays else None
    return [round(left * 1000 / span, 4) if span else None, p90, round(there / span, 4) if span else None, len(lost)]


def number(text):
    return None if text == "" else float(text)


class Changes(InFolder):
    def test_random_networks(self):
        """Each change is the one that the test makes, has its figures, and no other is there."""
        for seed in range(COUNT):
            draw = random.Random(seed)
            net = Net(draw, draw.choice(["10", "25", "50"]))
            model = self.file("m.txt", net.text())
            trace = self.file("t.csv", "".join(",".join(map(str, row)) + "\n" for row in net.rows()))
            status, out, said = planner("bottlenecks", model, trace, "--service", f"{net.percent}%")
            self.assertEqual(status, 0, (seed, said))
            base, *rows = csv.DictReader(io.StringIO(out))
            names = "per_1000_ticks", "p90", "wip", "lost"
            found = {(row["station"], row["change"]): [number(row[name]) for name in names] for row in rows}
            expected = {}
            for station, what, other in net.changed(draw):
                text = "".join(other.report().lines(jobs=True))
                expected[station, what] = plain(text, net.times)
            self.assertEqual(found, expected, (seed, net.text()))
            mine = plain("".join(net.report().lines(jobs=True)), net.times)
            self.assertEqual([number(base[name]) for name in names], mine, seed)
            for row in rows:
                for name, at, sign in ("throughput", 0, 1), ("p90", 1, -1), ("wip", 2, -1):
                    one, other = mine[at], expected[row["station"], row["change"]][at]
                    gain = None if one is None or other is None else round(sign * (other - one), 4)
                    self.assertEqual(number(row[f"gain_{name}"]), gain, (seed, row))
            for name in "throughput", "p90", "wip":
                gains = [number(row[f"gain_{name}"]) for row in rows]
                ranks = [None if gain is None else 1 + sum(other > gain for other in gains if other is not None) for gain in gains]
                self.assertEqual([number(row[f"rank_{name}"]) for row in rows], ranks, seed)
            ranks = [number(row["rank_p90"]) or 10**9 for row in rows]
            self.assertEqual(ranks, sorted(ranks), seed)

    def test_places_before_a_stage(self):
        """Stages without service are places before the next one; a further place goes where there is room for it."""
        for line, made in (
            ("cut / 4 =0 / 2 mill", "cut / 4 =0 / 3 mill"),
            ("cut / 3 =0 / 4 mill", "cut / 4 =0 / 4 mill"),
            ("cut / 4 =0 / 4 mill", "cut / 1 =0 / 4 =0 / 4 mill"),
            ("cut / 4 mill / 2 drill", "cut / 1 =0 / 4 mill / 2 drill"),
        ):
            text = f"model 1\nsource in\ntandem line {line} from in\n"
            columns = [word for word in line.split() if word.isalpha()]
            found, _ = changes(text, Trace("t.csv", ["source", "time", *columns], [["in", "0", *["9"] * len(columns)]]), Fraction(10))
            made_of = [it.model.splitlines()[-1] for it in found if (it.station, it.what) == ("line:mill", "capacity")]
            self.assertEqual(made_of, [f"tandem line {made} from in"])

    def test_no_room(self):
        text = "model 1\nsource in\ntandem line cut / 4 =0 / 4 =0 / 4 mill from in\n"
        _, lacks = changes(text, Trace("t.csv", ["source", "time", "cut", "mill"], [["in", "0", "9", "9"]]), Fraction(10))
        why = "a tandem has at most 4 stages of 4 places: mpplan line --trace works more out"
        self.assertIn(("line:mill", "capacity", why), lacks)

    def test_columns_of_a_pool_that_mean_something_else(self):
        """A split that goes by who served in truth must not get the agents of a pool."""
        for name in "a_agent", "a_wait":
            text = f"model 1\nsource in\nserver a d from in\nsplit who 2 mod {name} from a\n"
            found, lacks = changes(text, Trace("t.csv", ["source", "time", "d", name], [["in", "0", "20", "2"]]), Fraction(10))
            self.assertEqual([(it.station, it.what) for it in found], [("a", "service")])
            self.assertIn(("a", "server", f"the pool needs the column {name}, which the model already names"), lacks)

    def test_labels(self):
        text = "model 1\nsource in\ntandem line a / 1 =0 / 2 a / 3 b from in\nforkjoin both c | =4 d from line\n"
        self.assertEqual([it.label for it in stations_of(text)], ["line:1", "line:3", "line:b", "both:c", "both:2", "both:d"])

    def test_lines_of_a_model(self):
        """Comments, tabs and the version stay; only one line changes."""
        text = "# a top\nmodel 1\n\tserver \t a  d   from in\n# server a x from y\nsource in\nserver b d from a\n"
        found, _ = changes(text, Trace("t.csv", ["source", "time", "d"], [["in", "0", "20"]]), Fraction(10))
        made = {(it.station, it.what): it.model for it in found}
        self.assertEqual(made["a", "service"], text.replace("\tserver \t a  d   from in", "server a a_less from in"))
        pair = "delay a_queue a_wait from in\ntrunk a 2 d from a_queue"
        self.assertEqual(made["a", "server"], text.replace("\tserver \t a  d   from in", pair).replace("model 1", "model 2"))

    def test_what_lacks(self):
        model = self.file(
            "m.txt",
            "model 2\nsource in\nfork f 2 from in\nserver a =1 from f\ndelay w =20 from f.1\njoin j from a w\nloss l 1 d from j\n"
            "trunk t 255 d from l\nforkjoin b d | =0 from t\n",
        )
        trace = self.file("t.csv", "source,time,d\nin,0,20\nin,5,20\n")
        status, _, said = planner("bottlenecks", model, trace)
        self.assertEqual((status, said), (0, "".join(f"mpplan: {line}\n" for line in (
            "no shorter service at 'a', 'b:2': no service is shorter by 10 %, rounded to whole ticks: choose a shorter tick",
            "no further place at 'a': a server has unlimited room",
            "no further place at 'w': a delay has unlimited room",
            "no further server at 'w': a delay serves all jobs at once",
            "no further server at 'l': a loss station has one server (a trunk group has several, and no room to wait)",
            "no further place at 't': a trunk group has no room to wait",
            "no further server at 't': a trunk group has at most 255 servers",
            "no further place at 'b:d', 'b:2': a fork-join has unlimited room",
            "no further server at 'b:d', 'b:2': a branch of a fork-join has one server per stage",
        )) + NOTE))  # fmt: skip

    def test_too_many_columns(self):
        names = [f"c{at}" for at in range(16)]
        text = "model 1\nsource in\n" + "".join(f"server s{at} c{at} from {f's{at - 1}' if at else 'in'}\n" for at in range(16))
        found, lacks = changes(text + "server z c0 from s15\n", Trace("t.csv", ["source", "time", *names], [["in", "0", *["20"] * 16]]), Fraction(10))
        self.assertEqual([it.station for it in found if it.what == "service"], [f"s{at}" for at in range(1, 16)])
        self.assertIn(("z", "service", "the model would name 17 columns of the trace; the limit is 16"), lacks)

    def test_rounded_services(self):
        model = self.file("m.txt", "model 1\nsource in\nserver a d from in\n")
        trace = self.file("t.csv", "source,time,d\nin,0,14\nin,9,14\n")
        said = planner("bottlenecks", model, trace)[2]
        self.assertIn("warning: a: the service falls by 7.14 % instead of 10 %, since it is rounded to whole ticks: choose a shorter tick\n", said)
        self.assertNotIn("warning", planner("bottlenecks", model, self.file("u.csv", "source,time,d\nin,0,20\nin,9,40\n"))[2])

    def test_per_hour(self):
        trace = self.file("t.csv", "source,time,d\nin,0,1\nin,1800,1\n")
        model = self.file("m.txt", "model 1\n# a tick is 1s\nsource in\nserver a d from in\n")
        rows = planner("bottlenecks", model, trace)[1].splitlines()
        self.assertEqual((rows[0].split(",")[2], rows[1].split(",")[2]), ("per_hour", "2.0"))
        rows = planner("bottlenecks", model, trace, "--tick", "1min")[1].splitlines()
        self.assertEqual((rows[0].split(",")[2], rows[1].split(",")[2]), ("per_hour", "0.0333"))
        self.assertEqual(planner("bottlenecks", model, trace, "--tick", "7s")[1].split(",")[2], "per_1000_ticks")

    def test_held_jobs(self):
        """A job that a join holds is in the network to the end, and none that left."""
        model = "model 2\nsource a\nsource b\njoin j from a b\n"
        report = mpsim.run(model, [("a", 0), ("b", 4), ("a", 10)], jobs=True)
        self.assertEqual(worth(report, [0, 4, 10], 1000), Worth(0.0, None, 1.6, 0, 3))


if __name__ == "__main__":
    unittest.main()
