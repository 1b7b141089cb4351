"""Batches at ovens, beside a check of each rule and a simulation that advances tick by tick, and as the command writes them."""

import csv
import io
import random
import unittest

from commands import InFolder, planner
from ground import Test, text_of, words_of
from rules_of_batches import broken, ticking

import mpsim
from mpsim.agents.pools import pools
from mpsim.agents.queues import Queue
from mpsim.stations.batches import Collecting, Oven, batches
from mpsim.stations.breakdowns import Breakdown, with_breakdowns
from mpsim.traces import Trace

SAYS = "mpplan: batches are worked out beside the proved programs: tested, not proved\n"
MODEL = "model 1\nsource units\nserver oven =20 from units\n"


def drawn(draw, most=30):
    """Draws arrivals, many at equal times, and an oven."""
    now, arrivals = draw.choice([0, 0, 3]), []
    for _ in range(draw.randint(0, most)):
        now += draw.choice([0, 0, 0, 1, 2, 7, 15])
        arrivals.append(now)
    limit = draw.choice([None, None, 0, 1, 5, 12])
    oven = Oven(draw.choice([1, 2, 3, 3, 7]), draw.choice([0, 1, 4, 11, 30]), draw.choice([1, 1, 2, 3]), limit, draw.choice([True, False]))
    return arrivals, oven


def outcome(arrivals, found):
    """Returns the batch and the wait of each unit, from a list of Batch."""
    numbers = [number for number, it in enumerate(found, 1) for _ in range(it.units)]
    return numbers, [it.begin - arrivals[it.first + at] for it in found for at in range(it.units)]


class Rules(Test):
    def test_beside_the_simulation_and_each_rule(self):
        draw, kinds = random.Random(1), {"units left": 0, "part": 0, "full": 0}
        for case in range(700):
            arrivals, oven = drawn(draw)
            numbers, waits = ticking(arrivals, oven)
            if None in numbers:
                kinds["units left"] += 1
                why = f"{numbers.count(None)} units? at the end fill no batch of {oven.size}: give --wait-at-most, or --last-batch"
                self.assertRaisesRegex(ValueError, f"^{why}", batches, arrivals, oven)
                continue
            found = batches(arrivals, oven)
            self.assertEqual(outcome(arrivals, found), (numbers, waits), (case, arrivals, oven))
            self.assertEqual(broken(arrivals, numbers, waits, oven), set(), (case, arrivals, oven))
            kinds["full"] += sum(it.units == oven.size for it in found)
            kinds["part"] += sum(it.units < oven.size for it in found)
        self.assertGreater(min(kinds.values()), 50, kinds)

    def test_the_check_finds_each_broken_rule(self):
        oven, arrivals = Oven(2, 10, 1, 20), [0, 1, 2, 30]
        right = [1, 1, 2, 3], [1, 0, 20, 20]
        self.assertEqual((ticking(arrivals, oven), broken(arrivals, *right, oven)), (right, set()))
        for numbers, waits, rule in (
            ([1, 1, 2], [1, 0, 20], "a batch per unit"),
            ([2, 2, 1, 3], [1, 0, 20, 20], "order"),
            ([1, 2, 1, 3], [1, 0, 20, 20], "order"),
            ([1, 1, 1, 2], [2, 1, 0, 20], "size"),
            ([1, 1, 2, 3], [1, 0, 20, -3], "begins before it arrives"),
            ([1, 1, 2, 3], [1, 1, 20, 20], "begins together"),
            ([1, 1, 2, 3], [1, 0, 8, 20], "one batch at a time"),
            ([1, 2, 3, 4], [20, 29, 38, 20], "takes all that are there"),
            ([1, 1, 2, 3], [1, 0, 19, 20], "begins too early"),
            ([1, 1, 2, 3], [2, 1, 20, 20], "waits while an oven is empty"),
        ):
            self.assertIn(rule, broken(arrivals, numbers, waits, oven), (numbers, waits))

    def test_by_hand(self):
        """The tick at which a batch leaves, a unit arrives, and the wait of the first ends."""
        arrivals = [0, 1, 2, 3, 4, 5, 25]
        for oven, begins in (
            (Oven(3, 20, last=True), [2, 22, 42]),
            (Oven(3, 20, 2, last=True), [2, 5, 25]),
            (Oven(3, 20, wait_at_most=0), [0, 20, 40]),
            (Oven(4, 20, wait_at_most=3), [3, 23, 43]),
            (Oven(4, 2, wait_at_most=3), [3, 7, 28]),
            (Oven(4, 2, wait_at_most=21), [3, 25]),
            (Oven(4, 2, wait_at_most=20), [3, 24, 45]),
            (Oven(7, 20, wait_at_most=99), [25]),
        ):
            found = batches(arrivals, oven)
            self.assertEqual([it.begin for it in found], begins, oven)
            self.assertEqual(outcome(arrivals, found), ticking(arrivals, oven), oven)


class Networks(Test):
    def test_through_the_program(self):
        """After a delay, with jobs that go elsewhere, before a server: arrivals and departures of each unit; the trunk group and the delay."""
        model = "model 1\nsource more\nsource units\ndelay way w from units more\nsplit kind 2 mod k from way\ndelay oven x from kind.1\n"
        model += "# an oven\nserver pack =1 from oven\n"
        draw, sizes = random.Random(2), []
        while len(sizes) < 14:
            arrivals, oven = drawn(draw)
            oven = oven._replace(last=True, size=300 if len(sizes) == 5 else oven.size)
            rows = [[draw.choice(["units", "more"]), str(time), str(draw.randint(0, 3)), str(draw.randint(0, 2))] for time in arrivals]
            made = Collecting(model, Trace("t.csv", ["source", "time", "w", "k", "x"], [[*row, "9"] for row in rows]), "oven").batched(oven)
            told = "".join(mpsim.run(made.model, made.trace.lines(), jobs=True).lines())
            visits = {name: [] for name in ("units", "more", "way", "kind", "oven_fill", "oven", "pack")}
            for words in words_of(told, "job"):
                visits[words[2]].append([int(words[at]) for at in (1, 4, 8)])
            came = [(depart, job) for job, _, depart in visits["way"] if rows[job - 1][3] == "1"]
            self.assertEqual([job for job, *_ in visits["oven_fill"]], [job for _, job in sorted(came, key=lambda it: it[0])])
            times = [arrive for _, arrive, _ in visits["oven_fill"]]
            numbers, waits = ticking(times, oven)
            ends = [time + wait + oven.ticks for time, wait in zip(times, waits)]
            self.assertEqual([depart for *_, depart in visits["oven"]], ends)
            self.assertEqual([arrive for _, arrive, _ in visits["pack"]], ends)
            self.assertEqual(made.waits(), waits)
            by_job = dict(zip((job for job, *_ in visits["oven_fill"]), zip(numbers, waits)))
            self.assertEqual([tuple(map(int, row[5:])) for row in made.trace.rows], [by_job.get(job, (0, 0)) for job in range(1, len(rows) + 1)])
            self.assertEqual("node oven trunk" in told, oven.size * oven.ovens <= 255)
            self.assertIn("# an oven\n", made.model)
            sizes.append(oven.size)

    def test_what_it_is_not(self):
        """An oven is no pool, and what is upstream of it can't be changed any more."""
        trace = Trace("t.csv", ["source", "time", "saw"], [["units", "0", "2"], ["units", "1", "2"]])
        text = MODEL.replace("from units", "from saw") + "server saw saw from units\n"
        made = Collecting(text, trace, "oven").batched(Oven(2, 20))
        self.assertEqual(pools(made.report), [])
        why = "the oven oven is downstream of saw: its columns hold only for the times at which jobs come there"
        self.assertRaisesRegex(ValueError, why, with_breakdowns, *made[:2], [Breakdown("saw", 1, 5)])
        self.assertRaisesRegex(ValueError, why, Queue, *made[:2], "saw")
        self.assertRaisesRegex(ValueError, why, Collecting, *made[:2], "saw")
        self.assertEqual(batches([], Oven(3, 5)), [])
        # Upstream first: then both hold.
        broken_down = with_breakdowns(text, trace, [Breakdown("saw", 1, 5)])
        self.assertEqual(Collecting(*broken_down[:2], "oven").batched(Oven(2, 20)).arrivals, [7, 9])


class Command(InFolder):
    def setUp(self):
        super().setUp()
        self.model = self.file("m.txt", MODEL)
        self.trace = self.file("t.csv", "source,time,x\nunits,0,a\nunits,3,b\nunits,4,c\n")

    def test_a_table_and_files(self):
        out, model = self.folder / "o.csv", self.folder / "o.txt"
        words = "batch", self.model, self.trace, "--node", "oven"
        text = self.tells(*words, "--size", 2, "--last-batch", "--out", out, "--out-model", model, error=SAYS)
        row = dict(next(csv.DictReader(io.StringIO(text))))
        wanted = "oven,2,1,3,2,1,0.7500,40,0.9302,7.333,3,19,19,19"
        self.assertEqual(",".join(row), "node,size,ovens,units,batches,full,fill,busy,util,mean_wait,p50,p90,p99,max")
        self.assertEqual(",".join(row.values()), wanted)
        self.assertEqual(text_of(model), "model 2\nsource units\ndelay oven_fill oven_wait from units\ntrunk oven 2 =20 from oven_fill\n")
        self.assertEqual(text_of(out), "source,time,x,oven_batch,oven_wait\nunits,0,a,1,3\nunits,3,b,1,0\nunits,4,c,2,19\n")
        both = text_of(out), text_of(model)
        for more in ["--time", 20], ["--time", "10s", "--tick", "500ms"]:
            self.tells(*words, "--size", 2, "--last-batch", *more, "--out", out, "--out-model", model, error=SAYS)
            self.assertEqual((text_of(out), text_of(model)), both)
        text = self.tells(*words, "--size", "1..3", "--time", 1, "--ovens", 2, "--wait-at-most", 5, error=SAYS)
        found = [[row[it] for it in ("size", "ovens", "batches", "full", "fill", "max")] for row in csv.DictReader(io.StringIO(text))]
        self.assertEqual(found, [["1", "2", "3", "3", "1.0000", "0"], ["2", "2", "2", "1", "0.7500", "5"], ["3", "2", "1", "1", "1.0000", "4"]])
        none = self.file("n.csv", "source,time,x\n")
        text = self.tells("batch", self.model, none, "--node", "oven", "--size", 2, error=SAYS)
        self.assertEqual(text.splitlines()[1], "oven,2,1,0,0,0,0.0000,0,0.0000,,,,,")

    def test_other_commands(self):
        """What changes, cuts or sweeps the trace warns; what changes the model refuses."""
        out, model = self.folder / "o.csv", self.folder / "o.txt"
        words = "batch", self.model, self.trace, "--node", "oven", "--size", 2, "--last-batch", "--out", out, "--out-model", model
        self.tells(*words, error=SAYS)
        why = f"{out} has columns that mpplan worked out (oven_batch): they hold only for this trace; change it first, then work them out again\n"
        for words in ["scale", out, "--by", "1/1"], ["days", model, out, "--every", 100], ["sweep", model, out]:
            self.assertIn(why, planner(*words)[2], words)
        why = f"{model}: the batches at oven hold only for this trace: give the model and the trace before that"
        self.refuses(why, "bottlenecks", model, out)

    def test_what_is_refused(self):
        words = "batch", self.model, self.trace, "--node", "oven"
        left = "1 unit at the end fill no batch of 2: give --wait-at-most, or --last-batch to let them begin when the last has arrived"
        self.refuses(left, *words, "--size", 2)
        self.refuses("--size 0: expected a number such as 12, or a rising range such as 8..15", *words, "--size", 0)
        self.refuses("--size 2..3: --out and --out-model need one size", *words, "--size", "2..3", "--out", "o.csv")
        why = "--wait-at-most 90ms: the length 90ms isn't a whole number of ticks, 0 or more"
        self.refuses(why, *words, "--size", 2, "--wait-at-most", "90ms", "--tick", "1s")
        unknown = "the length of a tick is unknown: give --tick, or a model whose first lines mpplan prepare wrote"
        self.refuses(f"--time 5s: {unknown}", *words, "--size", 2, "--time", "5s")
        self.refuses(f"--time {2**36 + 1}: above the limit of {2**36} ticks", *words, "--size", 2, "--time", 2**36 + 1)
        whose = "isn't a server or a delay of the model, so no oven can replace it; its servers and delays: oven"
        for name in "units", "drill":
            self.refuses(f"{name} {whose}", *words[:3], "--node", name, "--size", 2, "--time", 5)
        column = self.file("c.txt", MODEL.replace("=20", "x"))
        trace = self.file("x.csv", "source,time,x\nunits,0,4\n")
        why = "give --time: the service time of oven is the column x, and a batch has one time"
        self.refuses(why, "batch", column, trace, *words[3:], "--size", 1)
        taken = self.file("d.txt", MODEL + "delay oven_fill =1 from oven\n")
        self.refuses("the model already has a node 'oven_fill', a name that the oven at oven needs", "batch", taken, trace, *words[3:], "--size", 1)
        name = "o" * 28
        long = self.file("l.txt", MODEL.replace("oven", name))
        why = f"the name '{name}_fill' is longer than 32 characters: give {name} a shorter name"
        self.refuses(why, "batch", long, trace, "--node", name, "--size", 1)
        fork = self.file("f.txt", "model 2\nsource units\nfork f 2 from units\nserver oven =4 from f f.1\n")
        why = "a job visits oven more than once, but its record has room for only one wait"
        self.refuses(why, "batch", fork, trace, *words[3:], "--size", 1)


if __name__ == "__main__":
    unittest.main()
