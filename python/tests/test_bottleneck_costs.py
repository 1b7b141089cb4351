"""What changes of a network are worth: pools, which are worked out again, and costs."""

import csv
import io
import random
import unittest

from commands import InFolder, planner
from test_bottlenecks import number, part, plain

import mpsim
from mpsim.tables.bottlenecks import Trial, Worth, rows_of


class Pools(InFolder):
    def setUp(self):
        super().setUp()
        draw = random.Random(5)
        self.model = self.file("m.txt", "model 1\nsource in\nserver gate g from in\nserver desk d from gate\nserver till =9 from desk\n")
        rows = "".join(f"in,{at * 8},{draw.randrange(12)},{draw.randrange(40)}\n" for at in range(60))
        self.trace = self.file("t.csv", "source,time,g,d\n" + rows)

    def pooled(self, agents, trace=None, model=None):
        """Returns the figures of a pool of this many agents."""
        made, out = self.folder / f"p{agents}.txt", self.folder / f"p{agents}.csv"
        told = planner("pool", model or self.model, trace or self.trace, "--node", "desk", "--agents", agents, "--out-model", made, "--out", out)
        self.assertEqual(told[0], 0, told[2])
        rows = [row.split(",") for row in out.read_text().splitlines()]
        report = mpsim.run(made.read_text(), rows, jobs=True)
        return made, out, plain("".join(report.lines(jobs=True)), [int(row[1]) for row in rows[1:]])

    def table(self, model, trace):
        status, out, said = planner("bottlenecks", model, trace)
        self.assertEqual(status, 0, said)
        return {
            (row["station"], row["change"]): [number(row[it]) for it in ("per_1000_ticks", "p90", "wip", "lost")]
            for row in csv.DictReader(io.StringIO(out))
        }, said

    def test_a_second_server(self):
        self.assertEqual(self.table(self.model, self.trace)[0]["desk", "server"], self.pooled(2)[2])

    def test_pools_are_pooled_again(self):
        """After a change at a pool, and after one upstream of it."""
        made, out, mine = self.pooled(3)
        found, said = self.table(made, out)
        self.assertEqual((found["", "as it is"], found["desk", "server"]), (mine, self.pooled(4)[2]))
        for column, station in ("d", "desk"), ("g", "gate"):
            head, *rows = [row.split(",") for row in self.trace.read_text().splitlines()]
            at = head.index(column)
            less = self.file(
                "less.csv",
                "".join(
                    ",".join([*row[:at], row[at] if row is head else str(part(int(row[at]), 10)), *row[at + 1 :]]) + "\n" for row in (head, *rows)
                ),
            )
            self.assertEqual(found[station, "service"], self.pooled(3, less)[2], station)
        self.assertEqual({name for name, _ in found}, {"", "gate", "desk", "till"})
        self.assertIn("no further place at 'desk': a pool has unlimited room", said)

    def test_both(self):
        """A second server upstream of a pool."""
        made, out, _ = self.pooled(3)
        found, _ = self.table(made, out)
        text = self.file("g.txt", self.model.read_text())
        gate, gated = self.folder / "gate.txt", self.folder / "gate.csv"
        self.assertEqual(planner("pool", text, self.trace, "--node", "gate", "--agents", 2, "--out-model", gate, "--out", gated)[0], 0)
        self.assertEqual(found["gate", "server"], self.pooled(3, gated, gate)[2])

    def test_rosters(self):
        made, out = self.folder / "r.txt", self.folder / "r.csv"
        told = planner(
            "pool", self.model, self.trace, "--node", "desk", "--agents", 3, "--patience", "5s", "--tick", "1s", "--out-model", made, "--out", out
        )
        self.assertEqual(told[0], 0, told[2])
        found, said = self.table(made, out)
        self.assertEqual({name for name, what in found if what == "service"}, {"till"}, found)
        self.assertIn("no shorter service at 'gate', 'desk'", said)
        self.assertIn("the waits at desk, a pool with a roster, patience or priorities, hold only for this trace", said)

    def test_downstream_of_a_roster(self):
        """The waits of a pool with a roster stay."""
        roster = self.file("roster.csv", "agent,queues,from,to\nann,,100,9000\nbob,,200,9000\n")
        made, out = self.folder / "r.txt", self.folder / "r.csv"
        told = planner("pool", self.model, self.trace, "--node", "desk", "--roster", roster, "--tick", "1s", "--out-model", made, "--out", out)
        self.assertEqual(told[0], 0, told[2])
        rows = [row.split(",") for row in out.read_text().splitlines()]
        report = mpsim.run(made.read_text().replace("till =9", "till =8"), rows, jobs=True)
        found, _ = self.table(made, out)
        self.assertEqual(found["till", "service"], plain("".join(report.lines(jobs=True)), [int(row[1]) for row in rows[1:]]))


class Costs(InFolder):
    def setUp(self):
        super().setUp()
        self.model = self.file("m.txt", "model 1\nsource in\ntandem line cut / 2 mill from in\nserver pack p from line\n")
        draw = random.Random(3)
        rows = "".join(f"in,{at * 20},{draw.randrange(30)},{draw.randrange(40)},{draw.randrange(40)}\n" for at in range(80))
        self.trace = self.file("t.csv", "source,time,cut,mill,p\n" + rows)

    def test_gain_per_cost(self):
        costs = self.file("costs.csv", "station;change;cost\n*;service;400\nline:mill;service;1000.5\npack;server;50000\n")
        for by in "p90", "throughput", "wip":
            status, out, said = planner("bottlenecks", self.model, self.trace, "--costs", costs, "--rank", by)
            self.assertEqual(status, 0, said)
            _, *rows = csv.DictReader(io.StringIO(out))
            prices = {("line:cut", "service"): 400, ("line:mill", "service"): 1000.5, ("pack", "service"): 400, ("pack", "server"): 50000}
            per = []
            for row in rows:
                price = prices.get((row["station"], row["change"]))
                self.assertEqual(number(row["cost"]), price)
                gain = None if price is None else round(float(row[f"gain_{by}"]) * 1000 / price, 6)
                self.assertEqual(number(row["gain_per_cost"]), gain)
                per.append(gain)
            known = [it for it in per if it is not None]
            self.assertEqual((known, per[len(known) :]), (sorted(known, reverse=True), [None] * (len(per) - len(known))))
            self.assertEqual([number(row["rank_per_cost"]) for row in rows if row["cost"]], [1 + sum(other > it for other in known) for it in known])
            self.assertIn("mpplan: 1 change without a cost: 'line:mill capacity'\n", said)

    def test_errors(self):
        for row, why in (
            ("saw,service,4", "no station 'saw'; the model has line:cut, line:mill, pack"),
            ("pack,speed,4", "change 'speed': expected service, capacity or server"),
            ("pack,service,0", "cost '0': expected a number above 0"),
            ("pack,service,-4", "cost '-4': expected a number above 0"),
            ('pack,service,"4,5"', "cost '4,5': expected a number above 0"),
            ("pack,service,1\npack,service,2", "pack has two rows for service"),
        ):
            costs = self.file("costs.csv", f"station,change,cost\n{row}\n")
            number = 1 + len(row.splitlines())
            self.refuses(f"{costs}: row {number}: {why}", "bottlenecks", self.model, self.trace, "--costs", costs)

    def test_a_line_that_was_worked_out(self):
        """Its columns hold only for its own services."""
        model = self.file("h.txt", "model 1\nsource in\nserver mill mill_held from in\n")
        trace = self.file("h.csv", "source,time,mill,mill_held\nin,0,9,12\n")
        why = "they hold only for this trace; change it first, then work them out again: give the model and the trace before that"
        self.refuses(f"{trace} has columns that mpplan worked out (mill_held): {why}", "bottlenecks", model, trace)
        batches = self.file("b.txt", "model 2\nsource in\ndelay oven_fill oven_wait from in\ntrunk oven 2 =9 from oven_fill\n")
        units = self.file("b.csv", "source,time,oven_batch,oven_wait\nin,0,1,3\nin,3,1,0\n")
        why = f"{batches}: the batches at oven hold only for this trace: give the model and the trace before that"
        self.refuses(why, "bottlenecks", batches, units)
        one = self.file("o.txt", "model 1\nsource in\nserver oven =9 from in\n")
        self.assertEqual(planner("bottlenecks", one, units)[0], 0)

    def test_arguments(self):
        for text in "0%", "100%", "x", "-5", "10.12345":
            why = "expected a percentage above 0% and below 100%, such as 10%"
            self.refuses(f"--service {text}: {why}", "bottlenecks", self.model, self.trace, f"--service={text}")

    def test_forms(self):
        """Every form of a table, and several runs at once."""
        csv_out = planner("bottlenecks", self.model, self.trace)
        self.assertEqual(planner("bottlenecks", self.model, self.trace, "--jobs", 3), csv_out)
        for form in "json", "md":
            status, out, _ = planner("bottlenecks", self.model, self.trace, "--format", form)
            self.assertEqual((status, "line:mill" in out.replace("\\", "")), (0, True))

    def test_rejected_changes(self):
        """A change whose run passes the bound has its error line, and comes last."""
        model = self.file("b.txt", "model 1\nbound 40\nsource in\nloss a 1 =20 from in\n")
        trace = self.file("b.csv", "source,time\nin,0\nin,1\nin,20\n")
        status, out, _ = planner("bottlenecks", model, trace)
        self.assertEqual(status, 11)
        last = list(csv.DictReader(io.StringIO(out)))[-1]
        self.assertEqual((last["station"], last["change"], last["rank_p90"]), ("a", "capacity", ""))
        self.assertEqual(last["refusal"], "mpsim: node a position 2 passes the bound at time 60")

    def test_equal_gains(self):
        one, two = Worth(1.0, 10, 1.0, 0, 0), Worth(2.0, 8, 1.0, 0, 0)
        rows = rows_of(
            one, [Trial("a", "service", one), Trial("b", "service", two), Trial("c", "server", two), Trial("d", "server", None, "no")], "p90"
        )
        self.assertEqual([row[0] for row in rows], ["", "b", "c", "a", "d"])
        self.assertEqual([row[10:13] for row in rows[1:]], [[1, 1, 1], [1, 1, 1], [3, 3, 1], [None, None, None]])


if __name__ == "__main__":
    unittest.main()
