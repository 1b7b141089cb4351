"""Columns that a command worked out, given to another: what holds is exact, beside working it out in the right order; the rest is rejected."""

import csv
import io
import random
import unittest

from commands import InFolder, planner
from ground import text_of

MODEL = "model 1\n# a tick is 1s, time 0 is 2026-03-02T00:00:00\nsource parts\nserver desk talk from parts\nserver m2 m2 from desk\n"
NOT_NOW = "change the model and the trace before that, then work them out again"


class Orders(InFolder):
    def setUp(self):
        super().setUp()
        draw, rows = random.Random(5), []
        for day in range(4):
            for at in sorted(draw.randrange(30000, 33000) for _ in range(60)):
                rows.append(f"parts,{at + 86400 * day},{draw.randint(20, 90)},{draw.randint(9, 60)},{draw.randint(9, 50)}\n")
        self.trace, self.model = self.file("t.csv", f"source,time,talk,m2,m3\n{''.join(rows)}"), self.file("m.txt", MODEL)

    def made(self, *words, name="made"):
        """Runs a command that writes a model and a trace, and returns their paths."""
        model, trace = self.folder / f"{name}.txt", self.folder / f"{name}.csv"
        status, _, error = planner(*words, "--out", trace, "--out-model", model)
        self.assertEqual(status, 0, error)
        return model, trace

    def down(self, model, trace, node, name="down"):
        return self.made("down", model, trace, "--node", node, "--at", 31000, "--for", 600, name=name)

    def report(self, model, trace):
        return planner("run", model, trace)[1]

    def test_a_line_of_worked_columns(self):
        """Neither a tandem nor a line that is worked out takes services that include repairs, or the time for which parts are blocked."""
        _, down = self.down(self.model, self.trace, "m2")
        _, held = self.made("line", "desk:talk", 1, "m2", "--from", "parts", "--trace", self.trace, name="held")
        before = "which hold only for the times at which parts came there before"
        then = "give the column before that (if this one is your own, rename it)"
        for column, what, trace in ("m2_down", "with breakdowns", down), ("desk_held", "with the time for which parts are blocked", held):
            why = f"{column} is a column that mpplan worked out: it has the service times {what}, {before}; {then}"
            for machine in f"mill:{column}", column:
                self.refuses(why, "line", "m3", 1, machine, "--from", "parts")
                self.refuses(why, "line", machine, 1, "m3", "--from", "parts", "--trace", trace)

    def test_a_machine_of_a_line(self):
        """No breakdown, pool or oven at a machine whose line was worked out; what is upstream of the line comes first."""
        line = "m2", 1, "m3", "--from", "desk"
        model = self.file("desk.txt", "".join(MODEL.splitlines(keepends=True)[:-1]))
        held = self.made("line", *line, "--model", model, "--trace", self.trace, name="held")
        some, before = ("--at", 31000, "--for", 600), "give the model and the trace before that"
        for node, machine in ("m2", "m2"), ("m3", "m3"):
            why = f"the line of {machine} is at {node}: its columns hold only without"
            self.refuses(f"{why} breakdowns; {before}", "down", *held, "--node", node, *some)
            self.refuses(f"{why} the pool; {before}", "pool", *held, "--node", node, "--agents", 2)
            self.refuses(f"{why} the batches; {before}", "batch", *held, "--node", node, "--size", 2, "--time", 9)
        why = "the line of m2 is downstream of desk: its columns hold only for the times at which jobs come there; work out breakdowns at desk first"
        self.refuses(why, "down", *held, "--node", "desk", *some)
        broken = self.down(model, self.trace, "desk")
        made = self.made("line", *line, "--model", broken[0], "--trace", broken[1], name="both")
        tandem = self.file("tandem.txt", text_of(broken[0]) + "tandem line m2 / 1 m3 from desk\n")
        ends = [self.report(tandem, broken[1]), self.report(*made)]
        self.assertEqual(ends[0].split(" span ")[1].split()[0], ends[1].split(" span ")[1].split()[0])

    def test_a_sweep_over_agents(self):
        """What is downstream of a pool holds for one number of agents; what is upstream of it is exact, and said."""
        pooled = self.made("pool", self.model, self.trace, "--node", "desk", "--agents", 2, name="pooled")
        model, trace = self.down(*pooled, "m2")
        several = self.file("several.txt", text_of(model).replace("trunk desk 2", "trunk desk {agents}"))
        why = "is downstream of the pool desk: its columns hold for one number of agents; work it out for each"
        self.refuses(f"the breakdown at m2 {why}", "sweep", several, trace, "--set", "agents=1..3")
        self.refuses(f"the breakdown at m2 {why}", "sweep", several, trace, "--set", "agents=1..3", "--folder", self.folder / "f")
        self.assertEqual(planner("sweep", several, trace, "--set", "agents=2")[0], 0)
        batched = self.made("batch", *pooled, "--node", "m2", "--size", 2, "--time", 9, "--last-batch", name="batched")
        several = self.file("several.txt", text_of(batched[0]).replace("trunk desk 2", "trunk desk {agents}"))
        self.refuses(f"the oven m2 {why}", "sweep", several, batched[1], "--set", "agents=1..3")
        broken = self.down(self.model, self.trace, "desk")
        made = self.made("pool", *broken, "--node", "m2", "--agents", 2, name="after")
        several = self.file("several.txt", text_of(made[0]).replace("trunk m2 2", "trunk m2 {agents}"))
        status, table, error = planner("sweep", several, made[1], "--set", "agents=1..3", "--node", "m2_queue")
        self.assertEqual(status, 0)
        self.assertIn("the waits at m2 are worked out again for each number of agents\n", error)
        self.assertIn(f"warning: {made[1]} has columns that mpplan worked out (desk_down)", error)
        for row in csv.DictReader(io.StringIO(table)):
            alone = self.report(*self.made("pool", *broken, "--node", "m2", "--agents", row["agents"], name="alone"))
            (line,) = [words for words in map(str.split, alone.splitlines()) if words[:2] == ["node", "m2_queue"]]
            self.assertEqual(row["area"], line[line.index("area") + 1])

    def test_a_decision_with_other_loads(self):
        """Copies of records don't keep the columns of what is upstream; other cases do."""
        words = "--node", "m2", "--out", self.folder / "page.html", "--goal", "80/20"
        why = f"its columns hold only for this trace; {NOT_NOW}"
        pooled = self.made("pool", self.model, self.trace, "--node", "desk", "--agents", 2, name="pooled")
        for what, made in ("the breakdown at desk", self.down(self.model, self.trace, "desk")), ("the queue at desk", pooled):
            self.refuses(f"{what}: {why}", "decision", *made, *words, "--what-if", "load=110%")
            status, _, error = planner("decision", *made, *words)
            self.assertEqual((status, f"the case of 10 % more calls is left out: {what}: {why}\n" in error), (0, True), error)
            self.assertEqual(planner("decision", *made, *words, "--what-if", "load=100%", "--what-if", "handling=9s")[0], 0)
        self.assertEqual(planner("decision", self.model, self.trace, *words, "--what-if", "load=110%")[0], 0)

    def test_other_days(self):
        """Resampled days: the waits at pools are worked out again, also upstream of the agents tried; other columns hold for the trace as it is."""
        words = "--count", 3, "--within", "any", "--seed", 4
        broken = self.down(self.model, self.trace, "desk")
        why = f"the breakdown at desk: its columns hold only for this trace; {NOT_NOW}"
        self.refuses(why, "resample", broken[1], "--model", broken[0], "--node", "m2", *words)
        self.refuses(why, "resample", broken[1], "--model", broken[0], "--node", "m2", "--agents", 2, *words)
        # Calls of the evening that are still there in the morning wait for other calls if the days change.
        draw, times = random.Random(6), []
        for day in range(4):
            times += [86400 * day + at for at in sorted(draw.randrange(0, 300) for _ in range(9))]
            times += [86400 * (day + 1) - at for at in sorted((draw.randrange(1, 300) for _ in range(9)), reverse=True)]
        rows = [f"parts,{at},{draw.randint(20, 90)},{draw.randint(9, 60)},1\n" for at in times]
        nights = self.file("nights.csv", f"source,time,talk,m2,m3\n{''.join(rows)}")
        model, trace = self.made("pool", self.model, nights, "--node", "desk", "--agents", 1, name="pooled")
        each = "--node", "m2", "--agents", 1, *words
        same = [self.tells("resample", it, "--model", of, *each) for it, of in ((trace, model), (nights, self.model))]
        self.assertEqual(*same)


if __name__ == "__main__":
    unittest.main()
