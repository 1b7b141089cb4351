"""Eight weeks of calls from examples/staffing, whose true service levels are known from a simulation that uses nothing of the package: what
`recorded`, `validate` and `staff` report of them."""

import csv
import importlib.util
import io
import math
import pathlib
import subprocess
import sys
import tempfile
import unittest

from commands import InFolder, planner
from ground import EXAMPLES

STAFFING = EXAMPLES / "staffing"
# The most that a service level may be off, and the ticks of 20 seconds.
HALF_A_POINT, WITHIN = 0.005, 200
WEEKDAYS = ["Monday", "Tuesday", "Wednesday", "Thursday", "Friday"]


def simulation():
    """Returns the module of the script that made the calls."""
    found = importlib.util.spec_from_file_location("calls", STAFFING / "calls.py")
    module = importlib.util.module_from_spec(found)
    found.loader.exec_module(module)
    return module


def rows_of(text):
    return list(csv.DictReader(io.StringIO(text)))


def erlang_c(calls, handling, goal):
    """Returns the least number of agents with which this share of the calls of a half-hour waits at most 20 s, by the sum in Erlang's formula."""
    load = calls * handling / 1800
    agents = math.floor(load) + 1
    while True:
        terms = [load**number / math.factorial(number) for number in range(agents)]
        last = load**agents / math.factorial(agents) * agents / (agents - load)
        if 1 - last / (sum(terms) + last) * math.exp((load - agents) * 20 / handling) >= goal:
            return agents
        agents += 1


class Weeks(InFolder):
    @classmethod
    def setUpClass(cls):
        held = tempfile.TemporaryDirectory()
        cls.addClassCleanup(held.cleanup)
        cls.made = pathlib.Path(held.name)
        subprocess.run([sys.executable, "-B", STAFFING / "calls.py"], cwd=cls.made, check=True)
        cls.simulation = simulation()
        cls.model, cls.calls = cls.made / "model.txt", cls.made / "calls.csv"
        words = ["--time", "Arrived", "--tick", "100ms", "--begin", "day", "--zone", "Europe/Berlin", "--source", "Queue", "--demand", "Wait=wait"]
        words += ["--demand", "Handling=handling", "--empty", "0s", "--code", "Abandoned=gone", "--first-lines", cls.model, "--out", cls.calls]
        status, _, line = planner("prepare", cls.made / "export.csv", *words)
        assert status == 0, line
        with cls.model.open("a") as file:
            file.write("server desk handling from sales service\n")
        cls.levels = {}
        for row in rows_of((cls.made / "levels.csv").read_text()):
            for queue in row["queue"], "all":
                level = cls.levels.setdefault((row["from"], queue), [0, 0])
                level[0] += int(row["offered"])
                level[1] += int(row["within"])

    def near(self, rows, column):
        """Each half-hour and queue has its true service level, within half a point."""
        found = {(row["from"], row["queue"]): row for row in rows if row["from"] != "all"}
        self.assertEqual(found.keys(), self.levels.keys())
        for place, (offered, within) in self.levels.items():
            self.assertEqual(int(found[place]["offered"]), offered, place)
            self.assertLess(abs(float(found[place][column]) - within / offered), HALF_A_POINT, place)

    def validated(self, roster, *more):
        """Returns the rows of `validate` with a roster, and its verdict."""
        words = "--node", "desk", "--roster", roster, "--wait", "wait", "--abandoned", "gone", "--within", WITHIN, *more
        status, out, line = planner("validate", self.model, self.calls, *words)
        self.assertEqual(status, 0, line)
        return rows_of(out), line

    def test_the_calls(self):
        """Some 22,000 calls; each half-hour has hundreds, and some callers hang up."""
        rows = rows_of((self.made / "export.csv").read_text())
        self.assertEqual(len(rows), sum(offered for (_, queue), (offered, _) in self.levels.items() if queue == "all"))
        self.assertEqual(len(rows), 22582)
        self.assertGreater(min(offered for offered, _ in self.levels.values()), 200)
        self.assertEqual({row["Abandoned"] for row in rows}, {"no", "yes"})
        self.assertGreater(sum(row["Abandoned"] == "yes" for row in rows), 500)

    def test_recorded(self):
        words = "--model", self.model, "--wait", "wait", "--abandoned", "gone", "--within", WITHIN
        self.near(rows_of(self.tells("recorded", self.calls, *words)), "within")

    def test_the_model_with_the_true_roster(self):
        rows, line = self.validated(STAFFING / "roster.csv", "--first", "sales")
        self.near(rows, "modelled_within")
        self.near(rows, "recorded_within")
        self.assertRegex(line, r"^mpplan: the model may be trusted: 9\d\.\d % recorded, 9\d\.\d % modelled, ")

    def test_models_that_are_wrong(self):
        """One agent too many, or too few; a break forgotten; no queue first: each gives another service level somewhere."""
        roster = (STAFFING / "roster.csv").read_text()
        many = self.file("many.csv", roster + "Ida,,mon-fri 08:00,18:00\n")
        few = self.file("few.csv", "".join(line for line in roster.splitlines(keepends=True) if not line.startswith("Hana")))
        for path in many, few:
            rows, line = self.validated(path, "--first", "sales")
            self.assertRegex(line, "^mpplan: the model may not be trusted: ")
            self.assertRaises(AssertionError, self.near, rows, "modelled_within")
        late = self.file("late.csv", roster.replace("Ana,,mon-fri 12:30", "Ana,,mon-fri 12:00"))
        for path, words in (late, ["--first", "sales"]), (STAFFING / "roster.csv", []):
            self.assertRaises(AssertionError, self.near, self.validated(path, *words)[0], "modelled_within")

    def days(self, weekday):
        """Returns the calls of each day of a weekday, as the simulation takes them, with endless patience."""
        found = {}
        for row in rows_of(self.calls.read_text()):
            day, at = divmod(int(row["time"]), 864000)
            # The clock is put forward on the 27th day.
            found.setdefault(day, []).append((at + 36000 * (day >= 27), row["source"], int(row["handling"]), 10**9))
        return [calls for day, calls in found.items() if day % 7 == WEEKDAYS.index(weekday)]

    def holds(self, days, counts, ranks=None, goal=None):
        """Returns whether 80 % of the calls of each half-hour wait at most 20 s, and all are answered, with these numbers of agents from 8:00 on. The
        agents of a half-hour are the first of a list, and the first who is free takes a call, from the queue of the least rank. With `goal`, only the
        calls of this queue count."""
        begins = [288000 + at * 18000 for at in range(len(counts))]
        agents = [[(at, at + 18000) for at, count in zip(begins, counts) if count > place] for place in range(max(counts))]
        levels = [[0, 0] for _ in counts]
        for calls in days:
            served = self.simulation.served(calls, agents, ranks or {"sales": 0, "service": 0}, True)
            for (arrive, queue, *_), (wait, is_answered) in zip(calls, served):
                if goal not in (None, queue):
                    continue
                level = levels[(arrive - begins[0]) // 18000]
                level[0] += 1
                level[1] += wait <= WITHIN
                if not is_answered:
                    return False
        return all(5 * within >= 4 * offered for offered, within in levels)

    def test_the_need(self):
        """What `staff` finds reaches 80/20 in each half-hour of the simulation, and with any agent fewer some half-hour misses it. The table has the
        number by Erlang's formula beside it, which is another one in some half-hours."""
        idle = "if these callers hung up, they count as no work, so fewer agents seem to be enough"
        said = f"mpplan: warning: 628 of 22,582 calls at desk need 0 ticks: {idle}\n"
        said += "mpplan: figures of several sources together (sales, service) at desk; --by source gives each\n"
        for weekday in "Monday", "Friday":
            words = "--node", "desk", "--goal", "80/20", "--weekday", weekday.lower()
            table = rows_of(self.tells("staff", self.model, self.calls, *words, error=said))
            counts, days = [int(row["agents"]) for row in table], self.days(weekday)
            self.assertEqual((table[0]["from"], len(days)), ("08:00", 8))
            self.assertAlmostEqual(sum(float(row["calls"]) for row in table), sum(map(len, days)) / 8, delta=0.1)
            self.assertTrue(self.holds(days, counts))
            for at, count in enumerate(counts):
                self.assertFalse(self.holds(days, [*counts[:at], count - 1, *counts[at + 1 :]]), (weekday, at))
            table = [row for row in table if float(row["calls"])]
            erlang = [erlang_c(float(row["calls"]), float(row["handling_time"]), 0.8) for row in table]
            self.assertEqual([int(row["erlang_c"]) for row in table], erlang)
            gaps = [int(row["agents"]) - other for row, other in zip(table, erlang)]
            self.assertTrue(any(gaps) and max(map(abs, gaps)) < 3, gaps)

    def test_the_need_if_a_queue_goes_first(self):
        """As above, with `sales` first, for the goal of all calls and for that of `sales` only."""
        ranks, days = {"sales": 0, "service": 1}, self.days("Monday")
        for words, goal in (["--goal", "80/20"], None), (["--goal", "sales=80/20"], "sales"):
            status, text, _ = planner("staff", self.model, self.calls, "--node", "desk", "--weekday", "monday", "--first", "sales", *words)
            table = [row for row in rows_of(text) if row.get("queue", "all") == "all"]
            counts = [int(row["agents"]) for row in table]
            self.assertEqual((status, table[0]["from"]), (0, "08:00"))
            self.assertTrue(self.holds(days, counts, ranks, goal))
            for at, count in enumerate(counts):
                if count:
                    self.assertFalse(self.holds(days, [*counts[:at], count - 1, *counts[at + 1 :]], ranks, goal), (words, at))


if __name__ == "__main__":
    unittest.main()
