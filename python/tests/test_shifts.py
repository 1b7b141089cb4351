"""Shifts that cover a need: rosters are judged by a checker that never chooses, and their cost by a search through all choices."""

import doctest
import os
import random
import re
import unittest
from fractions import Fraction
from unittest import mock

from commands import InFolder, planner
from ground import EXAMPLES, Test
from rules_of_shifts import WEEK, broken, cheapest, first_in_order, minute, rows_of

import mpsim.agents.forms
import mpsim.agents.shifts
import mpsim.agents.solvers
from mpsim.agents.forms import Form
from mpsim.agents.solvers import GLPK, MISSING, SCIPY, SOLVERS, Program, Row, canonical, least, solver_named

HEAD = "form,begin,length,break,between,cost,most\n"
OFFICE = HEAD + "early,08:00-09:00/30min,5h,1h,2h-4h,,\nshort,08:00 10:00 12:00,2h,,,2.5,1\n"
NEED = "from,agents\n08:00,1\n09:00,2\n10:00,2\n11:00,2\n12:00,1\n"
ROSTER = """agent,queues,from,to
early 1,,08:00,10:00
early 1,,11:00,13:00
early 2,,08:00,11:00
early 2,,12:00,13:00
short 1,,10:00,12:00
"""


def installed(name=None):
    try:
        return solver_named(name)
    except ValueError:
        return None


HERE = [name for name in SOLVERS if installed(name)]
needs_solver = unittest.skipUnless(HERE, "neither scipy nor glpsol is installed")
needs_both = unittest.skipUnless(len(HERE) == 2, "only one of scipy and glpsol is installed")


def drawn(draw):
    """Returns the texts of a need of a day and of forms, at random, and the minutes of an interval."""
    every = draw.choice([30, 60, 60])
    first, count = draw.choice([0, 480, 480, 1440 - 4 * every]), draw.randrange(2, 6)
    times = [first + at * every for at in range(count) if first + at * every < 1440]
    need = ["from,agents", *(f"{at // 60:02}:{at % 60:02},{draw.choice([0, 1, 1, 2, 3])}" for at in times)]
    forms = []
    for name in "early", "late", "part"[: draw.choice([0, 4])]:
        begins = sorted({draw.choice(times + [(times[0] - every) % 1440, times[0] + 15]) for _ in range(draw.randrange(1, 4))})
        lasts = every * draw.randrange(1, 5)
        rest, between = "", ""
        if draw.random() < 0.5 and lasts > every:
            rest = draw.choice([15, every])
            from_ = draw.randrange(0, lasts - rest + 1, 15)
            between = f"{from_}min-{draw.randrange(from_ + rest, lasts + 1, 15)}min"
            if draw.random() < 0.3:
                begins = begins[:1]
                between = "-".join(f"{at // 60 % 24:02}:{at % 60:02}" for at in (begins[0] + from_, begins[0] + from_ + rest + 15))
            rest = f"{rest}min"
        texts = " ".join(f"{at // 60:02}:{at % 60:02}" for at in begins)
        if name:
            forms.append([name, texts, f"{lasts}min", rest, between, draw.choice(["", "1", "2.5", "0.75"]), draw.choice(["", "", "1", "2"])])
    return "\n".join(need) + "\n", HEAD + "".join(",".join(row) + "\n" for row in forms), every


class Solvers(Test):
    @needs_solver
    def test_docstrings(self):
        for module in mpsim.agents.forms, mpsim.agents.shifts, mpsim.agents.solvers:
            self.assertEqual(doctest.testmod(module)[0], 0)

    @needs_solver
    def test_the_first_of_the_cheapest(self):
        """Among all values of small programs, by each solver."""
        draw, ties = random.Random(3), 0
        for _ in range(60):
            highs = [draw.randrange(1, 4) for _ in range(draw.randrange(1, 6))]
            places = range(len(highs))
            rows = [Row({at: 1 for at in places if draw.random() < 0.6}, low=draw.randrange(4)) for _ in range(draw.randrange(1, 4))]
            rows.append(Row({at: draw.choice([1, 2, -1]) for at in places}, high=draw.randrange(2, 6)))
            rows, objective = [row for row in rows if row.parts], [draw.choice([0, 1, 1, 2]) for _ in places]
            program = Program(highs, rows)
            wanted = first_in_order(highs, lambda values: all(row.holds(values) for row in rows), objective)
            for solver in HERE:
                if wanted is None:
                    self.assertRaises(ValueError, canonical, program, objective, solver)
                else:
                    self.assertEqual(canonical(program, objective, solver), wanted)
                    ties += least(program, objective, solver) != wanted
        self.assertGreater(ties, 0)

    def test_rows(self):
        self.assertEqual([Row({0: 2, 2: -1}, 1, 3).holds([value, 9, 1]) for value in range(4)], [False, True, True, False])
        self.assertEqual([Row({0: 1}, low=1).holds([value]) for value in range(2)], [False, True])
        self.assertEqual([Row({0: 1}, high=0).holds([value]) for value in range(2)], [True, False])

    def test_values_of_a_solver_are_checked(self):
        program, why = Program([2, 2], [Row({0: 1, 1: 1}, low=3)]), "^the solver glpk returns values that break the constraints$"
        for values in [3, 0], [1, 1], [-1, 4]:
            with mock.patch("mpsim.agents.solvers._by_glpk", return_value=values):
                self.assertRaisesRegex(ValueError, why, least, program, [1, 1], GLPK)
        with mock.patch("mpsim.agents.solvers._by_glpk", return_value=[-1, 2]):
            self.assertRaisesRegex(ValueError, why, least, Program([2, 2], []), [1, 1], GLPK)

    def test_no_solver(self):
        with mock.patch("shutil.which", return_value=None), mock.patch("mpsim.agents.solvers._has_scipy", return_value=False):
            self.assertRaisesRegex(ValueError, f"^{re.escape(MISSING)}$", solver_named)
            self.assertRaisesRegex(ValueError, "^the solver glpk isn't installed; ", solver_named, GLPK)
        with mock.patch("shutil.which", return_value="glpsol"), mock.patch("mpsim.agents.solvers._has_scipy", return_value=False):
            self.assertEqual(solver_named(), GLPK)
            self.assertRaisesRegex(ValueError, "^the solver scipy isn't installed; ", solver_named, SCIPY)
        with mock.patch("shutil.which", return_value="glpsol"), mock.patch("mpsim.agents.solvers._has_scipy", return_value=True):
            self.assertEqual([solver_named(), solver_named(GLPK)], [SCIPY, GLPK])

    @unittest.skipUnless(GLPK in HERE, "glpsol isn't installed")
    def test_a_solver_that_fails(self):
        program = Program([1], [Row({0: 1}, low=2)])
        self.assertRaisesRegex(ValueError, "^the solver glpk finds no shifts: ", least, program, [1], GLPK)
        self.assertEqual(least(Program([5, 5, 5], [Row({2: 1}, low=3)]), [0, 0, 0], GLPK)[2], 3)

    @unittest.skipUnless(SCIPY in HERE, "scipy isn't installed")
    def test_scipy_that_fails(self):
        self.assertRaisesRegex(ValueError, "^the solver scipy finds no shifts: ", least, Program([1], [Row({0: 1}, low=2)]), [1], SCIPY)
        self.assertEqual(least(Program([5, 5], []), [1, 1], SCIPY), [0, 0])


@needs_solver
class Shifts(InFolder):
    def roster(self, need, forms, *words, column="agents", error=None):
        """Returns what the command writes to stdout and stderr."""
        self.file("need.csv", need), self.file("forms.csv", forms)
        words = ["shifts", self.folder / "need.csv", "--forms", self.folder / "forms.csv", "--column", column, *words]
        if error is not None:
            return self.refuses(error, *words)
        status, out, line = planner(*words)
        self.assertEqual(status, 0, line)
        return out, line

    def refused(self, why, need=NEED, forms=OFFICE, *words):
        self.roster(need, forms, *words, error=why.replace("FORMS", str(self.folder / "forms.csv")).replace("NEED", str(self.folder / "need.csv")))

    def test_the_cheapest_roster(self):
        """Random needs: the checker finds nothing, the cost is the least of all, and what can't be covered is an error that names an interval."""
        draw, covered, not_covered = random.Random(4), 0, 0
        for number in range(150):
            need, forms, every = drawn(draw)
            if all(row["agents"] == "0" for row in rows_of(need)):
                continue
            least_cost = cheapest(need, forms, every=every)
            self.file("need.csv", need), self.file("forms.csv", forms)
            words = "shifts", self.folder / "need.csv", "--forms", self.folder / "forms.csv", "--column", "agents", "--every", f"{every}min"
            solver = HERE[number % len(HERE)]
            if least_cost is None:
                status, out, line = planner(*words, "--solver", solver)
                self.assertEqual((status, out), (1, ""), (need, forms))
                found = re.search(r"^mpplan: (\d\d:\d\d) needs (\d) agents?, and (?:no shift covers it|the forms allow only (\d): )", line)
                self.assertTrue(found, line)
                row = next(row for row in rows_of(need) if row["from"] == found[1])
                self.assertEqual(row["agents"], found[2])
                # So many of them, and no more, can be there.
                alone = lambda count: f"from,agents\n{found[1]},{count}\n"
                if found[3] is None:
                    self.assertIsNone(cheapest(alone(1), forms, every=every))
                not_covered += 1
                continue
            out, line = self.roster(need, forms, "--every", f"{every}min", "--solver", solver)
            self.assertEqual(broken(need, forms, out, every=every), ([], least_cost), (need, forms, out))
            self.assertIn(f"at a cost of {float(least_cost):,g}: ", line)
            covered += 1
        self.assertGreater((covered, not_covered), (60, 20))

    def test_a_roster(self):
        """Two can't take their breaks and be there from 10:00 to 12:00, so a short shift is added."""
        out, line = self.roster(NEED, OFFICE)
        self.assertEqual((broken(NEED, OFFICE, out), cheapest(NEED, OFFICE)), (([], Fraction("10.5")), Fraction("10.5")))
        self.assertEqual(out, ROSTER)
        self.assertEqual(line, "mpplan: 3 shifts at a cost of 10.5: 2 early, 1 short\n")

    @needs_both
    def test_both_solvers_write_the_same_roster(self):
        draw, ties = random.Random(5), 0
        for _ in range(25):
            need, forms, every = drawn(draw)
            if all(row["agents"] == "0" for row in rows_of(need)) or cheapest(need, forms, every=every) is None:
                continue
            found = [self.roster(need, forms, "--every", f"{every}min", "--solver", solver)[0] for solver in SOLVERS]
            self.assertEqual(found[0], found[1], (need, forms))
            ties += 1
        self.assertGreater(ties, 8)

    def test_nights_go_round_the_week(self):
        """The night from Sunday to Monday covers Monday morning, and nobody is in two shifts at once."""
        week = ["Monday", "Tuesday", "Wednesday", "Thursday", "Friday", "Saturday", "Sunday"]
        need = "weekday,from,agents\n" + "".join(f"{day},{at:02}:00,1\n" for day in week for at in (0, 5, 21, 22))
        forms = HEAD + "night,21:00,9.5h,30min,23:30-01:00,,\nlong,20:00,11h,,,30,\n"
        out, line = self.roster(need, forms, "--every", "1h")
        self.assertEqual(broken(need, forms, out), ([], 63))
        self.assertIn("night 1,,sun 21:00,23:30\nnight 1,,mon 00:00,06:30\n", out)
        self.assertEqual(line, "mpplan: 7 shifts at a cost of 63: 7 night, 0 long\n")
        # One agent can't have a night and the day after it.
        forms = HEAD + "x,08:00 20:00,13h,,,,\n"
        for one, other, rows in (
            ("Tuesday", "Wednesday", ["x 1,,tue 20:00,09:00", "x 2,,wed 08:00,21:00"]),
            ("Sunday", "Monday", ["x 1,,mon 08:00,21:00", "x 2,,sun 20:00,09:00"]),
        ):
            out, _ = self.roster(f"weekday,from,agents\n{one},22:00,1\n{other},10:00,1\n", forms, "--every", "1h")
            self.assertEqual(out.splitlines()[1:], rows)

    def test_rest(self):
        """Between two shifts of an agent there is so much time, also from Sunday to Monday; more agents take the same shifts."""
        week, draw = ["Monday", "Tuesday", "Wednesday", "Thursday", "Friday", "Saturday", "Sunday"], random.Random(9)
        forms = HEAD + "x,06:00 14:00 22:00,8h,30min,3h-5h,,\ny,09:00-12:00/1h,5h,,,,\n"
        more = 0
        for _ in range(4):
            times = [(day, at) for day in week for at in range(0, 24, 4) if draw.random() < 0.4]
            need = "weekday,from,agents\n" + "".join(f"{day},{at:02}:00,{draw.randrange(3)}\n" for day, at in times)
            plain, line = self.roster(need, forms, "--every", "1h")
            for rest in 8, 11, 16:
                out, said = self.roster(need, forms, "--every", "1h", "--rest", f"{rest}h")
                self.assertEqual(broken(need, forms, out)[0], [])
                agents = {}
                for row in rows_of(out):
                    begin = WEEK.index(row["from"].split()[0]) * 1440 + minute(row["from"].split()[1])
                    agents.setdefault(row["agent"], []).append((begin, begin + ((minute(row["to"]) - begin) % 1440 or 1440)))
                self.assertEqual(said, f"{line}mpplan: {len(agents)} agents with at least {rest}h between two shifts\n")
                for spans in agents.values():
                    spans.sort()
                    gaps = [(other[0] - one[1]) % 10080 for one, other in zip(spans, [*spans[1:], spans[0]])]
                    self.assertTrue(all(gap == 30 or gap >= 60 * rest for gap in gaps), (spans, gaps))
                bare = lambda text: sorted((row["from"], row["to"]) for row in rows_of(text))
                self.assertEqual(bare(out), bare(plain))
                more += len(agents) > len({row["agent"] for row in rows_of(plain)})
        self.assertGreater(more, 1)
        day = "from,agents\n08:00,1\n"
        self.refused(
            "the form x every day leaves 960 minutes between two shifts, and 961 are asked for",
            day,
            HEAD + "x,08:00,8h,,,,\n",
            "--every",
            "1h",
            "--rest",
            "961min",
        )
        self.assertEqual(self.roster(day, HEAD + "x,08:00,8h,,,,\n", "--every", "1h", "--rest", "16h")[0].splitlines()[1:], ["x 1,,08:00,16:00"])
        self.refused("--rest 90s: not whole minutes", day, HEAD + "x,08:00,8h,,,,\n", "--every", "1h", "--rest", "90s")

    def test_a_need_with_rows_of_queues(self):
        """Only the rows of all calls count."""
        forms = HEAD + "x,08:00,1h,,,,\n"
        need = "from,queue,agents\n08:00,all,2\n08:00,sales,\n09:00,all,0\n09:00,sales,\n"
        self.assertEqual(len(self.roster(need, forms)[0].splitlines()), 3)

    def test_the_evening_before(self):
        """A shift of Sunday evening, a day without a row, covers Monday's first hours; of dates as well."""
        forms = HEAD + "night,22:00,8h,,,,\n"
        rows = ["night 1,,sun 22:00,06:00", "night 2,,sun 22:00,06:00"]
        self.assertEqual(self.roster("weekday,from,agents\nMonday,01:00,2\n", forms, "--every", "1h")[0].splitlines()[1:], rows)
        out, _ = self.roster("date,from,agents\n2026-03-01,01:00,1\n2026-03-01,22:00,1\n", forms, "--every", "1h")
        rows = ["night 1,,2026-02-28T22:00,2026-03-01T06:00", "night 1,,2026-03-01T22:00,2026-03-02T06:00"]
        self.assertEqual(out.splitlines()[1:], rows)
        # Like any other day: the night before is a night too.
        self.assertEqual(self.roster("day,from,agents\nall days,01:00,1\n", forms, "--every", "1h")[0].splitlines()[1:], ["night 1,,22:00,06:00"])

    def test_an_interval_counts_if_an_agent_is_there_for_all_of_it(self):
        need = "from,agents\n08:00,1\n09:00,1\n"
        cases = [("08:00", "2h", 1), ("07:30", "2.5h", 1), ("08:00 08:30", "119min", 2), ("08:00 09:00", "90min", 2)]
        cases += [("08:00 08:30", "89min", 0), ("08:30", "2h", 0)]
        for begin, lasts, count in cases:
            forms = HEAD + f"x,{begin},{lasts},,,1,\n"
            if count:
                self.assertIn(f"mpplan: {count} shift", self.roster(need, forms)[1])
            else:
                words = "shifts", self.file("need.csv", need), "--forms", self.file("forms.csv", forms), "--column", "agents"
                self.assertEqual(planner(*words)[0], 1)

    def test_the_column_and_the_length_of_intervals(self):
        need = "weekday,from,agents,rostered\nMonday,08:00,1,2\nMonday,08:30,1,2\nTuesday,10:00,0,0\n"
        self.file("need.csv", need), self.file("forms.csv", HEAD + "x,08:00,1h,,,,\n")
        words = "shifts", self.folder / "need.csv", "--forms", self.folder / "forms.csv"
        self.assertIn("mpplan: 2 shifts at a cost of 2: 2 x", planner(*words)[2])
        self.assertIn("mpplan: 1 shift at a cost of 1: 1 x", planner(*words, "--column", "agents")[2])
        for every, minutes in ("1h", 60), ("45min", 45):
            self.refuses(f"{self.folder / 'need.csv'}: its times of day aren't those of intervals of {minutes} minutes", *words, "--every", every)

    def test_what_cannot_be_covered(self):
        need = "weekday,from,agents\nTuesday,07:00,0\nTuesday,08:00,4\n"
        self.refused("Tuesday 08:00 needs 4 agents, and no shift covers it", need, HEAD + "x,09:00,4h,,,,\n")
        tight = HEAD + "x,08:00 09:00,1h,,,,3\n"
        self.refused("09:00 needs 2 agents, and the forms allow only 1: allow more or other shifts", "from,agents\n08:00,2\n09:00,2\n", tight)
        need, why = "date,from,agents\n2026-03-02,08:00,0\n2026-03-02,09:00,4\n", "the forms allow only 3: allow more or other shifts"
        self.refused(f"2026-03-02 09:00 needs 4 agents, and {why}", need, tight)

    def test_invalid_forms(self):
        for row, why in {
            ",08:00,4h,,,,": "the form has no name",
            "x,,4h,,,,": "begin '': expected times of day such as 08:00 or 07:00-10:00/30min",
            "x,24:00,4h,,,,": "begin '24:00': expected times of day such as 08:00 or 07:00-10:00/30min",
            "x,8,4h,,,,": "begin '8': not h:mm or h:mm:ss",
            "x,08:00:30,4h,,,,": "begin '08:00:30': not whole minutes",
            "x,10:00-08:00/30min,4h,,,,": "begin '10:00-08:00/30min': expected a rising range such as 07:00-10:00/30min",
            "x,08:00-10:00/0min,4h,,,,": "begin '08:00-10:00/0min': expected a rising range such as 07:00-10:00/30min",
            "x,08:00,4,,,,": "length '4': not a length of time: expected a number and one of ns, us, ms, s, sec, min, h, d",
            "x,08:00,25h,,,,": "length '25h': a shift takes at most 24h and more than its break",
            "x,08:00,0h,,,,": "length '0h': a shift takes at most 24h and more than its break",
            "x,08:00,30min,30min,0h-1h,,": "length '30min': a shift takes at most 24h and more than its break",
            "x,08:00,4h,30min,,,": "break and between go together",
            "x,08:00,4h,,1h-2h,,": "break and between go together",
            "x,08:00,4h,30min,1h,,": "between '1h': expected such as 3h-5h or 11:00-14:00",
            "x,08:00,4h,30min,4h-5h,,": "a shift from 08:00 has no 30min of break between 4h-5h",
            "x,08:00 13:00,4h,30min,11:00-12:00,,": "a shift from 13:00 has no 30min of break between 11:00-12:00",
            "x,08:00,4h,,,-1,": "cost '-1': expected a number",
            "x,08:00,4h,,,,many": "most 'many': expected a number of shifts",
            "x,08:00,4h": "3 fields instead of 7",
            "x,08:00,4h,,,,\nx,09:00,4h,,,,": "the form x is there twice",
        }.items():
            self.refused(f"FORMS: row {2 + row.count(chr(10))}: {why}", NEED, f"{HEAD}{row}\n")
        self.refused("FORMS: no form of shifts", NEED, HEAD)
        self.refused("FORMS: no column 'length'; its columns are form, begin", NEED, "form,begin\n")

    def test_invalid_needs(self):
        for need, why in {
            "from\n08:00\n": "no column 'agents'; its columns are from",
            "from,agents\n08:00,x\n": "row 2: agents 'x': expected a number of agents",
            "from,agents\n08:00\n": "row 2: 1 fields instead of 2",
            "from,agents\n8,1\n": "row 2: from '8': not h:mm or h:mm:ss",
            "from,agents\n08:00,1\n": "the length of its intervals is unknown: give --every",
            "from,agents\n08:00,1\n\n08:00,1\n": "row 4: 08:00 is there twice: one row per interval",
            "weekday,from,agents\nMontag,08:00,1\n": "row 2: 'Montag' isn't a weekday",
            "weekday,from,agents\nMonday,08:00,1\nmonday,08:00,1\n": "row 3: Monday 08:00 is there twice: one row per interval",
            "date,from,agents\nMonday,08:00,1\n": "row 2: Invalid isoformat string: 'Monday'",
            "from,agents\n08:00,1\n08:50,1\n": "its times of day aren't those of intervals of 50 minutes",
        }.items():
            self.refused(f"NEED: {why}", need)

    def test_staffing_to_a_roster(self):
        """What `staff` finds is covered by what `shifts` chooses, which `pool` reads: in each interval there are as many agents as needed."""
        week = [EXAMPLES / "week" / name for name in ("model.txt", "trace.csv")]
        need = self.tells("staff", *week, "--node", "desk")
        forms = HEAD + "early,07:30-10:00/30min,8.5h,30min,3h-5.5h,,\npart,08:00-16:00/30min,4h,,,5,\n"
        out, _ = self.roster(need, forms)
        self.assertEqual(broken(need, forms, out, every=30)[0], [])
        roster = self.file("roster.csv", out)
        table = {row["from"]: row for row in rows_of(self.tells("pool", *week, "--node", "desk", "--roster", roster))}
        for row in rows_of(need):
            self.assertGreaterEqual(float(table[row["from"]]["agents"]), 1)
        every = [row for row in table.values() if int(row["offered"])]
        self.assertGreaterEqual(sum(float(row["within"]) * int(row["offered"]) for row in every) / sum(int(row["offered"]) for row in every), 0.8)


class Forms(Test):
    def test_breaks(self):
        """At the earliest time and at each full interval after it; over midnight by the clock."""
        form = Form("x", [480], 300, 30, (100, 200))
        self.assertEqual([form.pauses(480, every) for every in (30, 60)], [[580, 600, 630], [580, 600]])
        form = Form("x", [1320], 480, 30, (1430, 1500), by_clock=True)
        self.assertEqual(form.pauses(1320, 30), [1430, 1440, 1470])
        self.assertEqual(Form("x", [60], 300, 30, (120, 200), by_clock=True).pauses(60, 30), [120, 150])
        self.assertEqual(Form("x", [1320], 480, 30, (120, 200), by_clock=True).pauses(1320, 30), [1560, 1590])

    def test_the_checker_finds(self):
        """Each rule that a roster may break, planted in one that breaks none."""
        forms, need = OFFICE, NEED
        self.assertEqual(broken(need, forms, ROSTER)[0], [])
        for before, after, rule in (
            ("short 1,,10:00,12:00\n", "", "too few at 600"),
            ("short 1,,10:00,12:00\n", "short 1,,10:00,12:00\nshort 2,,12:00,14:00\n", "too many of a form"),
            ("early 1,,08:00,10:00\nearly 1,,11:00,13:00", "early 1,,08:00,09:00\nearly 1,,10:00,13:00", "break outside its hours"),
            ("11:00,13:00", "11:00,14:00", "length"),
            ("11:00,13:00", "10:30,12:30", "length of the break"),
            ("short 1,,10:00,12:00", "short 1,,11:00,13:00", "begin"),
            ("early 2", "early 1", "two shifts on a day"),
            ("early 1,,08:00", "early 1,all,08:00", "form of a row"),
            ("early 1,,08:00", "early 1,,mon 08:00", "form of a row"),
        ):
            self.assertIn(before, ROSTER)
            self.assertIn(rule, broken(need, forms, ROSTER.replace(before, after))[0], after)


if __name__ == "__main__":
    unittest.main()
