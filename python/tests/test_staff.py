"""The least number of agents per interval: what is found is judged by whole runs of a roster, written here independently of the search."""

import csv
import doctest
import io
import json
import random
import unittest
from fractions import Fraction

from commands import InFolder, idle, planner
from ground import EXAMPLES, Test

import mpsim.agents.plans
import mpsim.agents.staffing
import mpsim.tables.needs
import mpsim.times.intervals
from mpsim.agents import FIRST, Agent, Call, Group
from mpsim.agents.plans import Plan
from mpsim.agents.staffing import Goal, calls_of, erlang_c, least, searched
from mpsim.limits import FOREVER
from mpsim.times.calendar import Calendar
from mpsim.times.intervals import days_of
from mpsim.times.texts import HOUR, MINUTE, SECOND

WEEK = EXAMPLES / "week" / "model.txt", EXAMPLES / "week" / "trace.csv"


def shares(counts, begins, calls, levels, priorities=None):
    """Returns, per interval of some days, how many calls of each level arrive, how many of them are served in time, whether somebody who has a level
    waits at some tick of it while it has no agent, and the waits: for numbers of agents per interval, the ticks at which intervals begin and the last
    one ends, calls, and levels: ticks by queue, or by None for all calls. The last interval that isn't empty has no end."""
    bounds = list(zip(begins, begins[1:]))
    last = max(number for number, (begin, end) in enumerate(bounds) if begin < end)
    bounds[last] = bounds[last][0], FOREVER
    agents = [Agent([it for it, count in zip(bounds, counts) if count >= place and it[0] < it[1]]) for place in range(1, max(counts) + 1)]
    arrived, hits, alone = [{} for _ in counts], [{} for _ in counts], [False] * len(counts)
    waits = [[] for _ in counts]
    for call, (agent, wait) in zip(calls, Group(agents, priorities, FIRST).serve(calls)):
        at = max(number for number, (begin, end) in enumerate(bounds) if begin <= call.arrive < end)
        mine = [level for level in levels if level in (None, call.queue)]
        for level in mine:
            arrived[at][level] = arrived[at].get(level, 0) + 1
            hits[at][level] = hits[at].get(level, 0) + (bool(agent) and wait <= levels[level])
        if agent:
            waits[at].append(wait)
        until = call.arrive + (FOREVER if wait is None else wait)
        for number, (begin, end) in enumerate(bounds):
            # A call that begins at once waits for no tick.
            alone[number] |= bool(mine) and counts[number] == 0 and max(begin, call.arrive) < min(end, until)
    return arrived, hits, alone, waits


def holds(counts, days, goal, priorities=None):
    levels = dict(goal.queues)
    if goal.share or not levels:
        levels[None] = goal.share, goal.within
    every = [shares(counts, begins, calls, {level: within for level, (_, within) in levels.items()}, priorities) for begins, calls in days]
    for number in range(len(counts)):
        for level, (share, _) in levels.items():
            arrived, hits = (sum(it[part][number].get(level, 0) for it in every) for part in (0, 1))
            if hits < share * arrived:
                return False
        if any(it[2][number] for it in every):
            return False
    return True


def drawn(draw):
    """Returns a Calendar, days, their calls, and a goal, at random."""
    tick, count = draw.choice([SECOND, 10 * SECOND]), draw.randrange(1, 4)
    every = draw.choice([HOUR, 2 * HOUR, 6 * HOUR])
    end, arrivals, services = count * 24 * HOUR // tick, [], []
    opening = draw.choice([(0, 24), (8, 12), (9, 10)])
    for day in range(count):
        for _ in range(draw.choice([0, 5, 40])):
            arrivals.append((day * 24 * HOUR + draw.randrange(opening[0] * HOUR, opening[1] * HOUR)) // tick)
            services.append(draw.randrange(draw.choice([1, 600, 6000])))
    order = sorted(range(len(arrivals)), key=arrivals.__getitem__)
    arrivals, services = [arrivals[at] for at in order], [services[at] for at in order]
    patience = [draw.randrange(900) for _ in arrivals] if draw.random() < 0.3 else None
    goal = Goal(Fraction(draw.choice([50, 80, 95, 100]), 100), draw.choice([0, 20, 600, 5000]))
    days = days_of(Calendar(tick), end - 1, every)
    return days, arrivals, services, patience, goal, every


class Least(Test):
    def test_docstrings(self):
        for module in mpsim.agents.staffing, mpsim.agents.plans, mpsim.tables.needs, mpsim.times.intervals:
            self.assertEqual(doctest.testmod(module)[0], 0)

    def test_it_reaches_the_goal_and_one_fewer_misses_it(self):
        """In whole runs, each number lowered by one in turn. The waits are those of the search."""
        draw, lowered = random.Random(8), 0
        for _ in range(120):
            days, arrivals, services, patience, goal, every = drawn(draw)
            calls = calls_of(days, arrivals, services, patience)
            found = least(list(zip(days, calls)), goal)
            counts = [it.agents for it in found]
            mine = []
            for day in days:
                here = [at for at, arrive in enumerate(arrivals) if day.begins[0] <= arrive < day.begins[-1]]
                mine.append((day.begins, [Call(arrivals[at], services[at], "", patience and patience[at]) for at in here]))
            if max(counts) == 0:
                self.assertEqual(arrivals, [])
                continue
            self.assertTrue(holds(counts, mine, goal))
            waits = [sum((shares(counts, *it, {})[3][number] for it in mine), []) for number in range(len(counts))]
            self.assertEqual([sorted(it.waits) for it in found], list(map(sorted, waits)))
            for number, count in enumerate(counts):
                if count:
                    lowered += 1
                    fewer = [*counts[:number], count - 1, *counts[number + 1 :]]
                    self.assertFalse(any(fewer) and holds(fewer, mine, goal), (counts, number, goal))
        self.assertGreater(lowered, 300)

    def test_queues_and_stretches_of_days(self):
        """Random weeks with calls by night, two queues of which one may go first, and levels of all calls, of one queue or of both: in whole runs of
        each stretch the levels are kept, and with an agent fewer in any interval one is missed."""
        draw, lowered, nights, less = random.Random(21), 0, 0, 0
        for number in range(100):
            every, end = draw.choice([6, 8, 12]) * HOUR, draw.randrange(1, 12) * 86400
            arrivals = sorted(draw.randrange(end) for _ in range(draw.choice([3, 20, 50])))
            services = [draw.randrange(draw.choice([600, 30000])) for _ in arrivals]
            queues = [draw.choice(["a", "b"]) for _ in arrivals]
            level = lambda: (Fraction(draw.choice([50, 80, 100]), 100), draw.choice([0, 600, 9000]))
            whole, each = draw.choice(
                [(level(), {}), (level(), {"a": level()}), ((Fraction(0), 0), {"a": level()}), (level(), {"a": level(), "b": level()})]
            )
            goal, priorities = Goal(*whole, None, each), draw.choice([None, {"a": 1}, {"a": 1, "b": 2}, {"b": 1}])
            days = days_of(Calendar(SECOND, draw.choice(["2026-03-01T00:00", "2026-03-04T00:00", None])), end - 1, every)
            choice = draw.choice([{}, {"date": days[draw.randrange(len(days))].name}])
            plan = Plan(days, **choice)
            stretches = list(zip(plan.stretches, calls_of(plan.stretches, arrivals, services, None, queues)))
            search = searched(stretches, goal, None, priorities)
            counts, mine = [it.agents for it in search.found], []
            for stretch in plan.stretches:
                here = [at for at, arrive in enumerate(arrivals) if stretch.begins[0] <= arrive < stretch.begins[-1]]
                mine.append((stretch.begins, [Call(arrivals[at], services[at], queues[at]) for at in here]))
            less += sum(search.left().values())
            if max(counts) == 0:
                continue
            self.assertTrue(holds(counts, mine, goal, priorities), number)
            waits = [sum((shares(counts, *it, {}, priorities)[3][at] for it in mine), []) for at in range(len(counts))]
            self.assertEqual([sorted(it.waits) for it in search.found], list(map(sorted, waits)))
            for at, count in enumerate(counts):
                if count:
                    lowered += 1
                    fewer = [*counts[:at], count - 1, *counts[at + 1 :]]
                    self.assertFalse(any(fewer) and holds(fewer, mine, goal, priorities), (number, counts, at, goal))
            # With each day begun empty, other numbers.
            alone = least([(day, calls_of([day], arrivals, services, None, queues)[0]) for day in plan.parts[-1].days], goal, None, priorities)
            nights += [it.agents for it in alone] != [it.agents for it in plan.of(plan.parts[-1], search.found)]
        self.assertTrue(lowered > 300 and nights > 5 and less > 10, (lowered, nights, less))

    def test_a_trace_that_ends_within_a_week(self):
        """Who waits when it ends is served by the agents of its last interval, and by nobody on the days after it."""
        days = days_of(Calendar(SECOND, "2026-03-02T00:00"), 3 * 86400 - 1, HOUR)
        plan, arrivals = Plan(days), [3 * 86400 - 100, 3 * 86400 - 90]
        found = least(list(zip(plan.stretches, calls_of(plan.stretches, arrivals, [7200, 60]))), Goal(Fraction(1, 2), 20))
        self.assertEqual([(at, it.agents, it.waits) for at, it in enumerate(found) if it.agents], [(4 * 24 - 1, 1, [0, 7190])])

    def test_levels_of_queues(self):
        """The report of a queue has its own time; that of all calls has none if only a queue has a level, and such calls call nobody in."""
        (day,) = days_of(Calendar(SECOND), 0, HOUR)
        calls = calls_of([day], [3600, 3610, 40000], [100, 100, 100], None, ["a", "b", "b"])
        found = least([(day, calls[0])], Goal(Fraction(0), 0, None, {"a": (Fraction(1), 5)}))
        self.assertEqual([at for at, it in enumerate(found) if it.agents], [1])
        rows = list(mpsim.tables.needs.rows_of(found, 1, HOUR, SECOND, Goal(Fraction(0), 0, None, {"a": (Fraction(1), 5)}), by_queue=True))
        self.assertEqual(
            [[row[0], row[1], row[5], row[7], row[-1]] for row in rows],
            [
                ["01:00", "all", 1, None, None],
                ["01:00", "a", None, 1.0, None],
                ["01:00", "b", None, None, None],
                ["11:00", "all", 0, None, None],
                ["11:00", "b", None, None, None],
            ],
        )
        both = Goal(Fraction(1, 2), 7, None, {"a": (Fraction(1), 5)})
        self.assertEqual(
            [both.times("a"), both.times("b"), both.within_of("a"), both.within_of("b"), both.within_of(None)],
            [[(None, 7), ("a", 5)], [(None, 7)], 5, 7, 7],
        )

    def test_a_call_that_waits_over_the_end_of_an_interval(self):
        """It is served in time only if the next interval, which has no call of its own, has an agent who is free then."""
        (day,) = days_of(Calendar(SECOND), 0, HOUR)
        arrivals, services = [3000, 3590, 3595], [700, 60, 60]
        calls = calls_of([day], arrivals, services, None)
        self.assertEqual([it.agents for it in least(list(zip([day], calls)), Goal(Fraction(1), 20))][:3], [1, 3, 0])
        self.assertEqual([it.agents for it in least(list(zip([day], calls)), Goal(Fraction(1), 5))][:3], [2, 3, 0])
        self.assertEqual([it.agents for it in least(list(zip([day], calls)), Goal(Fraction(1), 0))][:3], [3, 0, 0])
        self.assertEqual([it.agents for it in least(list(zip([day], calls)), Goal(Fraction(1, 3), 0))][:3], [1, 1, 0])

    def test_patience_that_ends_with_an_interval(self):
        """A caller whose patience ends as the next interval begins is served by an agent who comes then, and one tick later isn't."""
        (day,) = days_of(Calendar(SECOND), 0, HOUR)
        for patience, counts, waits in (5, [1, 2], [0, 5]), (4, [2, 0], [0, 0]):
            calls = calls_of([day], [3000, 3595], [9000, 60], [900, patience])
            found = least([(day, calls[0])], Goal(Fraction(1), 5))
            self.assertEqual(([it.agents for it in found][:2], found[0].waits), (counts, waits))

    def test_occupancy(self):
        """Two calls of half an hour each in an hour keep one agent busy, and two half of their time; calls that go on count where they do."""
        (day,) = days_of(Calendar(SECOND), 0, HOUR)
        calls = calls_of([day], [0, 1800, 7000, 7500], [1800, 1800, 400, 0], None)
        for most, counts in (100, [1, 1]), (99, [2, 1]), (50, [2, 1]), (49, [3, 1]), (5, [20, 2]):
            found = least(list(zip([day], calls)), Goal(Fraction(4, 5), 20, Fraction(most, 100)))
            self.assertEqual([it.agents for it in found][:2], counts)
            self.assertEqual([it.worked for it in found][:3], [3600, 200, 200])
            self.assertEqual([it.there for it in found][:2], [3600 * count for count in counts])

    def test_erlang_c(self):
        """A hundred calls of three minutes in half an hour need 14 agents for 80/20, as in published tables; no calls, none. If nearly any
        wait will do, one more agent than there is work for."""
        self.assertEqual([erlang_c(100, 180, 1800, 0.5, within) for within in (10**4, 0)], [11, 12])
        self.assertEqual([erlang_c(calls, 180, 1800, 0.8, 20) for calls in (100, 10, 1000, 0)], [14, 3, 107, None])


class Command(InFolder):
    def table(self, *words, **more):
        return list(csv.DictReader(io.StringIO(self.tells("staff", *words, **more))))

    def test_a_week(self):
        """One day, one weekday and all of them agree; the calls are those of the trace."""
        words = *WEEK, "--node", "desk"
        every = self.table(*words)
        self.assertEqual(list(every[0]), ["weekday", *mpsim.tables.needs.HEADS])
        self.assertEqual(self.table(*words, "--by", "weekday"), every)
        undated = self.file("m.txt", "model 1\n# a tick is 1s\nsource calls\nserver desk talk from calls\n")
        for option in ("--by", "weekday"), ("--weekday", "monday"):
            why = " ".join(option).removesuffix(" monday")
            self.refuses(f"{why} needs the date of time 0: give --start", "staff", undated, WEEK[1], "--node", "desk", *option)
        monday = self.table(*words, "--weekday", "monday")
        date = self.table(*words, "--date", "2026-03-23")
        self.assertEqual([row for row in every if row["weekday"] == "Monday"], monday)
        self.assertEqual([list(row.values())[1:] for row in monday], [list(row.values())[1:] for row in date])
        count = len(WEEK[1].read_text().splitlines()) - 1
        self.assertAlmostEqual(sum(float(row["calls"]) * int(row["days"]) for row in every), count, delta=len(every) / 100)
        self.assertTrue(all(float(row["within"]) >= 0.8 for row in every if row["calls"] != "0.0"))
        more = self.table(*words, "--goal", "95/0")
        self.assertGreater(*[sum(int(row["agents"]) for row in it) for it in (more, every)])
        shrunk = self.table(*words, "--shrinkage", "30%")
        self.assertEqual([int(row["rostered"]) for row in shrunk], [-(-10 * int(row["agents"]) // 7) for row in every])

    def test_the_pool_of_these_numbers_gives_these_figures(self):
        """For one day: the same calls, shares, percentiles and occupancy, from the run of the whole roster."""
        lines = WEEK[1].read_text().splitlines()
        monday = self.file("monday.csv", "".join(f"{line}\n" for line in lines[:1] + [it for it in lines[1:] if int(it.split(",")[1]) < 86400]))
        for more in [], ["--patience", "exp:90s", "--seed", 4]:
            rows = self.table(WEEK[0], monday, "--node", "desk", *more)
            counts, steps = {row["from"]: row["agents"] for row in rows}, []
            for number in range(48):
                time = mpsim.times.intervals.label(number, 30 * MINUTE)
                steps.append(f"{time}={counts.get(time, 0)}")
            words = "pool", WEEK[0], monday, "--node", "desk", "--agents", ",".join(steps), "--choose", "first", *more
            pooled = list(csv.DictReader(io.StringIO(self.tells(*words))))
            names = "from", "within", "p90", "occupancy"
            self.assertEqual([[row[name] for name in names] for row in pooled], [[row[name] for name in names] for row in rows])
            self.assertEqual([int(row["offered"]) for row in pooled], [float(row["calls"]) for row in rows])

    def test_more_and_longer_calls(self):
        """The need of a trace that `scale` and `edit` make; calls of 0 ticks stay so."""
        made, longer = self.folder / "made.csv", self.folder / "longer.csv"
        planner("scale", WEEK[1], "--by", "130%", "--shift", "1d", "--model", WEEK[0], "--out", made)
        planner("edit", made, self.file("c.csv", "record,talk\n*,+45\n"), "--out", longer)
        found, wanted = self.table(*WEEK, "--node", "desk", "--load", "130%", "--add", "handling=45s"), self.table(WEEK[0], longer, "--node", "desk")
        self.assertEqual(found, wanted)
        self.assertNotEqual(found, self.table(*WEEK, "--node", "desk"))
        said = planner("staff", WEEK[0], EXAMPLES / "week" / "recorded.csv", "--node", "desk", "--add", "handling=45s", "--load", "110%")[2]
        self.assertEqual(said, f"mpplan: --add handling=45s: 24 of 713 calls need 0 ticks and stay so\n{idle(24, 713)}")
        self.refuses("--load 90%,110%: give one load, e.g. 112%", "staff", *WEEK, "--node", "desk", "--load", "90%,110%")

    def test_forms(self):
        words = *WEEK, "--node", "desk", "--weekday", "monday"
        rows, text = self.table(*words), self.tells("staff", *words, "--format", "json")
        self.assertEqual([{key: "" if value is None else str(value) for key, value in row.items()} for row in json.loads(text)], rows)
        lines = self.tells("staff", *words, "--format", "md").splitlines()
        self.assertEqual([line.strip("| ").split(" | ")[0:2] for line in lines[2:]], [[row["weekday"], row["from"]] for row in rows])
        self.assertEqual(set(lines[1]), set("|-"))
        german = self.tells("staff", *words, "--csv-style", "excel-de").removeprefix("\ufeff").splitlines()
        plain = [line.replace(",", ".").replace(";", ",") for line in german[1:]]
        self.assertEqual(plain, [",".join(row.values()) for row in rows])

    def test_each_source(self):
        """The rows of all sources are those without --by; each source has its own calls, and its agents are those of all."""
        model = self.file("m.txt", "model 1\n# a tick is 1s\nsource a\nsource b\nserver desk d from a b\n")
        draw = random.Random(3)
        calls = sorted((draw.randrange(4 * 3600), draw.choice("aab"), draw.randrange(1, 400)) for _ in range(300))
        trace = self.file("t.csv", "source,time,d\n" + "".join(f"{source},{time},{d}\n" for time, source, d in calls))
        words = model, trace, "--node", "desk", "--every", "15min"
        together = "mpplan: figures of several sources together (a, b) at desk; --by source gives each\n"
        plain = list(csv.DictReader(io.StringIO(self.tells("staff", *words, error=together))))
        rows = self.table(*words, "--by", "source")
        self.assertEqual([{key: it for key, it in row.items() if key != "queue"} for row in rows if row["queue"] == "all"], plain)
        counts, steps = {row["from"]: row["agents"] for row in plain}, []
        for number in range(96):
            steps.append(f"{mpsim.times.intervals.label(number, 15 * MINUTE)}={counts.get(mpsim.times.intervals.label(number, 15 * MINUTE), 0)}")
        pool = "pool", model, trace, "--node", "desk", "--agents", ",".join(steps), "--choose", "first", "--every", "15min"
        pooled = {(row["from"], row["queue"]): row for row in csv.DictReader(io.StringIO(self.tells(*pool)))}
        for row in rows:
            it = pooled[row["from"], row["queue"]]
            self.assertEqual((float(row["calls"]), row["within"], row["p90"]), (int(it["offered"]), it["within"], it["p90"]))
        for name in "ab":
            mine = [(float(row["calls"]), float(row["handling_time"])) for row in rows if row["queue"] == name]
            self.assertEqual(sum(count for count, _ in mine), sum(source == name for _, source, _ in calls))
            work = sum(d for _, source, d in calls if source == name)
            self.assertAlmostEqual(sum(count * mean for count, mean in mine), work, delta=0.05 * len(calls))
            self.assertEqual({(row["agents"], row["rostered"], row["erlang_c"]) for row in rows if row["queue"] == name}, {("", "", "")})

    def test_a_queue_that_goes_first(self):
        """With the numbers found, `pool` gives each queue these shares and waits; the first queue's goal is kept in each interval, and nobody comes
        for the other one alone."""
        head = "model 1\n# a tick is 1s, time 0 is 2026-03-02T00:00\nsource a\nsource b\nserver desk d from a b\n"
        draw = random.Random(6)
        calls = sorted((draw.randrange(8 * 3600, 12 * 3600), draw.choice("aab"), draw.randrange(1, 900)) for _ in range(200))
        calls += [(80000, "b", 9000), (86500, "b", 60), (86400 + 9 * 3600, "a", 30)]
        model = self.file("m.txt", head)
        trace = self.file("t.csv", "source,time,d\n" + "".join(f"{source},{time},{d}\n" for time, source, d in calls))
        first = "--first", "a", "--then", "b"
        for goals, levels in (
            (["a=80/20"], {"a": 20}),
            (["a=80/20", "70/1min"], {"a": 20, "all": 60}),
            (["b=60/2min", "a=90/10"], {"a": 10, "b": 120}),
        ):
            words = model, trace, "--node", "desk", *first, *(word for goal in goals for word in ("--goal", goal))
            rows = self.table(*words)
            shares = {text.rpartition("=")[0] or "all": float(text.rpartition("=")[2].split("/")[0]) / 100 for text in goals}
            for row in rows:
                if row["queue"] in shares and float(row["calls"]):
                    self.assertGreaterEqual(float(row["within"]), shares[row["queue"]] - 0.0001)
            every = {(row["weekday"], row["from"]): int(row["agents"]) for row in rows if row["queue"] == "all"}
            # At 22:13 there is one call, to the second queue.
            self.assertEqual(every["Monday", "22:00"] > 0, len(shares) > 1)
            roster, label = ["agent,queues,from,to"], lambda at: mpsim.times.intervals.label(at % 48, 30 * MINUTE)
            for place in range(max(every.values())):
                there = [(day, at) for day in ("Monday", "Tuesday") for at in range(48) if every.get((day, label(at)), 0) > place]
                roster += [f"A{place},,{day[:3].lower()} {label(at)},{label(at + 1)}" for day, at in there]
            for level, within in levels.items():
                pool = "pool", model, trace, "--node", "desk", "--roster", self.file("r.csv", "\n".join(roster) + "\n"), *first, "--choose", "first"
                status, out, said = planner(*pool, "--by", "weekday", "--within", within)
                self.assertEqual(status, 0, said)
                pooled = {(row["weekday"], row["from"], row["queue"]): row for row in csv.DictReader(io.StringIO(out))}
                for row in rows:
                    if row["queue"] == level and float(row["calls"]):
                        it = pooled[row["weekday"], row["from"], row["queue"]]
                        self.assertEqual((row["within"], row["p90"]), (it["within"], it["p90"]), (goals, row))

    def test_when_clocks_change(self):
        """The hour that occurs twice is one interval; all calls are counted, and each interval after it begins by the clock."""
        model = "model 1\n# a tick is 1s, time 0 is 2026-10-25T00:00:00+02:00 in Europe/Berlin\nsource a\nserver desk d from a\n"
        # 01:59:59, 02:00 and 02:59 summer time, 02:00 and 02:59 winter time, 03:00, and 23:59:59 by the clock.
        times = 7199, 7200, 10799, 10800, 14399, 14400, 89999
        path = self.file("t.csv", "source,time,d\n" + "".join(f"a,{time},0\n" for time in times))
        rows = self.table(self.file("m.txt", model), path, "--node", "desk", "--every", "1h", error=idle(7, 7))
        self.assertEqual([(row["from"], row["calls"]) for row in rows], [("01:00", "1.0"), ("02:00", "4.0"), ("03:00", "1.0"), ("23:00", "1.0")])

    def test_patience(self):
        """As a time or a column; callers who leave aren't served in time."""
        model = self.file("m.txt", "model 1\n# a tick is 1s\nsource a\nserver desk d from a\n")
        trace = self.file("t.csv", "source,time,d,patient\na,0,100,9\na,1,100,9\na,2,100,500\n")
        words = model, trace, "--node", "desk", "--every", "1h"
        by_column, by_time = (["--goal", "60/500", "--patience", it] for it in ("patient", "9s"))
        for given, agents in (["--goal", "60/120"], "1"), (by_column, "1"), (by_time, "2"):
            (row,) = self.table(*words, *given)
            self.assertEqual((row["within"], row["agents"]), ("0.6667", agents))

    def test_what_is_rejected(self):
        words = "staff", *WEEK, "--node", "desk"
        self.refuses("--goal 80: expected a percentage and a time, such as 80/20 or 90/1min", *words, "--goal", "80")
        self.refuses("--goal 180/20: expected a percentage such as 30%", *words, "--goal", "180/20")
        self.refuses("--every 7min: expected whole intervals in a day, of a minute or more, such as 15min, 30min or 1h", *words, "--every", "7min")
        self.refuses("--date 2026-01-01: the trace has days from 2026-03-23 to 2026-03-28", *words, "--date", "2026-01-01")
        self.refuses("--shrinkage 100%: nobody would ever be there", *words, "--shrinkage", "100%")
        self.refuses("--max-occupancy 0%: nobody would ever work", *words, "--max-occupancy", "0%")


if __name__ == "__main__":
    unittest.main()
