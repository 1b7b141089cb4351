"""Pools with rosters, patience and priorities: beside plain pools, beside the simulation tick by tick, and as the package reports them."""

import csv
import io
import re
import unittest

from commands import InFolder, planner
from ground import EXAMPLES, Test, text_of
from ticking_agents import ticking

import mpsim
from mpsim.agents import Agent, Call
from mpsim.agents.rosters import counts_roster, read_roster
from mpsim.agents.waits import carried
from mpsim.sweeps.days import by_calendar
from mpsim.times.calendar import Calendar, settings_in
from mpsim.times.texts import SECOND

WEEK = EXAMPLES / "week" / "model.txt", EXAMPLES / "week" / "trace.csv"
MODEL = "model 1\n# a tick is 1s, time 0 is 2026-03-02T00:00:00+01:00 in Europe/Berlin\nsource phone\nsource mail\nserver desk d from phone mail\n"
HOUR = 3600


class Rosters(InFolder):
    def setUp(self):
        super().setUp()
        # A Thursday; clocks go forward on the Sunday.
        self.days = Calendar(SECOND, "2026-03-26T00:00:00+01:00", "Europe/Berlin")

    def read(self, *rows, last=6 * 24 * HOUR, days=None, mark=","):
        path = self.file("roster.csv", "".join(f"{row}\n" for row in ("agent,queues,from,to", *rows)).replace(",", mark))
        return read_roster(path, days or self.days, last, ["phone", "mail"])

    def test_the_forms_of_a_row(self):
        day = 24 * HOUR
        rows = "B,mail phone,2026-03-26T08:00,2026-03-26T09:30", "A,,300,400", "C,mail,2026-03-26T07:00Z,2026-03-26T08:00Z"
        agents, names = self.read("A,,100,200", *rows)
        self.assertEqual(names, ["A", "B", "C"])
        wanted = [[(100, 200), (300, 400)], [(8 * HOUR, 9 * HOUR + 1800)], [(8 * HOUR, 9 * HOUR)]]
        self.assertEqual([list(agent.intervals) for agent in agents], wanted)
        self.assertEqual([agent.queues for agent in agents], [None, ["mail", "phone"], ["mail"]])
        self.assertEqual(self.read("A,,100,200", *rows, mark=";"), (agents, names))
        # Thursday, Friday and Monday; the clock's hour is skipped on Sunday.
        every = ("mon-fri", "01456"), ("Thu,Sat", "02"), ("sat-sun", "23"), ("fri-mon", "1234"), ("daily", "0123456"), ("", "0123456")
        for on, found in ((on, map(int, digits)) for on, digits in every):
            (agent,), _ = self.read(f'A,,"{on} 08:00",09:00', last=6 * day + HOUR)
            self.assertEqual(list(agent.intervals), [(it * day + (8 - (it > 2)) * HOUR, it * day + (9 - (it > 2)) * HOUR) for it in found])
        # Over midnight, and over the hour that is skipped.
        (agent,), _ = self.read("A,,sat 22:00,06:00")
        self.assertEqual(list(agent.intervals), [(2 * day + 22 * HOUR, 3 * day + 5 * HOUR)])
        # The night before the first day lasts into it, and no other day before does.
        for on, begins in (("wed", True), ("tue", False), ("daily", True)):
            (agent,), _ = self.read(f"A,,{on} 22:00,06:00", last=HOUR)
            self.assertEqual([it for it in agent.intervals if it[0] < 22 * HOUR], [(0, 6 * HOUR)] * begins)
        (agent,), _ = self.read("A,,22:00,06:00", last=HOUR, days=Calendar(SECOND))
        self.assertEqual(list(agent.intervals), [(0, 6 * HOUR), (22 * HOUR, 30 * HOUR)])
        (agent,), _ = self.read("A,,sat 20:00,20:00")
        self.assertEqual(list(agent.intervals), [(2 * day + 20 * HOUR, 3 * day + 19 * HOUR)])
        (agent,), _ = self.read("A,,00:00,24:00", last=HOUR)
        self.assertEqual(list(agent.intervals), [(0, day)])

    def test_what_is_rejected(self):
        path = self.folder / "roster.csv"
        for rows, why in [
            (["A,,9,5"], "row 2: the interval from 9 to 5 is empty"),
            (["A,,0,5", "A,,4,9"], r"intervals of A overlap at 2026-03-26T00:00:04\+01:00"),
            (["A,,0,5", "", "A,mail,6,9"], "row 4: A serves 'all queues' in an earlier row"),
            (["A,fax,0,5"], "row 2: no queue 'fax'; the trace has phone, mail"),
            (["A,,0"], "row 2: 3 fields instead of 4"),
            (["A,,mo 08:00,25:00"], "row 2: not a time of day"),
            (["A,,someday 08:00,09:00"], "row 2: 'someday' isn't a date, a number of ticks, or weekdays such as mon-fri"),
        ]:
            with self.assertRaisesRegex(ValueError, f"^{path}: {why}"):
                self.read(*rows)
        with self.assertRaisesRegex(ValueError, "need the date of time 0"):
            self.read("A,,mon 08:00,09:00", days=Calendar(SECOND))
        with self.assertRaisesRegex(ValueError, "a roster begins with agent,queues,from,to, not with 'name'"):
            read_roster(self.file("other.csv", "name\n"), self.days, 9, [])

    def test_numbers_by_the_time_of_day(self):
        agents = counts_roster("8:00=1,10:00=3,11:00=1,18:00=0", Calendar(SECOND), 30 * HOUR)
        day = [(8 * HOUR, 10 * HOUR), (10 * HOUR, 11 * HOUR), (11 * HOUR, 18 * HOUR)]
        both = [(begin + more * HOUR, end + more * HOUR) for more in (0, 24) for begin, end in day]
        self.assertEqual([list(agent.intervals) for agent in agents], [both, both[1::3], both[1::3]])
        for text, why in ("8:00", "expected times of day"), ("9:00=1,8:00=2", "aren't in rising order"), ("8:00=x", "expected times of day"):
            self.assertRaisesRegex(ValueError, why, counts_roster, text, Calendar(SECOND), 9)


class Pools(InFolder):
    def setUp(self):
        super().setUp()
        self.out, self.model = self.folder / "out.csv", self.folder / "out.txt"

    def table(self, *words, error=""):
        text = self.tells("pool", *words, "--node", "desk", "--out", self.out, "--out-model", self.model, error=error)
        return list(csv.DictReader(io.StringIO(text)))

    def test_where_the_rules_coincide(self):
        """Agents who are always there: the trace of a plain pool, byte for byte, and its model but for a comment."""
        rows = "".join(f"A{place},,0,9999999\n" for place in range(3))
        roster = self.file("roster.csv", f"agent,queues,from,to\n{rows}")
        plain, model = self.folder / "plain.csv", self.folder / "plain.txt"
        for agents in 3, 2:
            self.tells("pool", *WEEK, "--node", "desk", "--agents", agents, "--out", plain, "--out-model", model)
            for more in (["--roster", roster], ["--agents", 3], ["--agents", "0:00=3"]) if agents == 3 else (["--agents", 2],):
                self.table(*WEEK, *more, "--every", "1h")
                self.assertEqual(text_of(self.out), text_of(plain))
                lines = text_of(self.model).splitlines()
                self.assertEqual([line for line in lines if not line.startswith("# desk is a pool")], text_of(model).splitlines())

    def test_a_plain_pool_of_several_sources_says_so(self):
        """The table per interval has a row for each source; the plain one says that it has all of them together."""
        model, trace = self.file("m.txt", MODEL), self.file("t.csv", "source,time,d\nphone,0,50\nmail,10,50\n")
        words = "pool", model, trace, "--node", "desk", "--agents", 1
        self.tells(*words, error="mpplan: figures of several sources together (mail, phone) at desk; --every gives each\n")
        rows = list(csv.DictReader(io.StringIO(self.tells(*words, "--every", "1h"))))
        want = [("all", "2", "0.5"), ("mail", "1", "0.0"), ("phone", "1", "1.0")]
        self.assertEqual([(row["queue"], row["offered"], row["within"]) for row in rows[:3]], want)
        self.tells("pool", model, self.file("t.csv", "source,time,d\nphone,0,50\n"), "--node", "desk", "--agents", 1)

    def test_the_model_keeps_its_first_lines(self):
        """What a tick is, when time 0 is, and other comments: with one agent, with several, and with a roster; also with carriage returns."""
        lines = MODEL.splitlines()
        for end in "\n", "\r\n":
            model, trace = self.file("m.txt", end.join([*lines, ""])), self.file("t.csv", "source,time,d\nphone,0,50\n")
            plain = ("--agents", 1), ("--agents", 3), ("--agents", 9, "--by", "agents")
            for words in *plain, ("--agents", "0:00=2"), ("--agents", 1, "--patience", "5s"):
                self.tells("pool", model, trace, "--node", "desk", *words, "--out-model", self.model)
                self.assertEqual(text_of(self.model).splitlines()[1], lines[1])
                self.assertEqual(settings_in(text_of(self.model)), (SECOND, "2026-03-02T00:00:00+01:00", "Europe/Berlin"))

    def made(self, *words, calls=((0, 50), (10, 50), (20, 5), (70, 30), (3600, 9)), queues="phone mail mail phone phone"):
        """Runs a pool over calls; returns the table and the outcomes in the trace."""
        rows = "".join(f"{queue},{time},{talk},{patience}\n" for queue, (time, talk), patience in zip(queues.split(), calls, (9, 20, 15, 0, 5)))
        trace = self.file("t.csv", f"source,time,d,patient\n{rows}")
        table = self.table(self.file("m.txt", MODEL), trace, *words)
        made = list(csv.DictReader(io.StringIO(text_of(self.out))))
        return table, [(int(row["desk_agent"]), int(row["desk_wait"])) for row in made]

    def test_beside_the_simulation_tick_by_tick(self):
        roster = self.file("roster.csv", "agent,queues,from,to\nA,phone,0,60\nB,,30,90\nA,phone,3600,3700\n")
        agents = [Agent([(0, 60), (3600, 3700)], ["phone"]), Agent([(30, 90)])]
        times, queues = ((0, 50), (10, 50), (20, 5), (70, 30), (3600, 9)), "phone mail mail phone phone".split()
        for words, priorities, patience in [
            (["--patience", "patient"], {}, (9, 20, 15, 0, 5)),
            (["--patience", "60s", "--first", "mail"], {"mail": 1}, [60] * 5),
            (["--patience", "60s", "--first", "phone", "--then", "mail", "--choose", "first"], {"phone": 1, "mail": 2}, [60] * 5),
        ]:
            calls = [Call(*call, queue, limit) for call, queue, limit in zip(times, queues, patience)]
            want = ticking(agents, calls, priorities, "first" if "first" in words else "longest-idle")
            self.assertEqual(self.made("--roster", roster, *words)[1], want)

    def test_priorities(self):
        calls = (0, 50), (1, 50), (2, 50), (3, 50), (4, 50)
        waits = {name: self.made("--agents", 1, "--first", name, calls=calls)[1] for name in ("phone", "mail")}
        self.assertEqual([wait for _, wait in waits["phone"]], [0, 149, 198, 47, 96])
        self.assertEqual([wait for _, wait in waits["mail"]], [0, 49, 98, 147, 196])

    def test_who_takes_a_call(self):
        calls = (0, 1), (2, 5), (20, 1)
        for choose, agents in ("longest-idle", [1, 2, 1]), ("first", [1, 1, 1]):
            self.assertEqual([agent for agent, _ in self.made("--agents", 2, "--choose", choose, calls=calls)[1]], agents)

    def test_the_table(self):
        """Callers who leave count among those offered, and not as served; occupancy is of the time in the roster."""
        roster = self.file("roster.csv", "agent,queues,from,to\nA,,0,1800\nB,,900,1800\nA,,3600,3605\n")
        table, outcomes = self.made("--roster", roster, "--patience", "patient", "--within", 5)
        self.assertEqual(outcomes, [(1, 0), (0, 20), (0, 15), (1, 0), (1, 0)])
        self.assertEqual(list(table[0].values()), ["00:00", "all", "4", "2", "2", "0.5", "0.0", "0.0", "1.5", str(round(80 / 2700, 4))])
        self.assertEqual(list(table[1].values()), ["00:00", "mail", "2", "0", "2", "0.0", "", "", "", ""])
        self.assertEqual(list(table[3].values()), ["01:00", "all", "1", "1", "0", "1.0", "0.0", "0.0", "0.0", "1.0"])

    def test_by_weekday(self):
        """The rows of a weekday are those of a trace and a roster that have only its days."""
        lines, roster = text_of(WEEK[1]).splitlines(), text_of(EXAMPLES / "week" / "roster.csv")
        words = "--every", "2h", "--patience", "60s"
        rows = self.table(*WEEK, "--roster", EXAMPLES / "week" / "roster.csv", *words, "--by", "weekday")
        self.assertEqual(list(rows[0])[:4], ["weekday", "from", "queue", "offered"])
        for number, name in enumerate(["Monday", "Tuesday", "Wednesday", "Thursday", "Friday", "Saturday"]):
            only = self.file(
                "d.csv", "".join(f"{line}\n" for line in lines[:1] + [it for it in lines[1:] if int(it.split(",")[1]) // 86400 == number])
            )
            found = [{key: it for key, it in row.items() if key != "weekday"} for row in rows if row["weekday"] == name]
            there = roster.replace("mon-sat", name).replace("mon-fri", name if name != "Saturday" else "sun")
            self.assertEqual(self.table(WEEK[0], only, "--roster", self.file("r.csv", there), *words), found)
        both = {(row["weekday"], row["from"]): row["agents"] for row in rows}
        self.assertEqual([both["Monday", "08:00"], both["Saturday", "10:00"], both["Friday", "12:00"]], ["1.5", "1.25", "2.5"])
        why = "--by weekday needs the date of time 0: give --start"
        model = self.file("n.txt", "model 1\n# a tick is 1s\nsource a\nserver desk d from a\n")
        self.refuses(why, "pool", model, self.file("n.csv", "source,time,d\na,0,9\n"), "--node", "desk", "--agents", 1, "--by", "weekday")

    def test_callers_who_left_are_lost_wherever_the_package_reports_them(self):
        self.made("--agents", 1, "--patience", "patient")
        told = "mpplan: desk is a pool: its waits are those of desk_queue\n"
        together = "mpplan: figures of several sources together (mail, phone) at desk; {}\n"
        report = mpsim.run(self.model, self.out, jobs=True)
        self.assertEqual((report.by_name["desk"].lost, report["desk_gone"].out), (0, 2))
        said = told + together.format("--by source gives each")
        (row,) = csv.DictReader(io.StringIO(self.tells("service", self.model, self.out, "--node", "desk", error=said)))
        self.assertEqual([row[name] for name in ("came", "departed", "lost", "within_20_of_all")], ["5", "3", "2", "0.6"])
        rows = self.tells("hours", self.model, self.out, "--node", "desk", error=told + together.format("--source NAME gives one")).splitlines()
        self.assertEqual([row.split(",")[:4] for row in rows[1:]], [["00:00", "4", "2", "2"], ["01:00", "1", "1", "0"]])
        lacks = "mpplan: a pool's max, p50, p90 and p99 need job lines: run mpsim with --jobs\n"
        rows = list(csv.DictReader(io.StringIO(self.tells("table", self.model, self.out, error=told + lacks))))
        self.assertEqual([row["node"] for row in rows], ["phone", "mail", "desk"])
        self.assertEqual([rows[2][name] for name in ("kind", "in", "out", "lost")], ["pool", "5", "3", "2"])
        visits = self.tells("table", self.model, self.out, "--of", "visits", "--node", "desk", error=told).splitlines()[1:]
        self.assertEqual(visits[:2], ["1,desk,0,0,50,left", "2,desk,10,,,lost"])
        why = "desk has a roster, patience or priorities, so its waits are those of the whole trace"
        why += "; on 0 of 1 days they may depend on calls of another"
        (row,) = csv.DictReader(io.StringIO(self.tells("days", self.model, self.out, "--node", "desk", error=f"{told}mpplan: {why}\n")))
        self.assertEqual([row[name] for name in ("kind", "in", "out", "lost")], ["pool", "5", "3", "2"])

    def test_days_of_a_roster(self):
        """Where nobody is left over night, each day is that of a pool made for the day alone; where somebody is, a line counts the days."""
        self.table(*WEEK, "--roster", EXAMPLES / "week" / "roster.csv", "--patience", "exp:120s", "--seed", 7)
        status, text, said = planner("days", self.model, self.out, "--node", "desk")
        self.assertEqual(status, 0, said)
        self.assertIn("; on 0 of 6 days they may depend on calls of another\n", said)
        rows, whole = list(csv.DictReader(io.StringIO(text))), mpsim.traces.Trace.read(self.out)
        days = Calendar(SECOND, "2026-03-23T00:00:00+01:00", "Europe/Berlin")
        pieces, _ = by_calendar(whole.times(), days)
        agents, _ = read_roster(EXAMPLES / "week" / "roster.csv", days, max(whole.times()), ["calls"])
        patience, talk = whole.numbers("desk_patience"), whole.numbers("talk")
        for row, piece in zip(rows, pieces):
            calls = [Call(whole.times()[at], talk[at], "calls", patience[at]) for at in piece.records]
            waits = [it.wait for it in mpsim.agents.Group(agents).serve(calls) if it.agent]
            self.assertEqual((int(row["out"]), int(row["wait"]), int(row["in"])), (len(waits), sum(waits), len(calls)))
        # Pieces of half an hour cut calls, but most of those that are cut don't keep anybody waiting.
        said = planner("days", self.model, self.out, "--every", 1800)[2]
        shared = int(re.search(r"; in (\d+) of (\d+) pieces they may", said)[1])
        self.assertTrue(5 < shared < 42, said)

    def test_pieces_that_share_agents(self):
        """A call is there at the first arrival of a piece, or comes before the last of its calls begins; one that ends then, or comes later, isn't
        counted."""
        model = "model 2\nsource a\nsource b\ndelay desk_queue desk_wait from a b\ntrunk desk 2 d from desk_queue\n"
        head = ["source", "time", "d", "desk_wait"]
        for others, shared in [
            ([["b", 0, 10, 0]], 0),
            ([["b", 0, 11, 0]], 1),
            ([["b", 0, 5, 6]], 1),
            ([["b", 15, 1, 0]], 1),
            ([["b", 20, 1, 0]], 1),
            ([["b", 21, 1, 0]], 0),
        ]:
            rows = sorted([["a", 10, 4, 0], ["a", 12, 4, 8], *others], key=lambda row: row[1])
            report = mpsim.run(model, [head, *rows], jobs=True)
            self.assertEqual(carried(report, "desk", [[at for at, row in enumerate(rows) if row[0] == "a"]]), shared, others)

    def test_a_sweep_over_its_number_is_rejected(self):
        """The waits of a roster don't follow from a number of agents."""
        self.table(*WEEK, "--agents", 2, "--patience", "60s")
        text = text_of(self.model)
        path = self.file("many.txt", text.replace("trunk desk 2", "trunk desk {agents}"))
        why = "its waits hold only for the whole trace; run mpplan pool for each number of agents"
        self.refuses(f"desk is a pool with a roster, patience or priorities: {why}", "sweep", path, self.out, "--set", "agents=2..4")

    def test_a_column_as_the_queue(self):
        """As if its values were the sources: in the roster, in the priorities and in the table; words of the model's comments stand for numbers."""
        rows = [(0, 50, 1), (10, 50, 1), (20, 5, 2), (25, 5, 3), (70, 30, 2), (3600, 9, 1)]
        names = {1: "service", 2: "sales", 3: "3"}
        by_column = self.file("c.csv", "source,time,d,kind\n" + "".join(f"phone,{time},{d},{kind}\n" for time, d, kind in rows))
        by_source = self.file("s.csv", "source,time,d\n" + "".join(f"{names[kind].replace('3', 'three')},{time},{d}\n" for time, d, kind in rows))
        comment = '# kind: 1 is "service", 2 is "sales", 3 is "other things"\n'
        front = "\n".join(MODEL.splitlines()[:2])
        model = self.file("m.txt", f"{front}\n{comment}source phone\nserver desk d from phone\n")
        three = "source service\nsource sales\nsource three\nserver desk d from service sales three\n"
        other = self.file("o.txt", f"{front}\n{three}")
        head = "agent,queues,from,to\nA,service {},0,4000\nB,sales,20,4000\n"
        rosters = self.file("r.csv", head.format("3")), self.file("q.csv", head.format("three"))
        want = self.table(other, by_source, "--roster", rosters[1], "--first", "sales", "--then", "three")
        made = text_of(self.out)
        found = self.table(model, by_column, "--roster", rosters[0], "--first", "sales", "--then", 3, "--queue", "kind")
        values = [tuple(it.replace("three", "3") for it in row.values()) for row in want]
        self.assertEqual(sorted(values), sorted(tuple(row.values()) for row in found))
        self.assertEqual([row.split(",")[-2:] for row in made.splitlines()[1:]], [row.split(",")[-2:] for row in text_of(self.out).splitlines()[1:]])
        self.assertEqual([row["queue"] for row in found[:4]], ["all", "3", "sales", "service"])
        rows = list(csv.DictReader(io.StringIO(self.tells("staff", model, by_column, "--node", "desk", "--queue", "kind", "--by", "source"))))
        self.assertEqual([row["queue"] for row in rows], ["all", "3", "sales", "service", "all", "service"])
        rows = list(csv.reader(io.StringIO(self.tells("recorded", by_column, "--model", model, "--wait", "d", "--queue", "kind"))))
        self.assertEqual([row[1] for row in rows], ["queue", "all", "3", "sales", "service", "all", "service"])
        words = "validate", model, by_column, "--node", "desk", "--wait", "d", "--queue", "kind", "--agents", 1
        rows = list(csv.reader(io.StringIO(planner(*words)[1])))
        self.assertEqual([row[1] for row in rows[1:5]], ["all", "3", "sales", "service"])
        words = "pool", model, by_column, "--node", "desk", "--agents", 1
        self.refuses(f"{by_column}: no column 'k'; it has d, kind", *words, "--queue", "k")
        self.refuses("no value 'mail' in kind; the trace has service, sales, 3", *words, "--queue", "kind", "--first", "mail")

    def test_drawn_patience_is_written_and_can_be_repeated(self):
        words = *WEEK, "--agents", 2, "--patience", "exp:60s"
        seen = []
        for seed in 7, 7, 8:
            self.table(*words, "--seed", seed)
            seen.append(text_of(self.out))
        self.assertEqual((seen[0] == seen[1], seen[0] == seen[2]), (True, False))
        rows = list(csv.DictReader(io.StringIO(seen[0])))
        drawn = [int(row["desk_patience"]) for row in rows]
        self.assertLess(abs(sum(drawn) / len(drawn) - 60), 3 * 60 / len(drawn) ** 0.5)
        self.assertTrue(all(int(row["desk_wait"]) <= int(row["desk_patience"]) for row in rows))
        self.assertEqual([row["desk_agent"] == "0" for row in rows].count(True), sum(int(it["abandoned"]) for it in self.table(*words, "--seed", 7)))
        # The column gives the same agents and waits.
        again = self.file("again.csv", "".join(",".join(line.split(",")[:4]) + "\n" for line in seen[0].splitlines()))
        self.table(WEEK[0], again, "--agents", 2, "--patience", "desk_patience")
        self.assertEqual(text_of(self.out), seen[0])

    def test_what_is_rejected(self):
        roster = self.file("roster.csv", "agent,queues,from,to\nA,,0,60\n")
        model, trace = self.file("m.txt", MODEL), self.file("t.csv", "source,time,d\nphone,0,9\nphone,61,9\n")
        words = "pool", model, trace, "--node", "desk"
        why = "nobody serves 1 call at desk, since no agent comes after them who serves their queue; the first is record 2 at 61"
        self.refuses(f"{why} (2026-03-02T00:01:01+01:00): extend the roster or give --patience", *words, "--roster", roster)
        self.refuses(f"{roster}: this is the roster, which is never overwritten", *words, "--roster", roster, "--out", roster)
        self.refuses("give --roster or --agents, not both", *words, "--roster", roster, "--agents", 3)
        self.refuses("no source 'fax'; the trace has phone", *words, "--agents", 3, "--first", "fax")
        self.refuses("--patience exq:9s: expected a time such as 240s, a column, or exp:240s", *words, "--agents", 3, "--patience", "exq:9s")
        text = "--agents 3..4: with patience, priorities or --every, give one number of agents, or times of day such as 8:00=3,10:00=5"
        self.refuses(text, *words, "--agents", "3..4", "--every", "1h")

    def test_a_sweep_over_the_number_of_agents_is_rejected(self):
        """Its waits would be those without patience, priorities or a roster. A sweep over something else is fine."""
        rules = {"patience": ("--patience", "30s"), "priorities": ("--first", "mail"), "roster": ("--every", "1h")}
        model, sets, trace = (self.folder / name for name in ("p.txt", "sets.txt", "p.csv"))
        given = self.file("m.txt", MODEL), self.file("t.csv", "source,time,d\nphone,0,60\nmail,1,60\nphone,2,60\nmail,3,9\n")
        why = "desk is a pool with a roster, patience or priorities: its waits hold only for the whole trace"
        for rule, words in rules.items():
            with self.subTest(rule):
                self.assertEqual(planner("pool", *given, "--node", "desk", "--agents", 1, *words, "--out", trace, "--out-model", model)[0], 0)
                text = text_of(model)
                self.file("sets.txt", text.replace("trunk desk 1 ", "trunk desk {agents} "))
                self.refuses(f"{why}; run mpplan pool for each number of agents", "sweep", sets, trace, "--set", "agents=1..2")
                self.file("sets.txt", f"{text}delay after ={{wrap}} from desk\n")
                self.assertEqual(planner("sweep", sets, trace, "--set", "wrap=1,2")[0], 0)


class Delays(Test):
    def test_a_delay_has_no_waits(self):
        """Its visits are counted, and the rest is empty; the queue of a pool is the pool."""
        held = InFolder()
        held.setUp()
        self.addCleanup(held.doCleanups)
        model = held.file("m.txt", "model 1\n# a tick is 1s\nsource a\ndelay away d from a\nserver desk d from away\n")
        trace = held.file("t.csv", "source,time,d\na,0,9\na,0,9\n")
        for command in "service", "hours":
            rows = planner(command, model, trace, "--node", "away")[1].splitlines()
            self.assertEqual(rows[1].split(",")[1:], ["2", "2", "0", "0", *[""] * (len(rows[0].split(",")) - 5)])
            rows = planner(command, model, trace, "--node", "desk")[1].splitlines()
            self.assertEqual(rows[1].split(",")[1:6], ["2", "2", "0", "0", "4.5"])
        out, pool = held.folder / "o.csv", held.folder / "o.txt"
        held.tells("pool", model, trace, "--node", "desk", "--agents", 1, "--out", out, "--out-model", pool)
        one, other = (planner("service", pool, out, "--node", name)[1] for name in ("desk", "desk_queue"))
        self.assertEqual((one, "4.5" in one), (other, True))


if __name__ == "__main__":
    unittest.main()
