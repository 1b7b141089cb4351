"""Pools by day: each day has the waits of its own calls. Expected figures are worked out by hand, or by a queue written here."""

import csv
import io
import os
import pathlib
import random
import shlex
import unittest

from commands import InFolder, planner
from ground import nodes_of, programs_in, stand_in, text_of, words_of

import mpsim
from mpsim.times.calendar import Calendar
from mpsim.traces import Trace
from mpsim.sweeps.days import by_calendar, by_ticks, days

DAY, HOUR, SECOND = 86400, 3600, 10**9
POOL = "mpplan: {} is a pool: its waits are those of {}\n"
LATE = "mpplan: on {} of {} days jobs are still in the network when the next begins; its run starts without them\n"


def through(calls, agents):
    """Serves calls (record, arrival, service time), in the order of the queue, with this many agents. Returns the record, the arrival, the wait, the
    departure and the agent of each."""
    free, told = [0] * agents, []
    for job, come, demand in calls:
        who = free.index(min(free))
        begin = max(come, free[who])
        free[who] = begin + demand
        told.append((job, come, begin - come, free[who], who))
    return told


def visits(text, pool, by):
    """Returns the record, arrival, wait and departure of each call at a pool, from the job lines."""
    lines = [(int(word[1]), word[2], *map(int, word[4::2])) for word in words_of(text, "job")]
    if by == "agents":
        return sorted((job, *times) for job, node, *times in lines if node.startswith(f"{pool}_") and node[len(pool) + 1 :].isdigit())
    ends = {job: end for job, node, _, _, end in lines if node == pool}
    return sorted((job, come, begin - come, ends[job]) for job, node, come, _, begin in lines if node == f"{pool}_queue")


class Anew(InFolder):
    def pooled(self, model, trace, by="trunk", **agents):
        """Runs `mpplan pool` for each of these nodes in turn, and returns the paths of the resulting model and trace."""
        for name, count in agents.items():
            out, made = self.folder / f"{name}.{by}.csv", self.folder / f"{name}.{by}.txt"
            words = "--node", name, "--agents", count, "--by", by, "--out", out, "--out-model", made
            status, _, told = planner("pool", model, trace, *words)
            self.assertEqual(status, 0, told)
            model, trace = made, out
        return model, trace

    def rows(self, *words, status=0, error=""):
        """Returns the rows of `mpplan days` (dicts) for a pool `desk`."""
        return list(csv.DictReader(io.StringIO(self.tells("days", *words, "--node", "desk", status=status, error=error))))

    def test_calls_late_at_night(self):
        """Both agents talk from before midnight to 1:53:20 and 1:55:00. The calls of 0:05:00 and 0:06:40 wait for them in the whole trace, but not on
        their own day, which begins with the first of them."""
        head = "model 1\n# a tick is 1s, time 0 is 2026-11-02T00:00:00+01:00 in Europe/Berlin\n"
        model = self.file("m.txt", head + "source calls\nserver desk talk from calls\n")
        calls = (36000, 60), (86000, 7200), (86100, 7200), (86700, 60), (86800, 60)
        trace = self.file("t.csv", "source,time,talk\n" + "".join(f"calls,{time},{talk}\n" for time, talk in calls))
        for by, where in ("trunk", "desk_queue"), ("agents", "desk_1 to desk_2"):
            model_of_two, pooled = self.pooled(model, trace, by, desk=2)
            self.assertEqual([line.split(",")[-1] for line in text_of(pooled).splitlines()[1:]], ["0", "0", "0", "6500", "6460"])
            rows = self.rows(model_of_two, pooled, error=POOL.format("desk", where) + LATE.format(1, 2))
            names = "day", "span", "kind", "in", "wait", "max", "p99", "busy", "util"
            want = [["2026-11-02", "57300", "pool", "3", "0", "0", "0", "14460", "0.1261"]]
            want += [["2026-11-03", "160", "pool", "2", "0", "0", "0", "120", "0.3750"]]
            self.assertEqual([[row[name] for name in names] for row in rows], want)
        # With one agent the second late call waits for the first.
        rows = self.rows(*self.pooled(model, trace, desk=1), error=POOL.format("desk", "desk_queue") + LATE.format(1, 2))
        self.assertEqual([(row["wait"], row["max"], row["span"]) for row in rows], [("7100", "7100", "64400"), ("0", "0", "160")])

    def test_hours_of_opening(self):
        """Calls before opening, and at or after closing, are left out: no call waits for them either. From 8:00:10 to 9:00:10 and from 8:00:20 to
        8:30:20 both agents talk; the call of 8:01:40 waits 1720."""
        rows = (8 * HOUR - 60, 7200), (8 * HOUR - 50, 7200), (8 * HOUR + 10, 3600), (8 * HOUR + 20, 1800), (8 * HOUR + 100, 60)
        rows += (20 * HOUR, 50000), (20 * HOUR, 50000), (DAY + 8 * HOUR, 60)
        trace = self.file("t.csv", "source,time,talk\n" + "".join(f"calls,{time},{talk}\n" for time, talk in rows))
        model, pooled = self.pooled(self.file("m.txt", "model 1\nsource calls\nserver desk talk from calls\n"), trace, desk=2)
        self.assertEqual([line.split(",")[-1] for line in text_of(pooled).splitlines()[1:]], ["0", "0", "7130", "7130", "8850", "0", "0", "6800"])
        told = POOL.format("desk", "desk_queue") + "mpplan: 4 records left out: before a day opens or after it closes\n"
        rows = self.rows(model, pooled, "--open", "8:00", "--close", "20:00", "--tick", "1s", "--start", "2026-11-02", error=told)
        want = [("3", "1720", "1720", "0", "3610"), ("1", "0", "0", "0", "60")]
        self.assertEqual([(row["in"], row["wait"], row["max"], row["p50"], row["span"]) for row in rows], want)

    def drawn(self, draw, count):
        """Draws records of three days, around midnight and the opening hours, in any order, many at equal times."""
        at = [number * DAY + begin for number in range(3) for begin in (0, 8 * HOUR - 120, 20 * HOUR - 120, DAY - 240)]
        return [[draw.choice(at) + 4 * draw.randrange(60), *(4 * draw.randrange(most) for most in (12, 99, 80, 12))] for _ in range(count)]

    def test_beside_a_queue_written_by_hand(self):
        """After a server, before another, one or two pools, in both forms: each call of each day."""
        head = "model 1\nsource door\nserver greet g from door\nserver desk d from greet\n"
        one, two = "server wrap w from desk\n", "server back e from desk\nserver wrap w from back\n"
        for number, (tail, by) in enumerate((tail, by) for tail in (one, two) for by in ("trunk", "agents")):
            # A single agent is a server, not a pool.
            for agents in range(2 if tail == one and by == "agents" else 1, 5):
                draw = random.Random(10 * number + agents)
                counts = {"desk": agents, "back": 5 - agents} if tail == two else {"desk": agents}
                drawn = self.drawn(draw, 120 * max(counts.values()))
                trace = self.file("t.csv", "source,time,g,d,e,w\n" + "".join(f"door,{','.join(map(str, item))}\n" for item in drawn))
                model, pooled = self.pooled(self.file("m.txt", head + tail), trace, by, **counts)
                text, whole, others = text_of(model), Trace.read(pooled), 0
                opens, closes = (8, 20) if agents % 2 else (None, None)
                pieces, _ = by_calendar(whole.times(), Calendar(SECOND, "2026-11-02"), *(item and f"{item}:00" for item in (opens, closes)))
                sweep, _ = days(text, whole, pieces)
                for day, report in enumerate(sweep.reports().values()):
                    with self.subTest(counts=counts, by=by, opens=opens, day=day):
                        others += self.judged(drawn, day, opens, closes, counts, by, "".join(report.lines()))
                self.assertEqual((day, others > 9), (2, True))
                if opens and by == "trunk":
                    self.has_these_waits(model, pooled, sweep)

    def judged(self, drawn, day, opens, closes, counts, by, text):
        """Compares a day with the expected waits, and returns how many calls at `desk` wait differently in the whole trace."""
        begin, end = (day * DAY + hour * HOUR for hour in (opens or 0, closes or 24))
        rows = [item for item in drawn if begin <= item[0] < end]
        zero = begin if opens else min(row[0] for row in rows)
        found = self.worked_out([[time - zero, *rest] for time, *rest in rows], counts, by)
        for name in counts:
            self.assertEqual(visits(text, name, by), sorted(item[:4] for item in found[name]))
        got = [tuple(map(int, (word[1], *word[4::2]))) for word in words_of(text, "job") if word[2] == "wrap"]
        self.assertEqual(got, [item[:4] for item in found["wrap"]])
        whole = {job: wait for job, _, wait, *_ in self.worked_out(drawn, counts, by)["desk"]}
        places = {id(row): number for number, row in enumerate(drawn, 1)}
        return sum(wait != whole[places[id(rows[job - 1])]] for job, _, wait, *_ in found["desk"])

    def worked_out(self, rows, counts, by):
        """Returns the results of `through` for the pools and the server after them, by name."""
        found, columns = {}, {"desk": 2, "back": 3, "wrap": 4}
        told = through(sorted(((job, row[0], row[1]) for job, row in enumerate(rows, 1)), key=lambda item: item[1]), 1)
        for name, count in {**counts, "wrap": 1}.items():
            # Of several jobs that finish together, the one that arrived first goes first; of several agents, the one with the lower number.
            order = sorted(told, key=lambda item: (item[3], item[4] if by == "agents" else 0))
            told = found[name] = through([(job, end, rows[job - 1][columns[name]]) for job, _, _, end, _ in order], count)
        return found

    def has_these_waits(self, model, trace, sweep):
        """The table of the command agrees with the job lines."""
        words = "--open", "8:00", "--close", "20:00", "--tick", "1s", "--start", "2026-11-02", "--node", "desk"
        status, out, _ = planner("days", model, trace, *words)
        self.assertEqual(status, 0)
        for row, report in zip(csv.DictReader(io.StringIO(out)), sweep.reports().values()):
            told = sorted(visit[2] for visit in visits("".join(report.lines()), "desk", "trunk"))
            want = [len(told), sum(told), told[-1], *(told[-(-len(told) * item // 100) - 1] for item in (50, 90, 99))]
            self.assertEqual([int(row[item]) for item in ("in", "wait", "max", "p50", "p90", "p99")], want)

    def test_as_each_day_pooled_separately(self):
        """Byte for byte what mpsim writes for the day's records alone after `mpplan pool`: in a network where pools are declared before what is
        upstream of them, with others beside them, and records that don't visit them; with many agents; and on a day on which no job visits one."""
        model = "model 1\nsource door\nserver back =20 from kind\nsplit kind cut w 24 from desk\nsource web\nserver desk d from turn.1 web\n"
        model += "server side e from kind.1\nsplit turn 2 turn from door\nloss last 2 =9 from back side turn\n"
        draw = random.Random(4)
        drawn = [[draw.choice(["door", "web"]), *item] for item in self.drawn(draw, 300)]
        drawn = [item for item in drawn if item[1] // DAY != 1 or item[0] == "door"][:-1] + [["door", 3 * DAY + 5, 1, 1, 1, 1]]
        model, head = self.file("m.txt", model), "source,time,g,d,e,w\n"
        for by, counts in ("trunk", {"desk": 2, "side": 1, "back": 2}), ("agents", {"desk": 9, "back": 2, "side": 3}):
            trace = self.file("t.csv", head + "".join(f"{','.join(map(str, item))}\n" for item in drawn))
            made, pooled = self.pooled(model, trace, by, **counts)
            whole = Trace.read(pooled)
            pieces, _ = by_ticks(whole.times(), DAY)
            sweep, _ = days(made, whole, pieces)
            self.assertEqual(len(sweep), 4)
            for day, report in enumerate(sweep.reports().values()):
                rows = [[source, time - day * DAY, *rest] for source, time, *rest in drawn if time // DAY == day]
                alone = self.file("day.csv", head + "".join(f"{','.join(map(str, row))}\n" for row in rows))
                want = "".join(mpsim.run(*self.pooled(model, alone, by, **counts), jobs=True).lines())
                self.assertEqual("".join(report.lines()), want)
            self.assertEqual(sum(node["name"].startswith("desk") and node["in"] == "0" for node in nodes_of(want)) > 1, True)

    def test_a_day_that_is_refused(self):
        """Two agents with two calls of 1400 every 1000 ticks: in the whole trace the wait grows by 400 per piece and exceeds the bound; in a separate
        piece no call waits. Of three calls in a piece the third exceeds it, and of two the greeting of the second."""
        rows = [(1000 * number + at, 0, 1400) for number in range(6) for at in (0, 1)]
        rows += [(6000, 0, 1400), (6001, 0, 1400), (6002, 0, 1400), (7000, 0, 5), (7000, 1501, 5)]
        trace = self.file("t.csv", "source,time,g,d\n" + "".join(f"door,{time},{g},{d}\n" for time, g, d in rows))
        plain = self.file("m.txt", "model 1\nsource door\nserver greet g from door\nserver desk d from greet\n")
        late = "mpplan: in 7 of 8 pieces jobs are still in the network when the next begins; its run starts without them\n"
        for by, where, last in ("trunk", "desk_queue", "desk position 2"), ("agents", "desk_1 to desk_2", "desk_1 position 1"):
            model, pooled = self.pooled(plain, trace, by, desk=2)
            self.rows(model, pooled, "--every", 1000, error=POOL.format("desk", where) + late.replace("7 of", "8 of"))
            model.write_text(text_of(model).replace("source", "bound 1500\nsource", 1))
            rows = self.rows(model, pooled, "--every", 1000, status=11, error=POOL.format("desk", where) + late.replace("7 of", "6 of"))
            self.assertEqual([(row["status"], row["span"], row["wait"]) for row in rows], [*6 * [("0", "1401", "0")], *2 * [("5", "", "")]])
            want = [f"mpsim: node {item}" for item in (f"{last} passes the bound at time 2800", "greet position 1 passes the bound at time 1501")]
            self.assertEqual([row["refusal"] for row in rows[6:]], want)

    def test_a_trunk_group_that_loses_calls_in_a_part_of_the_trace(self):
        """The split begins each piece with its first output: in the whole trace records 3 and 5 go to the desk, in their own piece 2 and 4, the
        second of which arrives 2 ticks after the first and waits 48."""
        model = self.file("m.txt", "model 1\nsource door\nsplit turn 2 turn from door\nserver desk d from turn\n")
        trace = self.file("t.csv", "source,time,d\ndoor,0,5\ndoor,100,50\ndoor,101,9\ndoor,102,10\ndoor,103,9\n")
        model, pooled = self.pooled(model, trace, desk=1)
        self.assertEqual(text_of(pooled).split()[1:], ["door,0,5,1,0", "door,100,50,0,0", "door,101,9,1,0", "door,102,10,0,0", "door,103,9,1,7"])
        rows = self.rows(model, pooled, "--every", 100, error=POOL.format("desk", "desk_queue"))
        self.assertEqual([(row["kind"], row["in"], row["wait"], row["lost"]) for row in rows], [("pool", "1", "0", "0"), ("pool", "2", "48", "0")])

    def test_nodes_that_are_not_pools_stay(self):
        """A trunk group that loses calls in the whole trace (with a warning), or with further inputs; a delay with another column; agents with
        different service times, or after another split: what mpsim writes for the records of each piece."""
        rows = [(10 * number, 25, 9, number % 3) for number in range(40)]
        trace = self.file("t.csv", "source,time,d,e,k\n" + "".join(f"door,{','.join(map(str, row))}\n" for row in rows))
        plain = self.file("m.txt", "model 1\nsource door\nserver desk d from door\n")
        trunk, of_trunk = self.pooled(plain, trace, desk=3)
        agents, of_agents = self.pooled(plain, trace, "agents", desk=3)
        trunk, agents = text_of(trunk), text_of(agents)
        why = "if it is a pool, its trace was made for another number of agents, and its figures are invalid"
        changed = {
            trunk.replace("desk 3 d", "desk 2 d"): f"mpplan: warning: desk loses 3 calls: {why}\n",
            trunk.replace("desk_wait", "e"): "",
            trunk.replace("source door\n", "source door\nsource side\n").replace("from desk_queue", "from desk_queue side"): "",
            agents.replace("desk_2 d", "desk_2 e"): "",
            agents.replace("agent 2 3", "agent 2 4"): "",
        }
        self.assertEqual(len(changed.keys() - {trunk, agents}), 5)
        for text, error in changed.items():
            model, pooled = self.file("made.txt", text), of_agents if "split" in text else of_trunk
            status, out, told = planner("days", model, pooled, "--every", 100)
            self.assertEqual((status, told.startswith(error)), (0, True), told)
            whole = Trace.read(pooled)
            sweep, _ = days(text, whole, by_ticks(whole.times(), 100)[0])
            for at, report in enumerate(sweep.reports().values()):
                mine = [[row[0], int(row[1]) - 100 * at, *row[2:]] for row in whole.rows if int(row[1]) // 100 == at]
                self.assertEqual(str(report), str(mpsim.run(text, [whole.header, *mine])))

    def test_how_many_runs(self):
        """One run per piece if the names show no pool; with a pool two per piece, and with a trunk group one for the whole trace."""
        log, real = self.folder / "log", pathlib.Path(os.environ["MPSIM_PROGRAMS"], "mpsim")
        trace = self.file("t.csv", "source,time,d\n" + "".join(f"door,{10 * number},15\n" for number in range(30)))
        plain = self.file("m.txt", "model 1\nsource door\nserver desk d from door\n")
        other = self.file("o.txt", "model 2\nsource door\ndelay desk_queue =3 from door\ntrunk desk 9 d from desk_queue\n")
        made, pooled = self.pooled(plain, trace, desk=2)
        agents, _ = self.pooled(plain, trace, "agents", desk=2)
        stand_in(self.folder, "mpsim", f'echo >>{shlex.quote(str(log))}\nexec {shlex.quote(str(real))} "$@"')
        for model, rows, want in (plain, trace, 3), (other, trace, 3), (plain, pooled, 3), (made, pooled, 7), (agents, pooled, 6):
            with programs_in(self.folder):
                self.assertEqual(planner("days", model, rows, "--every", 100)[0], 0)
            self.assertEqual(len(text_of(log)), want)
            log.unlink()

    def test_errors_of_the_trace_and_the_model(self):
        """Errors name the files and the record of the whole trace, as far as a day has it."""
        trace = self.file("t.csv", "source,time,d\ndoor,0,5\ndoor,100,5\ndoor,101,5\n")
        model, pooled = self.pooled(self.file("m.txt", "model 1\nsource door\nserver desk d from door\n"), trace, desk=1)
        pooled.write_text(text_of(pooled).replace("101,5", "101,x"))
        why = f"{pooled}: trace record 3: field 3 is not a number in range (column d): door,1,x,1,4"
        self.refuses(why, "days", model, pooled, "--every", 100, status=4)
        told = POOL.format("desk", "desk_queue") + "mpplan: 2 records left out: before a day opens or after it closes\n"
        self.rows(model, pooled, "--close", "0:01", "--tick", "1s", error=told)
        model.write_text(text_of(model) + "server last d from absent\n")
        self.refuses(f"{model}: model line 5: input 0 unknown: server last d from absent", "days", model, pooled, "--every", 100, status=3)
        model.write_text(text_of(model) + "server\n")
        self.assertEqual(planner("days", model, pooled, "--every", 100)[0], 3)
        fork = "model 2\nsource door\nfork f 2 from door\ndelay desk_queue desk_wait from f f.1\ntrunk desk 9 d from desk_queue\n"
        why = "a job visits desk more than once, but its record has room for only one wait"
        self.refuses(why, "days", self.file("f.txt", fork), self.pooled(self.folder / "m.txt", trace, desk=2)[1], "--every", 100)


if __name__ == "__main__":
    unittest.main()
