"""Breakdowns: servers, loss stations and tandems beside a simulation that advances tick by tick, and as the command writes them."""

import csv
import io
import random
import unittest

from commands import InFolder, planner
from ground import EXAMPLES, Test, text_of, words_of
from ticking_machines import ticking

import mpsim
from mpsim.agents.queues import Queue
from mpsim.stations.breakdowns import Breakdown, Repairs, served, with_breakdowns
from mpsim.stations.buffers import held, line_of, worked_out
from mpsim.stations.columns import judge_departures
from mpsim.traces import Trace

NOTHING = "mpplan: 1 breakdown changed nothing: no job is in work or would begin meanwhile\n"
SAYS = "mpplan: breakdowns are worked out beside the proved programs: tested, not proved\n"
MODEL = "model 1\nsource parts\nserver mill mill from parts\n"
NAMES = "abcd"


def drawn(draw, machines=1, jobs=14):
    """Draws jobs, as pairs of a time and the service times, many of them 0 or at equal times; and for each machine when it is down."""
    now, found, longest = draw.choice([0, 0, 4]), [], [draw.choice([0, 1, 3, 9]) for _ in range(machines)]
    for _ in range(draw.randint(0, jobs)):
        now += draw.choice([0, 0, 0, 1, 2, 6])
        found.append((now, [draw.randint(0, top) for top in longest]))
    downs = []
    for _ in range(machines):
        begin, mine = 0, []
        for _ in range(draw.randint(0, 4)):
            begin += draw.choice([0, 0, 1, 2, 5, 9])
            mine.append((begin, begin + draw.choice([1, 1, 2, 5, 12])))
            begin = mine[-1][1]
        downs.append(mine)
    return found, downs


def repairs_of(downs, stage=None):
    return Repairs([Breakdown("n", begin, end - begin, stage) for begin, end in downs])


class Servers(Test):
    def test_beside_the_simulation(self):
        """Servers and loss stations: when each job that is served leaves, and who is lost."""
        draw = random.Random(1)
        for case in range(500):
            jobs, (downs,) = drawn(draw)
            room = draw.choice([None, None, 1, 2, 3])
            found = served([time for time, _ in jobs], [ticks for _, (ticks,) in jobs], repairs_of(downs), room)
            ends = ticking(jobs, [], [downs], room)
            wanted = {at: end[0] for at, end in enumerate(ends) if end is not None}
            self.assertEqual(dict(zip(found.at, found.end)), wanted, (case, jobs, downs, room))

    def test_tandems_beside_the_simulation(self):
        draw = random.Random(2)
        for case in range(300):
            machines = draw.randint(2, 4)
            jobs, downs = drawn(draw, machines)
            places = [draw.randint(1, 4) for _ in range(machines - 1)]
            finish = {at: repairs_of(mine).finished for at, mine in enumerate(downs) if mine}
            services = list(zip(*(it for _, it in jobs))) if jobs else [[]] * machines
            found = held([time for time, _ in jobs], services, places, finish)
            ends = ticking(jobs, places, downs)
            self.assertEqual(found.depart, [[end[at] for end in ends] for at in range(machines)], (case, jobs, downs, places))

    def test_by_hand(self):
        """In the middle of a job, at its beginning, at its end, while idle, and over several jobs that come meanwhile."""
        for downs, ends in (
            ([], [4, 8, 24]),
            ([(2, 5)], [7, 11, 24]),
            ([(0, 3)], [7, 11, 24]),
            ([(4, 7)], [4, 11, 24]),
            ([(8, 15)], [4, 8, 24]),
            ([(8, 20)], [4, 8, 24]),
            ([(8, 21)], [4, 8, 25]),
            ([(23, 30)], [4, 8, 31]),
            ([(24, 30)], [4, 8, 24]),
            ([(1, 3), (3, 4), (6, 8)], [9, 13, 24]),
        ):
            found = served([0, 1, 20], [4, 4, 4], repairs_of(downs))
            self.assertEqual(found.end, ends, downs)
            self.assertEqual(ticking([(0, [4]), (1, [4]), (20, [4])], [], [downs]), [[end] for end in ends])

    def test_what_each_changed(self):
        """The ticks added to each job are those that breakdowns added to it."""
        draw, some = random.Random(3), 0
        for case in range(300):
            jobs, (downs,) = drawn(draw)
            repairs, services = repairs_of(downs), [ticks for _, (ticks,) in jobs]
            found = served([time for time, _ in jobs], services, repairs)
            changes = repairs.changes(list(range(1, len(jobs) + 1)), found.begin, found.end)
            added = [0] * len(jobs)
            for change, (begin, end) in zip(changes, downs):
                self.assertEqual((change.breakdown.begin, change.breakdown.end), (begin, end))
                if change.record is not None:
                    added[change.record - 1] += change.added
                    self.assertGreater(change.added, 0)
                    self.assertEqual((change.begin, change.end), (found.begin[change.record - 1], found.end[change.record - 1]))
            wanted = [end - begin - ticks for begin, end, ticks in zip(found.begin, found.end, services)]
            self.assertEqual(added, wanted, (case, jobs, downs))
            some += sum(map(bool, added))
        self.assertGreater(some, 200)


class Networks(Test):
    def test_through_the_program(self):
        """Breakdowns at several nodes of a network: each job leaves each node when the simulation says so; columns are shared, and one is fixed."""
        model = "model 1\nsource parts\nserver saw =3 from turn\nserver turn a from parts\ntandem line a / 3 =2 / 1 b from saw\n"
        for seed in range(10):
            draw = random.Random(seed)
            jobs, _ = drawn(draw, 2, jobs=25)
            rows = [["parts", str(time), *map(str, ticks)] for time, ticks in jobs]
            places = {name: drawn(draw)[1][0] for name in ("saw", "turn", "line.1", "line.2", "line.3")}
            every = []
            for place, downs in places.items():
                node, _, stage = place.partition(".")
                every += [Breakdown(node, begin, end - begin, int(stage) if stage else None) for begin, end in downs]
            draw.shuffle(every)
            made = with_breakdowns(model, Trace("t.csv", ["source", "time", "a", "b"], rows), every)
            told = "".join(mpsim.run(made.model, made.trace.lines(), jobs=True).lines())
            ends = {name: {int(w[1]): int(w[8]) for w in words_of(told, "job") if w[2] == name} for name in ("turn", "saw", "line")}
            turned = ticking([(time, [a]) for time, (a, _) in jobs], [], [places["turn"]])
            self.assertEqual(ends["turn"], {at: end[0] for at, end in enumerate(turned, 1)})
            sawn = ticking([(end[0], [3]) for end in turned], [], [places["saw"]])
            self.assertEqual(ends["saw"], {at: end[0] for at, end in enumerate(sawn, 1)})
            line = ticking([(end[0], [a, 2, b]) for end, (_, (a, b)) in zip(sawn, jobs)], [3, 1], [places[f"line.{at}"] for at in (1, 2, 3)])
            self.assertEqual(ends["line"], {at: end[2] for at, end in enumerate(line, 1)}, seed)
            self.assertEqual(len(made.changes), len(every))
            # Only columns are added.
            self.assertEqual([row[: len(rows[0])] for row in made.trace.rows], rows)

    def test_a_loss_station(self):
        """Jobs that are lost only because of the breakdown leave by output 1; and those from another source don't come."""
        model = "model 1\nsource parts\nsource more\nloss mill 2 mill from parts\ndelay rest =1 from mill.1\ndelay away =1 from more\n"
        for seed in range(10):
            draw = random.Random(seed)
            jobs, (downs,) = drawn(draw)
            rows = [[draw.choice(["parts", "parts", "more"]), str(time), str(ticks)] for time, (ticks,) in jobs]
            made = with_breakdowns(model, Trace("t.csv", ["source", "time", "mill"], rows), [Breakdown("mill", a, b - a) for a, b in downs])
            told = "".join(mpsim.run(made.model, made.trace.lines(), jobs=True).lines())
            ends = {int(w[1]): [int(w[8])] if w[5] == "wait" else None for w in words_of(told, "job") if w[2] == "mill"}
            mine = [at for at, row in enumerate(rows) if row[0] == "parts"]
            self.assertEqual(ends, dict(zip((at + 1 for at in mine), ticking([jobs[at] for at in mine], [], [downs], 2))))

    def test_columns_that_no_longer_hold(self):
        """A pool, a line or a breakdown downstream was worked out for other times of arrival."""
        rows = [["parts", "0", "4", "2"], ["parts", "1", "4", "2"]]
        trace = Trace("t.csv", ["source", "time", "mill", "pack"], rows)
        model, made = Queue(MODEL + "server pack pack from mill\n", trace, "pack").with_pool(2)
        down = [Breakdown("mill", 2, 5)]
        why = "its columns hold only for the times at which jobs come there; work out breakdowns at mill first"
        why = f"the queue at pack is downstream of mill: {why}"
        self.assertRaisesRegex(ValueError, why, with_breakdowns, model, made, down)
        self.assertRaisesRegex(ValueError, "a trunk group has several servers", with_breakdowns, model, made, [Breakdown("pack", 2, 5)])
        model, made = Queue(MODEL + "server pack pack from mill\n", trace, "pack").with_pool(2, "agents")
        self.assertRaisesRegex(ValueError, "an agent of the pool pack", with_breakdowns, model, made, [Breakdown("pack_1", 2, 5)])
        self.assertRaisesRegex(ValueError, "the pool at pack is downstream of mill", with_breakdowns, model, made, down)
        line = worked_out(line_of(["pack", "1", "mill_2:mill"]), ["mill"], MODEL, trace)
        self.assertRaisesRegex(ValueError, "the line of pack is downstream of mill", with_breakdowns, *line[:2], down)
        self.assertRaisesRegex(ValueError, "the line of pack is at pack", with_breakdowns, *line[:2], [Breakdown("pack", 2, 5)])
        tandem = with_breakdowns(MODEL + "tandem pack pack / 1 =3 from mill\n", trace, [Breakdown("pack", 2, 5, 2)])
        self.assertRaisesRegex(ValueError, "the breakdown at pack is downstream of mill", with_breakdowns, *tandem[:2], down)
        both = with_breakdowns(MODEL + "server pack pack from mill\n", trace, [Breakdown("pack", 2, 5)])
        self.assertRaisesRegex(ValueError, "the breakdown at pack is downstream of mill", with_breakdowns, *both[:2], down)
        self.assertRaisesRegex(ValueError, "the breakdown at pack is downstream of mill", Queue, *both[:2], "mill")
        why = "pack has breakdowns already: give all of them in one call"
        self.assertRaisesRegex(ValueError, why, with_breakdowns, *both[:2], [Breakdown("pack", 20, 5)])
        # A pool may be downstream of breakdowns that are there before it.
        made = with_breakdowns(MODEL + "server pack pack from mill\n", trace, down)
        self.assertEqual(list(Queue(*made[:2], "pack").visits(2).arrive), [9, 13])

    def test_other_departures_are_a_mistake(self):
        """The run must let jobs go when they were worked out to; a lost job has no such time."""
        report = mpsim.run("model 1\nsource parts\nloss mill 1 =4 from parts\n", [("parts", 0), ("parts", 1), ("parts", 9)], jobs=True)
        judge_departures(report, {"mill": [4, 13]})
        judge_departures(mpsim.run("model 1\nsource parts\nserver mill =4 from parts\n", [], jobs=True), {"mill": []})
        why = "jobs leave mill at other times than those worked out: this is a mistake in mpplan"
        for times in [4, 12], [4], [4, 5, 13], []:
            self.assertRaisesRegex(ValueError, why, judge_departures, report, {"mill": times})


class Command(InFolder):
    def setUp(self):
        super().setUp()
        self.out, self.model = self.folder / "out.csv", self.folder / "out.txt"

    def rows(self, *words, error=SAYS):
        return list(csv.DictReader(io.StringIO(self.tells("down", *words, "--out", self.out, "--out-model", self.model, error=error))))

    def test_ticks(self):
        model, trace = self.file("m.txt", "# parts\n" + MODEL), self.file("t.csv", "source,time,mill,x\nparts,0,4,q\nparts,1,4,r\nparts,20,4,s\n")
        rows = self.rows(model, trace, "--node", "mill", "--at", 6, "--for", 3, "--at", 18, "--for", 5)
        wanted = [["mill", "6", "3", "2", "4", "11", "3"], ["mill", "18", "5", "3", "20", "27", "3"]]
        self.assertEqual([list(row.values()) for row in rows], wanted)
        self.assertEqual(list(rows[0]), ["node", "at", "for", "record", "begin", "end", "added"])
        self.assertEqual(text_of(self.model), "# parts\nmodel 1\nsource parts\nserver mill mill_down from parts\n")
        self.assertEqual(text_of(self.out), "source,time,mill,x,mill_down\nparts,0,4,q,4\nparts,1,4,r,7\nparts,20,4,s,7\n")
        rows = self.rows(model, trace, "--node", "mill", "--at", 30, "--for", 3, error=f"{NOTHING}{SAYS}")
        self.assertEqual(list(rows[0].values()), ["mill", "30", "3", "", "", "", "0"])

    def test_dates(self):
        week = EXAMPLES / "week" / "model.txt", EXAMPLES / "week" / "trace.csv"
        # Summer time begins on the 29th in Berlin: the second is seven days and eight hours after time 0.
        words = "--node", "desk", "--at", "2026-03-24 10:00", "--for", "2h", "--at", "2026-03-30T09:00+02:00", "--for", "90s"
        rows = self.rows(*week, *words, error=f"{NOTHING}{SAYS}")
        found = [(row["at"], row["time"], row["for"]) for row in rows]
        self.assertEqual(found, [("122400", "2026-03-24T10:00:00+01:00", "7200"), ("633600", "2026-03-30T09:00:00+02:00", "90")])
        listed = self.file("list.csv", "for;node;at\n2h;desk;2026-03-24 10:00\n\n90;desk;633600\n")
        both = text_of(self.out), text_of(self.model)
        self.rows(*week, "--list", listed, error=f"{NOTHING}{SAYS}")
        self.assertEqual((text_of(self.out), text_of(self.model)), both)

    def test_other_commands_warn(self):
        """A trace with breakdowns holds as it is: whoever changes, cuts or sweeps it hears so."""
        model, trace = self.file("m.txt", MODEL), self.file("t.csv", "source,time,mill,mill_down\nparts,0,4,4\n")
        changes, out = self.file("c.csv", "record,mill\n1,5\n"), self.folder / "out.csv"
        why = "has columns that mpplan worked out (mill_down): they hold only for this trace; change it first, then work them out again"
        for words in (
            ["edit", trace, changes, "--out", out],
            ["scale", trace, "--by", "1/1", "--out", out],
            ["days", model, trace, "--every", 10],
            ["sweep", model, trace],
            ["grid", model, trace, "--node", "mill", "--agents", "1..2", "--load", "100%", "--goal", "80/20s", "--tick", "1s"],
        ):
            self.assertIn(f"{trace} {why}\n", planner(*words)[2], words)

    def test_dates_in_working_time(self):
        """A time at which the plant is closed has no tick of its own, so no breakdown begins then."""
        lines = "# a tick is 1s, time 0 is 2026-03-02T06:00:00\n# working time is mon-fri 06:00-14:00\n"
        model = self.file("m.txt", f"model 1\n{lines}source parts\nserver mill a from parts\n")
        trace = self.file("t.csv", "source,time,a\nparts,0,40000\n")
        mill = "down", model, trace, "--node", "mill", "--for", "1h"
        table = planner(*mill, "--at", "2026-03-03 06:00")[1].splitlines()
        self.assertEqual(table[1], "mill,28800,2026-03-03T06:00:00,3600,1,0,43600,3600")
        for closed in "2026-03-02 14:00", "2026-03-02 20:00", "2026-03-03 05:59":
            why = f"the time {closed} is outside of working time, which ticks count: the next opening is 2026-03-03T06:00:00"
            self.refuses(f"--at {closed}: {why}", *mill, "--at", closed)

    def test_what_is_refused(self):
        text = "model 2\nsource parts\ndelay way =1 from parts\nsplit half 2 turn from way\ntandem line a / 1 =2 from half\n"
        text += "trunk lines 3 a from half.1\nforkjoin both a | a from line\nserver mill a from both\n"
        model, trace = self.file("m.txt", text), self.file("t.csv", "source,time,a\nparts,0,4\n")
        some = "--at", 3, "--for", 2
        for node, why in (
            ("drill", "no node 'drill'; the model has parts, way, half, line, lines, both, mill"),
            ("parts", "parts can't break down: a source serves nobody"),
            ("half", "half can't break down: a split serves nobody"),
            ("way", "way can't break down: in a delay each job is served on its own, so it has no server that could stop"),
            ("both", "both can't break down: a fork-join has several servers; write it as a fork, servers and a join"),
            ("line", "line is a tandem: say which of its stages breaks down: 1 (a), 2 (=2)"),
        ):
            self.refuses(why, "down", model, trace, "--node", node, *some)
        room = self.file("r.txt", "model 1\nsource parts\ntandem line a / 4 =0 / 4 a from parts\n")
        why = "stage 2 of line has no service, so it is only room before the next one: say which stage breaks down: 1 (a), 3 (a)"
        self.refuses(why, "down", room, trace, "--node", "line", "--stage", 2, *some)
        self.refuses("mill is a server, which has no stages", "down", model, trace, "--node", "mill", "--stage", 1, *some)
        why = "line is a tandem: say which of its stages breaks down: 1 (a), 2 (=2)"
        self.refuses(why, "down", model, trace, "--node", "line", "--stage", 3, *some)
        mill = "down", model, trace, "--node", "mill"
        self.refuses("two breakdowns at mill overlap, from 3 to 5 and from 4 on: join them", *mill, *some, "--at", 4, "--for", 1)
        self.refuses("give --node, --at and --for, one --for for each --at; or --list", *mill, *some, "--at", 9)
        self.refuses("give --list, or --node with --at and --for, not both", *mill, "--list", trace)
        self.refuses("--for 0: the length 0 isn't a whole number of ticks, 1 or more", *mill, "--at", 3, "--for", 0)
        self.refuses("--for 90ms: the length 90ms isn't a whole number of ticks, 1 or more", *mill, "--at", 3, "--for", "90ms", "--tick", "1s")
        self.refuses("--for 1500ms: the length 1500ms isn't a whole number of ticks, 1 or more", *mill, "--at", 3, "--for", "1500ms", "--tick", "1s")
        unknown = "the length of a tick is unknown: give --tick, or a model whose first lines mpplan prepare wrote"
        self.refuses(f"--for 2h: {unknown}", *mill, "--at", 3, "--for", "2h")
        start = "--tick", "1s", "--start", "2026-03-02T08:00"
        self.refuses("--at 2026-03-02 07:00: the time 2026-03-02 07:00 is before time 0", *mill, "--at", "2026-03-02 07:00", "--for", 5, *start)
        for rows, why in (
            ("node,at\nmill,3\n", "row 1: expected the columns node, at, for and perhaps stage, not 'node,at'"),
            ("node,at,for\nmill,3\n", "row 2: 2 fields instead of 3"),
            ("node,at,for\nmill,3,0\n", "row 2: the length 0 isn't a whole number of ticks, 1 or more"),
            ("node,at,for,stage\nline,3,1,first\n", "row 2: the stage 'first' isn't a number from 1"),
        ):
            path = self.file("list.csv", rows)
            self.refuses(f"{path}: {why}", "down", model, trace, "--list", path)
        fork = self.file("f.txt", "model 2\nsource parts\nfork f 2 from parts\nserver mill a from f f.1\n")
        self.refuses("a job visits mill more than once, but its record has room for only one wait", "down", fork, trace, "--node", "mill", *some)
        self.assertEqual(planner("down", model, trace, "--node", "mill", *some)[0], 0)


if __name__ == "__main__":
    unittest.main()
