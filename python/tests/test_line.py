"""Machines with buffers between them: as tandems, in words; and worked out over a trace, beside the simulation of the recipes' check."""

import csv
import io
import itertools
import random
import sys
import unittest

from commands import InFolder
from ground import ROOT, Test, text_of, words_of

sys.path.insert(0, str(ROOT / "check"))
from rules import in_line

import mpsim
from mpsim.stations.buffers import fits, held, line_of, nearest, tandem, worked_out
from mpsim.tables.stations import machines
from mpsim.traces import Trace

NAMES = "abcdef"
SAYS = "mpplan: blocked times are worked out beside the proved programs: tested, not proved\n"


def drawn(seed, most=6, jobs=30):
    """Draws a line: its places, and parts as pairs of a time and the service times, many of them 0 or at equal times."""
    draw, now, parts = random.Random(seed), 0, []
    count = draw.randint(2, most)
    longest = [draw.choice([0, 1, 3, 9]) for _ in range(count)]
    for _ in range(draw.randint(0, jobs)):
        now += draw.choice([0, 0, 0, 1, 2, 5])
        parts.append((now, [draw.randint(0, top) for top in longest]))
    return [draw.choice([1, 1, 2, 3, 5, 13]) for _ in range(count - 1)], parts


def departs(parts, places):
    """Returns when each part leaves each machine, by machine, as the simulation has it."""
    ends = in_line(parts, places)
    return [[ends[number][machine] for number in ends] for machine in range(len(places) + 1)]


def stages_of(words):
    """Returns the numbers of places that the stages of a tandem after the first add up to, at each machine that works, from its words."""
    rooms = [0]
    for part in " ".join(words).split(" / ")[1:]:
        places, demand = part.split()
        assert 1 <= int(places) <= 4, words
        rooms[-1] += int(places)
        rooms += [0] * (demand != "=0")
    return rooms[:-1]


class Tandems(Test):
    def test_every_line_that_a_tandem_holds(self):
        """All capacities up to 13, for two to five machines: what is written holds exactly them, and what is refused no tandem can hold."""
        held_by = {(first, *more) for n in (1, 2, 3) for first, *more in itertools.product(range(1, 13), repeat=n)}
        # A tandem is 1 to 3 stages after the first, each with 1 to 4 places; those of a machine follow one another.
        sums = set()
        for count in 1, 2, 3:
            for places in itertools.product(range(1, 5), repeat=count):
                for works in itertools.product([False, True], repeat=count - 1):
                    own = [0]
                    for room, work in zip(places, (*works, True)):
                        own[-1] += room
                        own += [0] * work
                    sums.add(tuple(own[:-1]))
        self.assertEqual(len(sums), 12 + 48 + 64)
        for places in [*held_by, (13,), (9, 4), (4, 9), (5, 5), (5, 1, 1), (1, 1, 1, 1)]:
            names = NAMES[: len(places) + 1]
            line = line_of([word for pair in zip(names, map(str, (*places, 0))) for word in pair][:-1])
            self.assertEqual(fits(places), places in sums, places)
            if places in sums:
                model = mpsim.Model()
                stages = tandem(line)
                text = str(model.tandem("line", names[0], *stages, model.source("parts")) and model).splitlines()[-1]
                words = text.removeprefix("tandem line ").removesuffix(" from parts").split()
                self.assertEqual(stages_of(words), list(places))
                self.assertEqual(list(names), [word for word in words if word.isalpha()])
                self.assertLessEqual(words.count("/"), 3)
            elif len(places) < 4 and max(places) < 10:
                below = [it for it in sums if len(it) == len(places) and all(one <= other for one, other in zip(it, places))]
                most = max(map(sum, below))
                self.assertEqual(sorted(map(tuple, nearest(places))), sorted(it for it in below if sum(it) == most))

    def test_words(self):
        line = line_of(["cut", "3", "mill:milling", "0", "drill:=30"], besides=1)
        self.assertEqual(line, (["cut", "mill", "drill"], ["cut", "milling", "=30"], [4, 1]))
        self.assertEqual(line.shown(line.places, 1), "cut 3 mill:milling 0 drill:=30")
        for words, why in (
            (["cut"], "isn't a line"),
            (["cut", "3"], "isn't a line"),
            (["cut", "3", "mill", "4"], "isn't a line"),
            (["cut", "0", "mill"], "'0' isn't a number of places: expected a whole number, 1 or more"),
            (["cut", "-1", "mill"], "isn't a number of places"),
            (["cut", "3", "Mill"], "'Mill' isn't a machine"),
            (["cut", "3", "mill:"], "'mill:' isn't a machine"),
            (["cut", "3", "mill:30"], "'mill:30' isn't a machine"),
            (["cut", "3", "cut"], "two machines have the name cut"),
        ):
            self.assertRaisesRegex(ValueError, why, line_of, words)


class Held(Test):
    def test_beside_the_simulation(self):
        for seed in range(400):
            places, parts = drawn(seed)
            found = held([time for time, _ in parts], zip(*(it for _, it in parts)) if parts else [[]] * (len(places) + 1), places)
            self.assertEqual(found.depart, departs(parts, places), seed)
            # A machine begins a part once it has come and the one before has left.
            for machine, begin in enumerate(found.begin):
                come = [time for time, _ in parts] if machine == 0 else found.depart[machine - 1]
                free = [0, *found.depart[machine]]
                self.assertEqual(begin, [max(pair) for pair in zip(come, free)])

    def test_through_the_program(self):
        """Behind a delay, with jobs that go elsewhere, the departures of each machine, its blocked time, and those of the last one."""
        model = "model 1\nsource other\nsource parts\ndelay way w from parts\nsplit kind 2 mod k from way\n"
        for seed in range(12):
            places, parts = drawn(seed, jobs=25)
            names, draw = NAMES[: len(places) + 1], random.Random(seed)
            rows = []
            for time, services in parts:
                rows.append(["parts", str(time), "7", "0", *map(str, services)])
                rows += [[draw.choice(["parts", "other"]), str(time), "7", "1", *map(str, services)]] * draw.randint(0, 1)
            line = line_of([word for pair in zip(names, map(str, (*places, 0))) for word in pair][:-1])
            made = worked_out(line, ["kind"], model, Trace("t.csv", ["source", "time", "w", "k", *names], rows))
            told = "".join(mpsim.run(made.model, made.trace.lines(), jobs=True).lines())
            wanted = departs([(time + 7, it) for time, it in parts], places)
            for name, ends in zip(names, wanted):
                self.assertEqual([int(words[8]) for words in words_of(told, "job") if words[2] == name], ends, seed)
            span = int(told.split()[6])
            for row, begin, ends, work in zip(list(machines(line, made))[1:], made.held.begin, wanted, zip(*(it for _, it in parts))):
                blocked = sum(ends) - sum(begin) - sum(work)
                shares = [f"{10**4 * ticks // span / 10**4:.4f}" for ticks in (sum(work), blocked)]
                self.assertEqual(row[2:7], [len(parts), sum(work), blocked, *shares])

    def test_a_large_buffer_blocks_nobody(self):
        parts = [(0, [1, 5]), (0, [1, 5]), (0, [1, 5]), (0, [1, 5])]
        for places, last in ((1, [1, 6, 11, 16]), (2, [1, 2, 6, 11]), (3, [1, 2, 3, 6]), (4, [1, 2, 3, 4])):
            self.assertEqual(held([0] * 4, zip(*(it for _, it in parts)), [places]).depart[0], last)


class Command(InFolder):
    def setUp(self):
        super().setUp()
        self.trace = self.file("t.csv", "source,time,cut,mill\nparts,0,1,5\nparts,0,1,5\nparts,0,1,5\n")

    def test_a_tandem(self):
        text = "model 1\nsource parts\nsource more\ntandem line cut / 4 mill / 2 =3 from parts more\n"
        says = "mpplan: mill has 4 places: 1 in work and 3 before it\nmpplan: drill has 2 places: 1 in work and 1 before it\n"
        words = "line", "cut", 4, "mill", 2, "drill:=3", "--from", "parts", "--from", "more"
        self.assertEqual(self.tells(*words, error=says), text)
        self.assertEqual(self.tells("line", "cut", 3, "mill", 1, "drill:=3", *words[-4:], "--count", "buffer", error=says), text)
        out = self.folder / "m.txt"
        self.assertEqual(self.tells(*words, "--out-model", out, error=says), "")
        self.assertEqual(text_of(out), text)
        says = "mpplan: mill has 12 places: 1 in work and 11 before it\n"
        says += "mpplan: util of line counts 4 stages, 2 of which work: multiply it by 2\n"
        found = self.tells("line", "cut", 12, "mill", "--from", "parts", error=says)
        self.assertEqual(found, "model 1\nsource parts\ntandem line cut / 4 =0 / 4 =0 / 4 mill from parts\n")
        # After a node of a model.
        model = self.file("in.txt", "model 1\nsource parts\nsplit half 2 turn from parts\n")
        says = "mpplan: mill has 5 places: 1 in work and 4 before it\n"
        says += "mpplan: util of row counts 3 stages, 2 of which work: multiply it by 3/2\n"
        found = self.tells("line", "cut", 5, "mill", "--from", "half.1", "--model", model, "--name", "row", error=says)
        self.assertEqual(found, text_of(model) + "tandem row cut / 1 =0 / 4 mill from half.1\n")

    def test_worked_out(self):
        out, model = self.folder / "out.csv", self.folder / "m.txt"
        words = "line", "cut", 1, "mill", "--from", "parts", "--trace", self.trace
        rows = list(csv.DictReader(io.StringIO(self.tells(*words, "--out", out, "--out-model", model, error=SAYS))))
        found = [[row[it] for it in ("machine", "places", "work", "blocked")] for row in rows]
        self.assertEqual(found, [["cut", "", "3", "8"], ["mill", "1", "15", "0"]])
        self.assertEqual([row["blocked_share"] for row in rows], ["0.5000", "0.0000"])
        self.assertEqual(text_of(model), "model 1\nsource parts\nserver cut cut_held from parts\nserver mill mill_held from cut\n")
        head, *lines = text_of(out).splitlines()
        self.assertEqual(head, "source,time,cut,mill,cut_held,mill_held")
        self.assertEqual([line.split(",")[4:] for line in lines], [["1", "5"], ["5", "5"], ["5", "5"]])

    def test_what_is_refused(self):
        line = "line", "cut", 12, "mill", 4, "drill", "--from", "parts"
        more = " (with --trace, the line is worked out over a trace)"
        self.refuses(f"no tandem holds cut 12 mill 4 drill: the nearest that it holds: cut 8 mill 4 drill{more}", *line)
        self.refuses(
            f"no tandem holds cut 6 mill 6 drill: the nearest that it holds: cut 6 mill 3 drill or cut 3 mill 6 drill{more}",
            *("line", "cut", 6, "mill", 6, "drill", "--from", "parts", "--count", "buffer"),
        )
        five = "cut 1 mill 1 drill 1 wash 1 pack"
        self.refuses(f"no tandem holds {five}: a tandem holds 4 machines at most{more}", "line", *five.split(), "--from", "parts")
        two = "line", "cut", 3, "mill"
        self.refuses("--from half.1: without --model the line reads sources, whose names are like parts or line_2", *two, "--from", "half.1")
        self.refuses("--out needs --trace: a tandem has no columns of its own", *two, "--from", "parts", "--out", "o.csv")
        self.refuses(f"{self.trace}: no column 'drill'; it has cut, mill", *line, "--trace", self.trace)
        fork = self.file("f.txt", "model 2\nsource parts\nfork f 2 from parts\n")
        words = *two, "--from", "f", "--from", "f.1", "--model", fork, "--trace", self.trace
        self.refuses("a job visits cut more than once, but its record has room for only one wait", *words)
        model = self.file("m.txt", "model 1\nsource parts\nserver line cut from parts\n")
        said = "model line 4: name declared twice: tandem line cut / 3 mill from line"
        self.refuses(said, *two, "--from", "line", "--model", model, status=3)


if __name__ == "__main__":
    unittest.main()
