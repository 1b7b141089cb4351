"""The scenarios of a sweep: how scenarios and shards are counted, and the arguments that define them."""

import unittest

from commands import InFolder
from ground import Test

from mpsim.command.sweep import ranges
from mpsim.sweeps.local import label_of
from mpsim.sweeps.plans import Plan, labels_of, sets_of, values_of


class Plans(Test):
    def test_a_plan_counts(self):
        plan = Plan([["x", "model 1\n{a}{b}"], ["y", "{b}\n"]], {"a": [1, 2, 3], "b": ["p", "q"]}, [{"label": item} for item in "stu"])
        self.assertEqual([plan.model(number)[0] for number in range(12)], ["x"] * 6 + ["y"] * 6)
        self.assertEqual([plan.model(it)[2] for it in (0, 1, 2, 5, 6, 7)], ["model 1\n1p", "model 1\n1q", "model 1\n2p", "model 1\n3q", "p\n", "q\n"])
        self.assertEqual([list(plan.model(item)[1].items()) for item in (1, 4)], [[("a", 1), ("b", "q")], [("a", 3), ("b", "p")]])
        self.assertEqual((plan.scenarios, plan.shards), (36, 3))
        self.assertEqual([plan.shard(item) for item in (1, 2, 3)], [({"label": item}, range(12)) for item in "stu"])
        self.assertEqual(Plan.parse(plan.text()).text(), plan.text())

    def test_shards_of_a_trace(self):
        plan = Plan([["x", "{a}\n"]], {"a": list(range(130))}, [{"label": item} for item in "st"])
        want = [("s", 0, 64), ("s", 64, 128), ("s", 128, 130), ("t", 0, 64), ("t", 64, 128), ("t", 128, 130)]
        self.assertEqual([(trace["label"], it.start, it.stop) for trace, it in map(plan.shard, range(1, plan.shards + 1))], want)
        self.assertEqual(Plan([["x", "{a}\n"]], {"a": list(range(128))}, [{"label": "s"}]).shards, 2)

    def test_a_million_scenarios_are_no_longer(self):
        plan = Plan([["x", "{a} {b}\n"]], {"a": list(range(1000)), "b": list(range(1000))}, [{"label": "s"}])
        self.assertEqual((plan.scenarios, plan.shards, plan.model(999999)[2]), (1000000, 15625, "999 999\n"))
        self.assertLess(len(plan.text()), 20000)

    def test_nodes_that_a_model_has(self):
        """A pool is recognised by the kinds of its nodes; a text that doesn't begin like a model is left to its run."""
        front, servers = "model 1\nsource s\n", "server desk_1 a from desk_queue\nserver desk_2 a from desk_queue.1\n"
        judged = lambda text: Plan([["x", text]], {}, [{"label": "t"}]).judge_nodes(["s", "desk"])
        for text in (
            front + "server desk a from s\n",
            front + "split desk_queue 2 turn from s\n" + servers,
            front + "delay desk_queue w from s\ntrunk desk 2 a from desk_queue\n",
            "garbage\n", "model 3\n", "",
        ):
            judged(text)
        for text, names in (
            (front + "server desk_queue a from s\n", "s, desk_queue"),
            (front + "server desk_queue a from s\n" + servers, "s, desk_queue, desk_1, desk_2"),
            ("# a model\n\n" + front + "split desk_queue 2 turn from s\ndelay desk_1 a from desk_queue\n", "s, desk_queue, desk_1"),
            (front + "nonsense\n", "s"),
        ):
            self.assertRaisesRegex(ValueError, f"^model x: no node 'desk'; it has {names}$", judged, text)

    def test_values(self):
        found = [values_of(item) for item in ("a=1..3", "a=1..9..4", "b=2,x", "c==5,=7", "d=0..0", "e=0..10..5")]
        self.assertEqual(found, [("a", [1, 2, 3]), ("a", [1, 5, 9]), ("b", ["2", "x"]), ("c", ["=5", "=7"]), ("d", [0]), ("e", [0, 5, 10])])
        for bad in "a", "a=", "a=1..", "=3", "a=1..x", "a=1,,2", "a=1..9..0", "a=3..1", "1a=2", "a b=1", "status=1", "in=1":
            with self.subTest(bad), self.assertRaises(ValueError):
                values_of(bad)
        self.assertEqual(sets_of(["a=1..2", "b=x"]), {"a": [1, 2], "b": ["x"]})

    def test_labels(self):
        self.assertEqual(labels_of(["x/a.txt", "b.model.csv"]), ["a", "b.model"])
        self.assertEqual(labels_of(["x/a.txt", "y/a.txt"]), ["x/a.txt", "y/a.txt"])

    def test_labels_of_scenarios(self):
        """A tuple of the texts that differ, so that a page has one curve per load; one text by itself."""
        plan = Plan([["x", "{a}{b}"]], {"a": [1, 2], "b": ["p", "q"]}, [{"label": "s"}])
        self.assertEqual([label_of(plan, plan.traces[0], at) for at in range(4)], [("1", "p"), ("1", "q"), ("2", "p"), ("2", "q")])
        plan = Plan([["x", "{a}"]], {"a": [1, 2]}, [{"label": "s"}, {"label": "t"}])
        self.assertEqual(label_of(plan, plan.traces[1], 1), ("t", "2"))
        self.assertEqual(label_of(Plan([["x", "{a}"]], {"a": [1, 2]}, [{"label": "s"}]), {"label": "s"}, 1), "2")

    def test_ranges(self):
        self.assertEqual([ranges(item) for item in ([1], [1, 2, 3, 7], range(5), [])], ["1", "1-3, 7", "0-4", ""])
        self.assertEqual(ranges(range(0, 50, 2), 3), "0, 2, 4 and 22 more")


class Kept(InFolder):
    def test_nodes_that_a_folder_keeps(self):
        """The table keeps its nodes when the sweep is continued, unless others are requested."""
        model = self.file("m.txt", "model 2\nsource calls\ntrunk lines {lines} a from calls\n")
        trace, at = self.file("t.csv", "source,time,a\ncalls,0,5\ncalls,1,5\n"), self.folder / "kept"
        count = "mpplan: 2 scenarios in 1 shards, {} to run\n"
        want = self.tells("sweep", model, trace, "--set", "lines=1,2", "--folder", at, "--node", "lines", error=count.format(1))
        nodes = lambda text: [row.split(",")[5] for row in text.splitlines()]
        self.assertEqual(nodes(want), ["node", "lines", "lines"])
        for way, told in ("--table", ""), ("--resume", count.format(0)):
            self.assertEqual(self.tells("sweep", "--folder", at, way, error=told), want)
            self.assertEqual(nodes(self.tells("sweep", "--folder", at, way, "--node", "calls", error=told)), ["node", "calls", "calls"])


if __name__ == "__main__":
    unittest.main()
