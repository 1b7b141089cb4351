"""The network of a page: boxes and lines with the figures of the report, each in its place."""

import pathlib
import re
import tempfile
import unittest
from xml.etree import ElementTree

from ground import EXAMPLES, MODEL, Test, nodes_of, text_of, words_of
from looking import Tree, elements
from looking import text_of as text_in
from test_page import JOBS, named, with_models

import mpsim
from mpsim.command import main as planner
from mpsim.model import nodes_of as nodes_of_model
from mpsim.page import drawing, page
from mpsim.page.layers import HIGH, WIDE, Layout
from mpsim.page.network import step


class Network(Test):
    def test_call_centre(self):
        """As counted by hand from the job lines: which jobs went which way."""
        tree = Tree(page([mpsim.Report.read(JOBS, MODEL)])).root
        found = {item[1]["data-flow"]: text_in(next(elements(item, "title"))) for item in named(tree, "edge")}
        counts = {"phone.0": 5, "web.0": 5, "greet.0": 10, "menu.0": 4, "menu.1": 6, "expert.0": 3, "expert.1": 3, "desk.0": 7, "wrap.0": 10}
        self.assertEqual(found, {name: f"output {name[-1]}: {count} jobs" for name, count in counts.items()})
        boxes = {item[1]["data-node"]: (item[1]["class"], [text_in(one) for one in elements(item, "text")]) for item in named(tree, "node")}
        self.assertEqual(boxes["expert"], ("node load3", ["expert", "loss 2 e", "p90 5, lost 3", "57 %"]))
        self.assertEqual(boxes["desk"], ("node load3 marked", ["desk", "tandem a / 1 b", "p90 8", "59 %"]))
        self.assertEqual(boxes["phone"], ("node load0", ["phone", "source", "5 in"]))
        self.assertEqual(boxes["menu"][1], ["menu", "split cut kind 1", "10 in"])
        self.assertEqual([text_in(item) for item in named(tree, "leave")], ["10 leave"])

    def test_each_stored_report(self):
        """Each line of the model is a box with its figures, each output a line; the arrivals on a node's lines add up to its count."""
        for path in with_models():
            with self.subTest(path.parent.name):
                model, text = text_of(path.parent / "model.txt"), text_of(path)
                tree = Tree(page([mpsim.Report.read(path, model)])).root
                lines = [part.split() for part in model.replace("\r", "").lstrip("\ufeff").split("\n")]
                lines = [line for line in lines if line and line[0] not in ("model", "bound") and line[0][0] != "#"]
                self.assertEqual([item[1]["data-node"] for item in named(tree, "node")], [line[1] for line in lines])
                utils = {node["name"]: node["util"] for node in nodes_of(text)}
                for box in named(tree, "node"):
                    util = utils[box[1]["data-node"]]
                    level = 0 if util == "-" else next(item for item in (1, 2, 3, 4, 5) if float(util) < item / 5 or item == 5)
                    self.assertIn(f"load{level}", box[1]["class"].split())
                flows = {item[1]["data-flow"]: re.search(r": (\S+) jobs", text_in(item))[1] for item in named(tree, "edge")}
                for words in lines:
                    if "from" in words:
                        read = [word if "." in word else f"{word}.0" for word in words[words.index("from") + 1 :]]
                        counts = [flows.pop(item) for item in read]
                        came = next(node["in"] for node in nodes_of(text) if node["name"] == words[1])
                        if "unknown" not in counts:
                            self.assertEqual(sum(int(count.replace(",", "")) for count in counts), int(came))
                # An output that no node reads leaves the network.
                self.assertEqual(flows, {word[1]: f"{int(word[2]):,}" for word in words_of(text, "exit")})

    def test_flows_after_forks_splits_and_joins(self):
        """Counted from the trace: of seven jobs the third and the sixth have k = 2, and take output 2."""
        model = "model 2\nsource s\nfork f 2 from s\nserver a =1 from f\nsplit b 3 mod k from f.1\n"
        model += "server c =1 from b\nserver d =1 from b.1\njoin j from a c\n"
        rows = [("s", at, it) for at, it in enumerate((0, 1, 2, 0, 0, 2, 1))]
        report = mpsim.run(model, rows)
        found = {item[1]["data-flow"]: text_in(next(elements(item, "title"))) for item in named(Tree(page([report])).root, "edge")}
        counts = {"s.0": 7, "f.0": 7, "f.1": 7, "a.0": 7, "b.0": 3, "b.1": 2, "b.2": 2, "c.0": 3, "d.0": 2, "j.0": 3}
        self.assertEqual(found, {name: f"output {name[-1]}: {count} jobs" for name, count in counts.items()})

    def test_flows_of_splits_that_meet(self):
        """What two splits send to one node follows from what else they send: five jobs in turn, and k = 0, 1, 1, 3 modulo 2."""
        model = "model 1\nsource s\nsource t\nsplit a 2 turn from s\nsplit b 2 mod k from t\n"
        model += "server x =1 from a\nserver y =1 from a.1 b.1\nserver z =1 from b\n"
        report = mpsim.run(model, [("s", at, 0) for at in range(5)] + [("t", at, it) for at, it in enumerate((0, 1, 1, 3))])
        found = {item[1]["data-flow"]: text_in(next(elements(item, "title"))) for item in named(Tree(page([report])).root, "edge")}
        counts = {"s.0": 5, "t.0": 4, "a.0": 3, "a.1": 2, "b.0": 1, "b.1": 3, "x.0": 3, "y.0": 5, "z.0": 1}
        self.assertEqual(found, {name: f"output {name[-1]}: {count} jobs" for name, count in counts.items()})

    def test_steps_of_the_scale(self):
        self.assertEqual([step(item) for item in (None, 0.0, 0.1999, 0.2, 0.5999, 0.6, 0.7999, 0.8, 1.0)], [0, 1, 1, 2, 3, 4, 4, 5, 5])

    def test_places(self):
        """No box covers another; each node is to the right of those that it reads, and lines run from side to side."""
        for path in with_models():
            nodes = nodes_of_model(text_of(path.parent / "model.txt").lstrip("\ufeff"))
            layout = Layout(nodes)
            boxes = {node.name: layout.places[node.name] for node in nodes}
            with self.subTest(path.parent.name):
                for one, (x, y) in boxes.items():
                    self.assertTrue(0 <= x and x + WIDE <= layout.width and HIGH / 2 <= y and y + HIGH / 2 <= layout.height)
                    for other, (to_x, to_y) in boxes.items():
                        self.assertTrue(one == other or x != to_x or abs(y - to_y) >= HIGH + 10, (one, other))
                for node in nodes:
                    for name, _ in node.inputs:
                        self.assertGreater(boxes[node.name][0], boxes[name][0])
                self.assertEqual(len(layout.lines), sum(node.outputs for node in nodes))
                for line in layout.lines:
                    columns = [layout.places[item][0] for item in line.path]
                    self.assertEqual(columns, sorted(set(columns)))

    def test_drawing(self):
        """Only the network, with the texts and boxes of the page; that of the call centre is the one in its directory."""
        report = mpsim.Report.read(JOBS, MODEL)
        text = drawing(report)
        tree, whole = Tree(text).root, Tree(page([report])).root
        ElementTree.fromstring(text)
        self.assertNotIn("var(", text)
        found = [[(it[0], text_in(it)) for it in elements(next(elements(one, "svg"))) if it[0] not in ("style", "g")] for one in (tree, whole)]
        # The background comes first.
        self.assertEqual(found[0][1:], found[1])
        self.assertEqual(text, text_of(EXAMPLES, "callcentre", "network.svg"))
        with tempfile.TemporaryDirectory() as folder:
            out = pathlib.Path(folder, "network.svg")
            self.assertEqual(planner(["page", str(JOBS), "--model", str(MODEL), "--out", str(out)]), 0)
            self.assertEqual(out.read_text(), text)
        with self.assertRaisesRegex(ValueError, "needs the model"):
            drawing(mpsim.Report.read(JOBS))

    def test_without_a_model(self):
        text = page([mpsim.Report.read(JOBS)])
        self.assertEqual(list(elements(Tree(text).root, "svg")), [])
        self.assertNotIn("<h2 id=\"h-network\">", text)
        for model in "model 1\nsource phone\n", "model 1\nx\n", text_of(MODEL).replace("tandem desk a / 1 b", "server desk a"), "fork f x from a\n":
            with self.assertRaises(ValueError):
                mpsim.Report.read(JOBS, model)
        with self.assertRaises(OSError):
            mpsim.Report.read(JOBS, "/nowhere/model.txt")

    def test_runs_know_their_models(self):
        rows, model = [("phone", 0, 3)], "model 1\nsource phone\nserver desk =4 from phone\n"
        with tempfile.TemporaryDirectory() as folder:
            path = pathlib.Path(folder, "model.txt")
            path.write_bytes(b"\xef\xbb\xbf" + model.replace("\n", "\r\n").encode())
            trace = "source,time\nphone,0\n"
            self.assertEqual(mpsim.run(path, trace).model, model.replace("\n", "\r\n"))
            self.assertEqual(len(named(Tree(page([mpsim.run(path, trace)])).root, "node")), 2)
        self.assertEqual([mpsim.run(item, trace).model for item in (model, model.encode())], [model] * 2)
        self.assertEqual(mpsim.edit(model, trace, []).model, model)
        self.assertEqual([item.report.model for jobs in (False, True) for item in mpsim.sweep(trace, [model], jobs=jobs).values()], [model] * 2)
        self.assertEqual(mpsim.made(7).model, None)
        self.assertEqual(len(rows), 1)


if __name__ == "__main__":
    unittest.main()
