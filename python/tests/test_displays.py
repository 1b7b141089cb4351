"""What a notebook and a prompt show of each object: a line that says what it is, and HTML of those that have a network or a table."""

import html.parser
import re
import unittest

from ground import DESK, EXAMPLES, Test

import mpsim
from mpsim.agents import Agent, Group
from mpsim.agents.queues import Queue
from mpsim.traces import Trace

CALLS = [("door", 0, 4), ("door", 1, 1), ("door", 2, 3)]
LOSS = "model 1\nsource door\nloss desk {places} d from door\n"


class Elements(html.parser.HTMLParser):
    """Notes the elements that are open, and those that a text has."""

    def __init__(self, text):
        super().__init__()
        self.open, self.found = [], []
        self.feed(text)

    def handle_starttag(self, tag, attributes):
        self.open.append(tag)
        self.found.append(tag)

    def handle_startendtag(self, tag, attributes):
        self.found.append(tag)

    def handle_endtag(self, tag):
        assert self.open.pop() == tag, tag


class Displays(Test):
    def shows(self, it, *tags):
        """Returns the HTML of an object, which is well formed, has these elements, and loads nothing."""
        text = it._repr_html_()
        elements = Elements(text)
        self.assertEqual((elements.open, [tag for tag in tags if tag not in elements.found]), ([], []))
        self.assertNotRegex(text, r"<script|https?://(?!www\.w3\.org)")
        return text

    def test_lines(self):
        report = mpsim.run(DESK, CALLS, jobs=True)
        model = mpsim.Model.parse("model 1\n# a desk\nbound 99\nsource door\nserver desk d from door\n")
        sweep = mpsim.sweep(CALLS, mpsim.variants(LOSS, places=[0, 1]))
        trace = Trace("", ["source", "time", "d"], [["door", "0", "4"]])
        prepared = mpsim.prepare(b"When,Long\n2026-03-02 08:00:00,4\n", "When", demand="Long=d:s")
        for it, line in (
            (model, "<Model of 2 nodes, version 1>"),
            (mpsim.Model().delay("later", 3, "desk"), "<Output later.0>"),
            (report, "<Report of 3 jobs, 2 nodes, span 8>"),
            (report.visits, "<Visits of 2 nodes: 6 visits>"),
            (report.visits["desk"], "<NodeVisits of desk: 3 visits>"),
            (sweep, "<Sweep of 2 scenarios, 1 refused>"),
            (trace, "<Trace of 1 records, columns source, time, d>"),
            (prepared, "<Prepared of 1 records, columns source, time, d>"),
            (Group([Agent([(0, 60)])]), "<Group of 1 agents>"),
            (Queue(DESK, trace, "desk"), "<Queue of 1 calls at desk>"),
        ):
            with self.subTest(line):
                self.assertEqual(repr(it), line)

    def test_every_public_type(self):
        """None shows only where it is in memory."""
        for name in mpsim.__all__[1:]:
            it = getattr(mpsim, name)
            if isinstance(it, type):
                self.assertIsNot(it.__repr__, object.__repr__, name)

    def test_models(self):
        """The network, with each node, and without figures."""
        for path in sorted(EXAMPLES.glob("*/model.txt")):
            with self.subTest(path):
                model = mpsim.Model.read(path)
                text = self.shows(model, "svg", "rect")
                named = re.findall(r'<g class="node [^"]*" data-node="(\w+)"', text)
                self.assertEqual(sorted(named), sorted(node.name for node in mpsim.model.nodes_of(str(model))))
                self.assertNotRegex(text.split("</style>")[1], r"p90|\d jobs|unknown")
        self.assertIsNone(mpsim.Model.parse("model 1\nserver\n")._repr_html_())

    def test_tables(self):
        report = mpsim.run(DESK, CALLS * 1, jobs=True)
        self.assertIn("<td>door</td>", self.shows(report.visits, "table"))
        self.assertEqual(self.shows(report.visits["desk"], "table").count("<tr>"), 4)
        many = [("door", at, 1) for at in range(50)]
        self.assertIn("50 rows, the first 10", self.shows(mpsim.run(DESK, many, jobs=True).visits["desk"], "table"))
        self.assertIn("&lt;b&gt;", self.shows(Trace("", ["source", "time"], [["<b>", "0"]]), "table"))
        self.assertIn("<td>4</td>", self.shows(mpsim.prepare(b"When,Long\n2026-03-02 08:00:00,4\n", "When", demand="Long=d:s"), "table"))

    def test_sweeps(self):
        text = self.shows(mpsim.sweep(CALLS, mpsim.variants(LOSS, places=[0, 1])), "table")
        self.assertIn("word 3 not allowed", text)
        self.assertIn("<td>loss</td><td>3</td><td>2</td>", text)


if __name__ == "__main__":
    unittest.main()
