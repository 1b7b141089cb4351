"""Reports: each figure is what the text says, which is parsed here word by word; cut or altered reports are rejected."""

import importlib
import io
import re
import unittest
import unittest.mock
from array import array

from ground import EXAMPLES, DESK, Test, nodes_of, reports, text_of, waits_of, words_of

import mpsim
from mpsim.node_visits import _sum
from mpsim.report import Reading

CALLS = text_of(EXAMPLES, "callcentre", "jobs.txt")
PERCENTS = [0, 1, 10, 33, 50, 66.7, 90, 99, 99.9, 100]


def least_wait(waits, percent):
    """Finds the lowest wait that at least this many percent don't exceed, by searching. Percents here have one decimal."""
    tenths = round(percent * 10)
    return next((wait for wait in sorted(waits) if 1000 * sum(other <= wait for other in waits) >= tenths * len(waits)), 0)


class Figures(Test):
    def test_each_report_comes_back_byte_for_byte(self):
        for path in reports():
            with self.subTest(path):
                text = text_of(path)
                report = mpsim.Report.read(path)
                self.assertEqual("".join(report.lines()), text)
                self.assertEqual(str(report), "".join(line for line in text.splitlines(True) if not line.startswith("job ")))

    def test_words_of_nodes(self):
        for path in reports():
            text = text_of(path)
            report = mpsim.Report.read(path)
            self.assertEqual([node.name for node in report.nodes], [node["name"] for node in nodes_of(text)])
            for words in nodes_of(text):
                with self.subTest(path, node=words["name"]):
                    node = report[words["name"]]
                    self.assertEqual(node.kind, words["kind"])
                    for word in "in", "out", "lost", "held", "wait", "max", "p50", "p90", "p99", "busy", "area", "peak":
                        told = getattr(node, "in_" if word == "in" else word)
                        self.assertEqual(told, int(words[word]) if word in words else None, word)
                    self.assertEqual(node.util, None if words["util"] == "-" else float(words["util"]))

    def test_means_of_nodes(self):
        for path in reports():
            for words in nodes_of(text_of(path)):
                with self.subTest(path, node=words["name"]):
                    node = mpsim.Report.read(path)[words["name"]]
                    came, out, held = int(words["in"]), int(words["out"]), int(words.get("held", 0))
                    self.assertEqual(node.mean_wait, int(words["wait"]) / out if out else None)
                    self.assertEqual(node.mean_time, int(words["area"]) / out if out and held == 0 else None)
                    self.assertEqual(node.share_lost, int(words["lost"]) / came if came else None)

    def test_first_lines_and_exits(self):
        for path in reports():
            with self.subTest(path):
                text, report = text_of(path), mpsim.Report.read(path)
                self.assertEqual(report.form, int(text.split()[2]))
                self.assertEqual(["jobs", str(report.jobs), "span", str(report.span)], text.splitlines()[1].split(" "))
                exits = words_of(text, "exit")
                self.assertEqual([["exit", f"{it.name}.{it.output}", str(it.jobs), "sojourn", str(it.sojourn)] for it in report.exits], exits)
                left = sum(int(words[2]) for words in exits)
                self.assertEqual(report.mean_sojourn, sum(int(words[4]) for words in exits) / left if left else None)

    def test_visits(self):
        for path in reports():
            with self.subTest(path):
                text, report = text_of(path), mpsim.Report.read(path)
                lines = words_of(text, "job")
                if not lines:
                    self.assertFalse(report.has_visits)
                    continue
                self.assertEqual(list(report.visits), [node["name"] for node in nodes_of(text)])
                self.assertEqual(report.visits.count(), len(lines))
                for words, visit in zip(lines, report.visits.each()):
                    self.assertEqual([str(visit.job), visit.node, str(visit.arrive)], [words[1], words[2], words[4]])
                    left = words[5] == "wait"
                    self.assertEqual(visit.end, "left" if left else words[5])
                    self.assertEqual((visit.wait, visit.depart), (int(words[6]), int(words[8])) if left else (None, None))

    def test_rows_of_visits(self):
        """The rows of a node are its visits, with lost and held ones and without."""
        kinds = set()
        for path in reports():
            report = mpsim.Report.read(path)
            for visits in report.visits.values() if report.has_visits else ():
                self.assertEqual(list(visits.rows()), [list(visit) for visit in visits])
                kinds.add(frozenset(visit.end for visit in visits))
        self.assertLess({frozenset(["left"]), frozenset(["left", "lost"]), frozenset(["left", "held"])}, kinds)

    def test_percentiles_and_shares(self):
        for path in reports():
            report, text = mpsim.Report.read(path), text_of(path)
            for node in report.visits if report.has_visits else ():
                with self.subTest(path, node=node):
                    visits, waits = report.visits[node], waits_of(text, node)
                    count = sum(words[2] == node for words in words_of(text, "job"))
                    self.assertEqual(list(visits.waits()), sorted(waits))
                    for percent in PERCENTS:
                        self.assertEqual(visits.percentile(percent), least_wait(waits, percent), percent)
                    for ticks in {0, *waits, *(wait - 1 for wait in waits), *(wait + 1 for wait in waits)}:
                        within = sum(wait <= ticks for wait in waits)
                        self.assertEqual(visits.share_within(ticks), within / count if count else None)
                        self.assertEqual(visits.share_within(ticks, departed=True), within / len(waits) if waits else None)

    def test_percentiles_of_a_thousand(self):
        """Waits of 0, 1, and so on up to 999: 99.9 percent don't exceed 998, although the float 99.9 is slightly more than that."""
        report = mpsim.run(DESK, [("door", number, 2) for number in range(1000)], jobs=True)
        waits = waits_of("".join(report.lines()), "desk")
        told = [report.visits["desk"].percentile(percent) for percent in PERCENTS]
        self.assertEqual(told, [least_wait(waits, percent) for percent in PERCENTS])
        self.assertEqual(told, [0, 9, 99, 329, 499, 666, 899, 989, 998, 999])
        for percent in -1, 100.1:
            with self.assertRaises(ValueError):
                report.visits["desk"].percentile(percent)

    def test_names(self):
        report = mpsim.Report.parse(CALLS)
        self.assertTrue("desk" in report and "absent" not in report)
        with self.assertRaises(KeyError):
            report["absent"]
        with self.assertRaises(TypeError):
            iter(report)

    def test_figures_by_their_names(self):
        """Each field of a line, and the means."""
        report = mpsim.Report.parse(CALLS)
        for node in nodes_of(CALLS):
            figures = {name: value for name, value in node.items() if name not in ("name", "kind")}
            told = {name: report[node["name"]].figure(name) for name in figures}
            self.assertEqual({name: "-" if it is None else f"{it:.4f}" if name == "util" else str(it) for name, it in told.items()}, figures)
        self.assertEqual([report["expert"].figure(item) for item in ("mean_wait", "mean_time", "share_lost")], [9 / 3, 22 / 3, 0.5])
        for name in "name", "kind", "in_", "count", "line", "p95":
            self.assertRaises(AttributeError, report["expert"].figure, name)

    def test_an_edited_report(self):
        text = text_of(EXAMPLES, "edits", "late-caller", "report.txt")
        report = mpsim.Report.parse(text)
        self.assertEqual((report.again.done, report.again.blocks), (5, 6))
        self.assertEqual(["again", "5", "of", "6", "blocks"], text.splitlines()[-1].split())


class Refusals(Test):
    def refused(self, text):
        with self.assertRaises(mpsim.ReportError) as caught:
            mpsim.Report.parse(text)
        return caught.exception

    def test_an_altered_line_is_reported_by_its_number(self):
        lines = CALLS.splitlines(keepends=True)
        for at, line in enumerate(lines):
            first, rest = line.split(" ", 1)
            others = {
                "x" + line,
                line.replace(" ", "  ", 1),
                line.replace(" ", "\t", 1),
                line.replace("\n", "\r\n"),
                line.replace("\n", " \n"),
                line.replace(" ", "  x ", 1),
                line.upper(),
                f"{first}s {rest}",
                line.replace(" 0", " 00", 1),
                line.replace(" lost\n", " wait -1 depart -1\n"),
                line.replace("depart ", "depart 99999999999999999999"),
                line.replace("wait ", "wait -"),
                line.replace("job ", "job 4294967296"),
                line.replace("job ", "job 1"),
                line.replace("job ", "job 0"),
                re.sub(r"^job \d+", "job 0", line),
                line.replace("util ", "util 7"),
                line.replace("report 2", "report 3"),
            }
            for other in others - {line}:
                with self.subTest(line=other):
                    error = self.refused("".join([*lines[:at], other, *lines[at + 1 :]]))
                    self.assertEqual(error.line, at + 1)
                    self.assertIn(error.found, other)

    def test_each_byte_that_is_not_a_digit(self):
        for at, it in enumerate(CALLS):
            if not it.isdigit():
                for other in {"", "x", it + it, chr(ord(it) ^ 1)} - {it}:
                    with self.subTest(at=at, other=other):
                        self.refused(CALLS[:at] + other + CALLS[at + 1 :])

    def test_each_number_that_others_tell_too(self):
        """Each number of a node that the job lines imply, increased by one; and each time in such a line, except the arrival of a lost job."""
        lines = CALLS.splitlines(keepends=True)
        for at, line in enumerate(lines):
            words = line.split(" ")
            for word in ("in", "out", "lost", "held", "wait", "max", "area") if words[0] == "node" else ():
                index = words.index(word) + 1
                other = " ".join([*words[:index], str(int(words[index]) + 1), *words[index + 1 :]])
                with self.subTest(line=other):
                    self.assertIn(self.refused("".join([*lines[:at], other, *lines[at + 1 :]])).line, (2, at + 1))

        for at, line in enumerate(lines):
            for found in re.finditer(r"(?:arrive|wait|depart) \d*(\d)", line) if line.startswith("job ") else ():
                other = line[: found.start(1)] + str((int(found[1]) + 1) % 10) + line[found.end() :]
                if other.split()[5] != "lost" or found[0].split()[0] != "arrive":
                    with self.subTest(line=other):
                        self.refused("".join([*lines[:at], other, *lines[at + 1 :]]))

    def test_numbers_that_lines_share(self):
        """Without job lines: the number of jobs, which the sources and, without forks, the exits imply too."""
        for name in "desk", "assembly":
            text = text_of(EXAMPLES, name, "report.txt")
            lines = text.splitlines(keepends=True)
            jobs = int(lines[1].split()[1])
            self.assertEqual(self.refused(text.replace(f"jobs {jobs} ", f"jobs {jobs + 1} ", 1)).line, 2)
            came = int(nodes_of(text)[0]["in"])
            self.assertEqual(self.refused(text.replace(f"in {came} out {came} ", f"in {came + 1} out {came + 1} ", 1)).line, 2)
        text = text_of(EXAMPLES, "desk", "report.txt")
        self.assertEqual(self.refused(text.replace("exit desk.0 3", "exit desk.0 4")).line, 6)

    def test_a_report_that_is_cut(self):
        """At each byte, unless exactly all job lines are missing: that is a report too, and the caller knows whether they were requested."""
        for path in "callcentre/jobs.txt", "callcentre/report.txt", "clinic/report.txt", "overflow/report.txt", "made-7.txt":
            text = text_of(EXAMPLES, path)
            without_jobs = text.find("job ") if "job " in text else len(text)
            for end in {*range(len(text))} - {without_jobs}:
                with self.subTest(path, end=end):
                    self.refused(text[:end])
        with self.assertRaises(mpsim.ReportError):
            Reading(text_of(EXAMPLES, "callcentre", "report.txt")).report(wanted=True)

    def test_lines_in_another_order(self):
        lines = CALLS.splitlines(keepends=True)
        jobs = [at for at, it in enumerate(lines) if it.startswith("job ")]
        for at in jobs[1:]:
            if lines[at].split()[2] != lines[at - 1].split()[2]:
                with self.subTest(at=at):
                    error = self.refused("".join([*lines[: at - 1], lines[at], lines[at - 1], *lines[at + 1 :]]))
                    self.assertEqual(error.line, at + 1)
        error = self.refused("".join([*lines, lines[jobs[0]]]))
        self.assertEqual(error.line, len(lines) + 1)
        by_node = {}
        for at in jobs:
            by_node.setdefault(lines[at].split()[2], []).append(lines[at])
        first, second, *others = by_node
        turned = [line for name in (second, first, *others) for line in by_node[name]]
        error = self.refused("".join([*lines[: jobs[0]], *turned]))
        self.assertEqual(error.line, jobs[0] + len(by_node[second]) + 1)

    def test_lines_that_lack_or_stand_twice(self):
        lines = CALLS.splitlines(keepends=True)
        for at in range(len(lines)):
            with self.subTest(at=at):
                self.refused("".join(lines[:at] + lines[at + 1 :]))
                self.refused("".join(lines[: at + 1] + lines[at:]))

    def test_other_texts(self):
        for text in "", "\n", "mpsim report 2", "mpsim report 3\n", "scenario 1 status 0\n", CALLS + "\n", CALLS + CALLS, "\ufeff" + CALLS:
            with self.subTest(text[:30]):
                self.refused(text)
        self.assertEqual(str(self.refused("jobs 3\n")), "report line 1: 'jobs 3' is not a line of a report")


class Numpy(Refusals):
    """The same with numpy, which otherwise reads long reports only."""

    def setUp(self):
        super().setUp()
        try:
            import numpy
        except ImportError:
            raise unittest.SkipTest("needs numpy") from None
        patch = unittest.mock.patch("mpsim.report.numpy_for", return_value=numpy)
        patch.start()
        self.addCleanup(patch.stop)

    def test_each_report_comes_back_byte_for_byte(self):
        for path in reports():
            self.assertEqual("".join(mpsim.Report.read(path).lines()), text_of(path))

    def test_great_sums(self):
        """A sum of times above 2^63, and the greatest number of 64 bits."""
        text = mpsim.run("model 1\nsource door\n", [("door", at) for at in [1 << 60] * 20 + [3]], jobs=True)
        self.assertEqual("".join(mpsim.Report.parse("".join(text.lines())).lines()), "".join(text.lines()))
        one = "".join(mpsim.run("model 1\nsource door\n", [("door", 5)], jobs=True).lines())
        most = (1 << 63) - 1
        self.assertEqual(mpsim.Report.parse(one.replace(" 5", f" {most}")).visits["door"].arrive[0], most)
        self.refused(one.replace(" 5", f" {most + 1}"))
        self.assertEqual(_sum(array("q", [most] * 5 + [-1, -2]), importlib.import_module("numpy")), 5 * most - 3)


class Wanted(Test):
    """With the visits of some nodes only."""

    def read(self, text, nodes):
        return [str(item) for piece in Reading(text).pieces(nodes) for item in piece]

    def test_any_nodes(self):
        names = [words["name"] for words in nodes_of(CALLS)]
        for number in range(1 << len(names)):
            nodes = {name for at, name in enumerate(names) if number >> at & 1}
            lines = [line for line in CALLS.splitlines() if line.startswith("job ") and line.split()[2] in nodes]
            with self.subTest(nodes=nodes):
                self.assertEqual(self.read(CALLS, nodes), [str(it) for it in mpsim.Report.parse(CALLS).visits.each() if it.node in nodes])
                self.assertEqual(len(self.read(CALLS, nodes)), len(lines))

    def test_names_that_differ_in_digits(self):
        model = "model 1\nsource a1\nsource a2\nsource a3\n"
        text = "".join(mpsim.run(model, [(f"a{at % 3 + 1}", at) for at in range(9)], jobs=True).lines())
        for name in "a1", "a2", "a3":
            self.assertEqual(len(self.read(text, {name})), 3)
            # A line of another node, though nobody asked for either.
            with self.assertRaises(mpsim.ReportError):
                self.read(text.replace(f" {name} arrive", " a4 arrive", 1), set())
            with self.assertRaises(mpsim.ReportError):
                self.read(re.sub(f"job . {name} ", "job 1 a1 " if name != "a1" else "job 1 a2 ", text), {name})

    def test_lines_that_nobody_asked_for(self):
        """They are checked for their words and their number."""
        lines = CALLS.splitlines(keepends=True)
        for at, line in enumerate(lines):
            if line.startswith("job "):
                for other in (
                    "",
                    line + line,
                    line.replace(" arrive", " arrives"),
                    line.replace("\n", " \n"),
                    line.replace(" lost", " held"),
                    "x" + line,
                ):
                    if other != line:
                        with self.subTest(other), self.assertRaises(mpsim.ReportError):
                            self.read("".join([*lines[:at], other, *lines[at + 1 :]]), set())
        for end in range(CALLS.find("job ") + 1, len(CALLS)):
            with self.subTest(end=end), self.assertRaises(mpsim.ReportError):
                self.read(CALLS[:end], set())


class Pieces(Test):
    def test_pieces_of_any_size(self):
        class Small(io.BytesIO):
            size = 1

            def read(self, count=-1):
                return super().read(self.size if count > 0 else count)

        wanted = [str(item) for item in mpsim.Report.parse(CALLS).visits.each()]
        for size in 1, 7, 30, 100, 1000:
            small = Small(CALLS.encode())
            small.size = size
            with self.subTest(size):
                self.assertEqual([str(item) for piece in Reading(small).pieces() for item in piece], wanted)

    def test_names_that_are_words_of_a_line(self):
        """Nodes whose names are the words of a job line."""
        names = "job", "arrive", "wait", "depart", "lost", "held", "node"
        model = "model 1\n" + "".join(f"source {name}\n" for name in names)
        report = mpsim.run(model, [(name, at) for at, name in enumerate(names * 3)], jobs=True)
        self.assertEqual([list(report.visits[name].arrive) for name in names], [[at, at + 7, at + 14] for at in range(7)])


def frames():
    try:
        import numpy  # noqa: F401
        import pandas
    except ImportError:
        return None
    return pandas


@unittest.skipUnless(frames(), "pandas and numpy aren't there")
class Frames(Test):
    def test_visits(self):
        frame = mpsim.Report.parse(CALLS).visits.to_pandas()
        lines = words_of(CALLS, "job")
        self.assertEqual(list(frame.columns), ["job", "node", "arrive", "wait", "depart", "end"])
        self.assertEqual([str(item) for item in frame.job], [words[1] for words in lines])
        self.assertEqual(list(frame.node), [words[2] for words in lines])
        self.assertEqual(list(frame.end), ["left" if words[5] == "wait" else words[5] for words in lines])
        self.assertEqual(list(frame.wait.isna()), [words[5] != "wait" for words in lines])
        self.assertEqual(frame[frame.node == "desk"].wait.sum(), sum(waits_of(CALLS, "desk")))
        self.assertEqual((str(frame.wait.dtype), str(frame.depart.dtype)), ("Int64", "Int64"))

    def test_nodes(self):
        frame = mpsim.Report.parse(CALLS).to_pandas()
        for words in nodes_of(CALLS):
            self.assertEqual(str(frame.loc[words["name"], "in"]), words["in"])
            self.assertEqual(str(frame.loc[words["name"], "p90"]), words["p90"])
        self.assertTrue(frames().isna(frame.loc["phone", "util"]))


if __name__ == "__main__":
    unittest.main()
