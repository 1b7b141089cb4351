"""Sweeps: each scenario is the single run of its model, however many there are; cut or altered sweeps are rejected."""

import os
import pathlib
import shlex
import tempfile
import unittest

from ground import DESK, EXAMPLES, Test, nodes_of, programs_in, stand_in, text_of

import mpsim
from mpsim import programs

DAY = EXAMPLES / "sweep"
STORED = text_of(DAY, "report.txt")
LINES = "model 2\nsource calls\ntrunk lines {lines} hold from calls\n"
CALLS = [("calls", number, 30) for number in range(500)]


class Runs(Test):
    def test_a_day_of_calls(self):
        models = {path.name: path for path in sorted(DAY.glob("agents-*.txt"))}
        sweep = mpsim.sweep(DAY / "trace.csv", models)
        self.assertEqual(list(sweep), sorted(models))
        self.assertEqual("".join(f"scenario {at} status {it.status}\n{it.report}" for at, it in enumerate(sweep.values(), 1)), STORED)
        nodes = [node for node in nodes_of(STORED) if node["name"] == "callback"]
        for figure in "in", "p90", "wait":
            self.assertEqual(sweep.curve("callback", figure), [(label, int(it[figure])) for label, it in zip(sorted(models), nodes)])

    def test_more_models_than_a_call_takes(self):
        """Each as in a single run, in order, including a refused model, with either program."""
        models = mpsim.variants(LINES, lines=range(0, 130))
        alone = {lines: None if lines == 0 else str(mpsim.run(LINES.format(lines=lines), CALLS)) for lines in (0, 1, 63, 64, 65, 127, 128, 129)}
        for jobs in False, True:
            with self.subTest(jobs=jobs):
                sweep = mpsim.sweep(CALLS, models, jobs=jobs)
                self.assertEqual(list(sweep), list(range(130)))
                for lines, text in alone.items():
                    it = sweep[lines]
                    self.assertEqual((it.label, it.status, it.report and str(it.report)), (lines, 3 if lines == 0 else 0, text))
                self.assertEqual(len(sweep.reports()), 129)
                self.assertEqual([label for label, _ in sweep.curve("lines", "lost")], list(range(1, 130)))
                error = sweep[0].refusal
                self.assertEqual((type(error), error.line, error.word, error.source), (mpsim.ModelError, 3, 3, "trunk lines 0 hold from calls"))

    def test_each_refusal(self):
        """Both programs give the same error for a model, for a trace that lacks its column, and for a run."""
        bound = "model 1\nbound 10\nsource door\nserver desk d from door\n"
        forks = "model 2\nsource door\nfork f 4 from door\ndelay a =1 from f f.1 f.2 f.3\nfork g 4 from a\ndelay b =1 from g g.1 g.2 g.3\n"
        models = {"fine": DESK, "model": "model 1\nx\n", "trace": "model 1\nsource door\nserver desk e from door\n", "bound": bound, "visits": forks}
        rows = [("door", number, 3) for number in range(70000)]
        told = [mpsim.sweep(rows, models, jobs=jobs) for jobs in (False, True)]
        for label, status in ("fine", 0), ("model", 3), ("trace", 4), ("bound", 5), ("visits", 9):
            plain, by_jobs = (item[label] for item in told)
            self.assertEqual((plain.status, by_jobs.status), (status, status))
            self.assertEqual(plain.refusal and vars(plain.refusal), by_jobs.refusal and vars(by_jobs.refusal))
        self.assertEqual((told[0]["trace"].refusal.column, told[0]["visits"].refusal.node), ("e", "b"))
        self.assertEqual(told[1]["fine"].report.visits["desk"].percentile(50), told[0]["fine"].report["desk"].p50)

    def test_models_by_a_list(self):
        sweep = mpsim.sweep([("door", 0, 1)], [DESK, mpsim.Model(), DESK.encode()])
        self.assertEqual([(item.label, item.status) for item in sweep.values()], [(1, 0), (2, 3), (3, 0)])
        self.assertEqual(mpsim.sweep([("door", 0, 1)], {0: DESK, "": DESK}).curve("desk", "in"), [(0, 1), ("", 1)])
        self.assertEqual((mpsim.sweep([], []), mpsim.sweep([], {})), ({}, {}))
        for models in DESK, DESK.encode(), mpsim.Model(), 7:
            with self.assertRaises(TypeError):
                mpsim.sweep([], models)

    def test_reports_as_they_come(self):
        """Stopping early ends the program; it is called only as often as models are requested."""
        with tempfile.TemporaryDirectory() as folder:
            counted = pathlib.Path(folder, "count")
            stand_in(folder, "mpsweep", f'echo >>{shlex.quote(str(counted))}; exec {shlex.quote(programs.find("mpsweep"))} "$@"')
            with programs_in(folder):
                coming = mpsim.scenarios(CALLS, mpsim.variants(LINES, lines=range(1, 131)))
                self.assertFalse(counted.exists())
                for asked, calls in (1, 1), (64, 1), (65, 2), (129, 3):
                    while (it := next(coming)).label < asked:
                        pass
                    self.assertEqual((it.label, len(counted.read_text())), (asked, calls))
                coming.close()


class Texts(Test):
    def test_numbers_as_labels(self):
        refused = "scenario 2 status 3\nmpsim: model: no source\n"
        desk = text_of(EXAMPLES, "desk", "report.txt")
        sweep = mpsim.Sweep.parse(f"scenario 1 status 0\n{desk}{refused}scenario 3 status 0\n{desk}")
        self.assertEqual([(item.label, item.status) for item in sweep.values()], [(1, 0), (2, 3), (3, 0)])
        self.assertEqual((sweep[2].refusal.told, sweep[2].report, str(sweep[3].report)), ("mpsim: model: no source", None, desk))
        self.assertEqual(sweep.curve("desk", "p90"), [(1, 3), (3, 3)])

    def test_files(self):
        """`load` tells a report from a sweep by its beginning, even in a pipe; an error names the file."""
        self.assertEqual(mpsim.load(DAY / "report.txt").curve("agents", "lost"), mpsim.Sweep.parse(STORED).curve("agents", "lost"))
        report = EXAMPLES / "callcentre" / "jobs.txt"
        self.assertEqual("".join(mpsim.load(report).lines()), text_of(report))
        ways = mpsim.load, mpsim.Sweep.read
        whole = text_of(report)
        last, cut = STORED.count("\n"), whole.count("\n")
        texts = (STORED[:-1], last, ways), ("source,time\n", 1, ways), ("scenario", 1, ways), ("", 1, ways), (whole[:-1], cut, ways[:1])
        for text, line, kinds in texts:
            with tempfile.TemporaryDirectory() as folder:
                path = pathlib.Path(folder, "text")
                path.write_text(text)
                for read in kinds:
                    with self.subTest(text=text[-20:], read=read), self.assertRaises(mpsim.ReportError) as caught:
                        read(path)
                    error = caught.exception
                    self.assertEqual((error.file, error.line, str(error).startswith(f"{path}: report line {line}: ")), (path, line, True))
        reader, writer = os.pipe()
        with open(writer, "w") as file:
            file.write(STORED)
        self.assertEqual(len(mpsim.load(f"/dev/fd/{reader}")), 8)
        os.close(reader)
        self.assertRaises(OSError, mpsim.load, "/absent")

    def test_labels(self):
        sweep = mpsim.Sweep.read(DAY / "report.txt", [f"{number} agents" for number in range(8, 16)])
        self.assertEqual(sweep.curve("agents", "in"), [(f"{number} agents", 1138) for number in range(8, 16)])
        self.assertEqual([item.label for item in sweep.values()], list(sweep))
        for count in 0, 7, 9:
            self.assertRaisesRegex(ValueError, f"{count} labels for 8 scenarios", mpsim.Sweep.parse, STORED, list(range(count)))
        # Else the second would take the place of the first.
        self.assertRaisesRegex(ValueError, "the label 'x' appears twice", mpsim.Sweep.parse, STORED, [*"abcxdefx"])

    def test_sweeps_that_are_altered(self):
        lines = STORED.splitlines(keepends=True)
        for at, line in enumerate(lines):
            others = {"x" + line, line[:-1], line.replace(" ", "  ", 1), line.replace("scenario ", "scenario 1")}
            others.add(line.replace("status 0", "status 3"))
            for other in others - {line}:
                with self.subTest(line=other), self.assertRaises(mpsim.ReportError) as caught:
                    mpsim.Sweep.parse("".join([*lines[:at], other, *lines[at + 1 :]]))
                self.assertIn(caught.exception.line, (at + 1, at + 2))
        texts = "status 7\nmpsim: out of memory\n", "status 3\nmpsim: model: no source", "status 3\nscenario 2 status 3\n"
        for text in "", "\n", *("scenario 1 " + text for text in texts):
            with self.subTest(text), self.assertRaises(mpsim.ReportError):
                mpsim.Sweep.parse(text)

    def test_a_sweep_that_lacks_its_first_line(self):
        """It isn't mistaken for the report of its first scenario."""
        text = STORED.split("\n", 1)[1]
        with self.assertRaisesRegex(mpsim.ReportError, "report line 8: 'scenario 2 status 0' is not a line of a report"):
            mpsim.Report.parse(text)
        self.assertEqual(mpsim.Report.parse(text[: text.index("scenario 2")])["callback"].in_, 253)

    def test_a_sweep_that_is_cut(self):
        """A run knows the number of scenarios, so missing or extra ones are noticed."""
        text = STORED[: STORED.index("scenario 3 ")]
        with tempfile.TemporaryDirectory() as folder:
            pathlib.Path(folder, "text").write_text(text)
            stand_in(folder, "mpsweep", f"cat {shlex.quote(str(folder))}/text")
            models = sorted(DAY.glob("agents-*.txt"))
            with programs_in(folder):
                self.assertEqual(len(mpsim.sweep(DAY / "trace.csv", models[:2])), 2)
                for count in 1, 3:
                    with self.assertRaises(mpsim.ReportError):
                        mpsim.sweep(DAY / "trace.csv", models[:count])


class Frames(Test):
    def test_frame_of_a_sweep(self):
        try:
            import pandas  # noqa: F401
        except ImportError:
            self.skipTest("pandas isn't there")
        frame = mpsim.Sweep.parse(STORED).to_pandas()
        self.assertEqual([str(item) for item in frame["p90"]], [node["p90"] for node in nodes_of(STORED)])


if __name__ == "__main__":
    unittest.main()
