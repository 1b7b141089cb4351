"""Sweeps whose calls run at once: the same bytes and the same order as one after another, and errors in their turn."""

import contextlib
import os
import resource
import subprocess
import sys
import tempfile
import threading
import unittest
from functools import partial

from commands import InFolder, planner
from ground import DESK, EXAMPLES, LONGEST, ROOT, SOURCES, Test

import mpsim
from mpsim.parallel import in_order

MODEL = (EXAMPLES / "sweep" / "agents-12.txt").read_text().replace("agents 12", "agents {agents}")
TRACE = EXAMPLES / "sweep" / "trace.csv"


def told(sweep):
    """Returns a sweep as texts."""
    return [(it.label, it.status, "".join(it.report.lines()) if it.report else str(it.refusal)) for it in sweep.values()]


class InOrder(Test):
    def test_that_many_run_at_once(self):
        """Each of three tasks waits for the two others."""
        together = threading.Barrier(3, timeout=LONGEST)
        self.assertEqual(sorted(in_order([lambda: [together.wait()]] * 3, 3)), [0, 1, 2])

    def test_errors_come_in_their_turn(self):
        begun = []

        def task(number):
            begun.append(number)
            return [number, 1 // (number - 3)]

        found = in_order((partial(task, number) for number in range(50)), 2)
        self.assertEqual([next(found) for _ in range(6)], [0, -1, 1, -1, 2, -1])
        with self.assertRaises(ZeroDivisionError):
            list(found)
        self.assertLess(len(begun), 10)

    def test_no_processes(self):
        with self.assertRaisesRegex(ValueError, "processes=0"):
            list(in_order([], 0))


class Sweeps(Test):
    def test_the_same_reports(self):
        """Also of refused models, with visits, and from rows."""
        models = mpsim.variants(MODEL, agents=range(0, 11))
        wanted = told(mpsim.sweep(TRACE, models))
        for processes in 2, 4, 30:
            self.assertEqual(told(mpsim.sweep(TRACE, models, processes=processes)), wanted)
        rows, few = [("door", at, 3) for at in range(40)], [DESK, DESK.replace(" d ", " =2 ")] * 3
        self.assertEqual(told(mpsim.sweep(rows, few, jobs=True, processes=3)), told(mpsim.sweep(rows, few, jobs=True)))

    def test_a_sweep_that_is_left_early(self):
        with contextlib.closing(mpsim.scenarios(TRACE, mpsim.variants(MODEL, agents=range(8, 16)), jobs=True, processes=2)) as coming:
            self.assertEqual(next(coming).label, 8)
        with self.assertRaises(mpsim.ReadError):
            mpsim.sweep("absent.csv", mpsim.variants(MODEL, agents=range(8, 16)), processes=4)


class OpenFiles(InFolder):
    def test_few_open_files(self):
        """Fewer than the models of a call would otherwise be."""
        rows, models = [("door", at, 3) for at in range(4)], [DESK] * 70
        model = self.file("model.txt", DESK.replace(" d ", " ={n} "))
        words = "sweep", model, self.file("trace.csv", "source,time\ndoor,0\n"), "--set", "n=1..70", "--jobs"
        wanted, before = (told(mpsim.sweep(rows, models)), planner(*words, 1)), resource.getrlimit(resource.RLIMIT_NOFILE)
        resource.setrlimit(resource.RLIMIT_NOFILE, (60, before[1]))
        try:
            for processes in 1, 2:
                self.assertEqual((told(mpsim.sweep(rows, models, processes=processes)), planner(*words, processes)), wanted)
        finally:
            resource.setrlimit(resource.RLIMIT_NOFILE, before)


class Command(Test):
    def ran(self, *words):
        settings = {**os.environ, "PYTHONPATH": str(SOURCES), "PYTHONDONTWRITEBYTECODE": "1"}
        ran = subprocess.run([sys.executable, "-m", "mpsim", "sweep", *words], cwd=ROOT, env=settings, stdout=subprocess.PIPE, stderr=subprocess.PIPE)
        return ran.returncode, ran.stdout, ran.stderr

    def test_the_same_bytes(self):
        with tempfile.TemporaryDirectory() as folder:
            model = os.path.join(folder, "model.txt")
            with open(model, "w") as file:
                file.write(MODEL)
            words = model, str(TRACE), "--set", "agents=9..14"
            pages = [os.path.join(folder, f"{name}.html") for name in ("one", "four")]
            one, four = (self.ran(*words, "--jobs", jobs, "--page", page) for jobs, page in zip(("1", "4"), pages))
            self.assertEqual((one[0], one), (0, four))
            with open(pages[0], "rb") as first, open(pages[1], "rb") as second:
                self.assertEqual(first.read(), second.read())
            self.assertEqual(self.ran(*words, "--within", "60", "--jobs", "3"), self.ran(*words, "--within", "60"))
            shards = [self.ran(*words, "--folder", os.path.join(folder, f"in {jobs}"), "--jobs", jobs)[:2] for jobs in ("1", "3")]
            self.assertEqual((shards[0], shards[0][1]), (shards[1], one[1]))

    def test_what_is_rejected(self):
        for words, says in (("--jobs", "0"), b"1 or more"), (("--folder", "x", "--resume", "--jobs", "2", "--slurm"), b"--jobs can't be used"):
            status, _, line = self.ran(*words)
            self.assertEqual((status != 0, says in line), (True, True), line)


if __name__ == "__main__":
    unittest.main()
