"""Random cases, drawn by check/compare.py: the output of a program is read and reproduced byte for byte, and no report is rejected."""

import os
import pathlib
import subprocess
import sys
import tempfile
import unittest

from ground import ROOT, Test

import mpsim
from mpsim import programs

sys.path.append(str(ROOT / "check"))
from drawn import case_of  # noqa: E402

COUNT = int(os.environ.get("CASES", 100))


class Drawn(Test):
    def setUp(self):
        folder = tempfile.TemporaryDirectory()
        self.addCleanup(folder.cleanup)
        self.folder = folder.name
        super().setUp()

    def each(self, tool):
        """Yields, for each case of a program, a name, its arguments, the paths that these may be, and what the program does with them."""
        for index in range(COUNT):
            case = case_of(tool, 51, index)
            for name, text in case.files.items():
                pathlib.Path(self.folder, name).write_bytes(text.encode("latin-1"))
            ran = subprocess.run([programs.find(tool), *case.words], cwd=self.folder, stdout=subprocess.PIPE, stderr=subprocess.PIPE)
            paths = [os.path.join(self.folder, word) for word in case.words if word in case.files or tool != "mpsim"]
            yield f"{tool} {index}", case.words, paths, ran.returncode, ran.stdout.decode(), ran.stderr.decode()
            for name in case.files:
                pathlib.Path(self.folder, name).unlink()

    def agrees(self, call, status, out, line):
        """A call returns this report, or raises this error line."""
        if status == 0:
            self.assertEqual("".join(call().lines()), out)
            return
        with self.assertRaises(mpsim.Error) as caught:
            call()
        self.assertEqual((caught.exception.status, caught.exception.told + "\n"), (status, line))

    def test_mpsim(self):
        runs = 0
        for name, words, paths, status, out, line in self.each("mpsim"):
            with self.subTest(name):
                if status == 0:
                    self.assertEqual("".join(mpsim.Report.parse(out).lines()), out)
                if len(paths) == 2 and status != 2:
                    self.agrees(lambda: mpsim.run(*paths, jobs="--jobs" in words, form=form_of(words)), status, out, line)
                    runs += 1
        self.assertGreater(runs, COUNT // 2)

    def test_mpedit(self):
        for name, _, paths, status, out, line in self.each("mpedit"):
            with self.subTest(name):
                if status != 2:
                    self.agrees(lambda: mpsim.edit(*paths), status, out, line)

    def test_mpsweep(self):
        for name, _, paths, status, out, _ in self.each("mpsweep"):
            with self.subTest(name):
                for sweep in (mpsim.Sweep.parse(out), mpsim.sweep(paths[0], paths[1:])) if status in (0, 11) else ():
                    told = [f"scenario {item.label} status {item.status}\n{item.report or item.refusal.told + chr(10)}" for item in sweep.values()]
                    self.assertEqual("".join(told), out)


def form_of(words):
    """Returns the form that a command's arguments request, or None."""
    return words[words.index("--report") + 1] if "--report" in words else None


if __name__ == "__main__":
    unittest.main()
