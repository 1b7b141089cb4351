"""Runs each file of python/tests with unittest, in a process of its own, with the programs of the other checks.

A case is a test there. Tests skipped because pandas, a browser, hatchling, GNU parallel or Slurm is missing are listed.
"""
import re
import sys

from programs import PROGRAMS, ROOT, Check, executable, run

TESTS = sorted((ROOT / "python" / "tests").glob("test_*.py"))


class Python(Check):
    def runs(self, file):
        for name in PROGRAMS:
            (self.folder / name).symlink_to(executable(name))
        ran = run(sys.executable, "-B", file, "-v", settings={"MPSIM_PROGRAMS": str(self.folder)})
        output = ran.line.decode(errors="backslashreplace")
        self.cases += int(re.search(r"^Ran (\d+) tests? in ", output, flags=re.MULTILINE)[1]) - 1 if ran.status == 0 else 0
        self.holds(f"{ran.command}\nstatus {ran.status}\n{output}", ran.status == 0)
        for name, _, why in re.findall(r"^(\w+) \(.*\)(?:\n.*)? \.\.\. skipped (['\"])(.*)\2$", output, flags=re.MULTILINE):
            with self.subTest(name):
                self.skipTest(f"{name}: {why}")


for file in TESTS:
    setattr(Python, f"{file.stem}", lambda self, file=file: self.runs(file))
