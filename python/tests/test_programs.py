"""Where the package finds the three programs: in a clone without built programs, those that tools/unproved.py compiles."""

import os
import pathlib
import shutil
import subprocess
import sys
import tempfile
import unittest

PACKAGE = pathlib.Path(__file__).resolve().parents[1] / "src"
# It is called like tools/unproved.py, and counts its calls.
TOOL = """import os, sys
here = os.path.dirname(os.path.abspath(__file__))
print("called", *sys.argv[1:], file=sys.stderr)
sys.exit(1) if sys.argv[2] == "mpedit" else print(os.path.join(here, sys.argv[2]))
"""
FIND = "from mpsim.programs import find; print(find({0!r})); print(find({0!r}))"


class Programs(unittest.TestCase):
    def setUp(self):
        folder = tempfile.TemporaryDirectory()
        self.addCleanup(folder.cleanup)
        self.clone = pathlib.Path(folder.name).resolve() / "clone"
        shutil.copytree(PACKAGE, self.clone / "python" / "src", ignore=shutil.ignore_patterns("__pycache__"))
        (self.clone / "tools").mkdir()
        (self.clone / "tools" / "unproved.py").write_text(TOOL)

    def found(self, name, **settings):
        """Returns the status, the lines on stdout and the lines on stderr of a process that finds a program twice."""
        settings = {"PYTHONPATH": str(self.clone / "python" / "src"), "PATH": str(self.clone), "PYTHONDONTWRITEBYTECODE": "1", **settings}
        ran = subprocess.run([sys.executable, "-c", FIND.format(name)], env=settings, cwd="/", capture_output=True, text=True)
        return ran.returncode, ran.stdout.splitlines(), ran.stderr.splitlines()

    def program(self, path):
        path.parent.mkdir(parents=True, exist_ok=True)
        path.write_text("#!/bin/sh\n")
        path.chmod(0o755)
        return str(path)

    def test_nothing_is_built(self):
        """The sources are compiled, once in a process."""
        self.assertEqual(self.found("mpsim"), (0, [str(self.clone / "tools" / "mpsim")] * 2, ["called --path mpsim"]))

    def test_it_cannot_be_compiled(self):
        status, out, lines = self.found("mpedit")
        self.assertEqual((status, out, lines[0]), (1, [], "called --path mpedit"))
        where = "in this package, in a clone around it (where ./build.py mpedit builds it), or on the PATH"
        self.assertIn(f"ProgramError: no program mpedit {where}", lines[-1])

    def test_a_built_program_comes_first(self):
        on_path = self.program(self.clone / "mpsim")
        self.assertEqual(self.found("mpsim"), (0, [on_path] * 2, []))
        built = self.program(self.clone / "crates" / "mpsim" / "out" / "mpsim")
        self.assertEqual(self.found("mpsim"), (0, [built] * 2, []))
        self.assertEqual(self.found("mpsim", MPSIM_PROGRAMS=str(self.clone)), (0, [on_path] * 2, []))

    def test_a_command_that_pip_made(self):
        """It isn't a program: it would look for one again, and so on. The next one on the PATH is."""
        command = self.program(self.clone / "env" / "mpsim")
        pathlib.Path(command).write_text("#!/usr/bin/python3\nimport sys\nfrom mpsim.programs import mpsim\nsys.exit(mpsim())\n")
        on_path = self.program(self.clone / "mpsim")
        self.assertEqual(self.found("mpsim", PATH=f"{self.clone}/env::{self.clone}"), (0, [on_path] * 2, []))
        os.remove(self.clone / "tools" / "unproved.py")
        status, _, lines = self.found("mpsim", PATH=f"{self.clone}/env")
        self.assertEqual(status, 1)
        self.assertIn("no program mpsim in this package", lines[-1])

    def test_a_directory_without_the_program(self):
        """Nothing is compiled in its place."""
        status, _, lines = self.found("mpsim", MPSIM_PROGRAMS="/nowhere")
        self.assertEqual((status, len([line for line in lines if line.startswith("called")])), (1, 0))

    def test_no_clone(self):
        os.remove(self.clone / "tools" / "unproved.py")
        status, _, lines = self.found("mpsim")
        self.assertEqual(status, 1)
        self.assertIn("no program mpsim in this package", lines[-1])


if __name__ == "__main__":
    unittest.main()
