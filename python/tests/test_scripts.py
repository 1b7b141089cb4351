"""The scripts of examples/python write what is stored beside them; and the figures that docs/MODEL.md gives for approximations of a pool."""

import ast
import json
import os
import re
import subprocess
import sys
import unittest

from ground import EXAMPLES, ROOT, SOURCES, Test, text_of

from test_pool import erlang_c

SCRIPTS = sorted((EXAMPLES / "python").glob("*.py"))


NOTEBOOKS = sorted((EXAMPLES / "python").glob("*.ipynb"))
# What an example may need besides Python.
LIBRARIES = "openpyxl", "pandas", "polars"
SETTINGS = {**os.environ, "PYTHONPATH": str(SOURCES), "PYTHONDONTWRITEBYTECODE": "1"}


def interpreter_with(names):
    """Returns an interpreter that has these libraries, or None."""
    for python in sys.executable, "/usr/bin/python3":
        words = [python, "-c", "".join(f"import {name}\n" for name in names)]
        if os.access(python, os.X_OK) and subprocess.run(words, stderr=subprocess.DEVNULL).returncode == 0:
            return python
    return None


class Scripts(Test):
    pass


def writes_what_is_stored(self, path):
    imported = {name.name for item in ast.walk(ast.parse(path.read_text())) if isinstance(item, ast.Import) for name in item.names}
    needed = sorted(imported & set(LIBRARIES))
    python = interpreter_with(needed)
    if python is None:
        self.skipTest(f"{' and '.join(needed)} isn't there")
    ran = subprocess.run([python, "-B", path], cwd="/", env=SETTINGS, stdout=subprocess.PIPE, stderr=subprocess.PIPE, text=True)
    self.assertEqual((ran.returncode, ran.stderr, ran.stdout), (0, "", text_of(path.with_suffix(".txt"))))


for script in SCRIPTS:
    setattr(Scripts, f"test_{script.stem}", lambda self, path=script: writes_what_is_stored(self, path))


class Others(Test):
    def test_there_are_scripts(self):
        self.assertGreater(len(SCRIPTS), 8)
        self.assertEqual(len(NOTEBOOKS), 1)

    def test_the_notebooks(self):
        """From top to bottom; stored without output."""
        python = interpreter_with(["nbclient", "nbformat", "ipykernel"])
        for path in NOTEBOOKS:
            cells = json.loads(text_of(path))["cells"]
            self.assertFalse([cell for cell in cells if cell.get("outputs") or cell.get("execution_count")])
            if python is None:
                self.skipTest("nbclient isn't there")
            script = "import nbclient, nbformat, sys\n"
            script += "made = nbclient.NotebookClient(nbformat.read(sys.argv[1], 4), timeout=120, kernel_name='python3').execute()\n"
            script += "print([sorted(it.data) for cell in made.cells if cell.cell_type == 'code' for it in cell.outputs if 'data' in it])\n"
            ran = subprocess.run([python, "-c", script, path], cwd="/", env=SETTINGS, stdout=subprocess.PIPE, stderr=subprocess.PIPE, text=True)
            self.assertEqual(ran.returncode, 0, ran.stderr)
            shown = ast.literal_eval(ran.stdout)
            both = ["text/html", "text/plain"]
            self.assertEqual(shown, [both, both, ["text/plain"], both])

    def test_the_week_is_drawn_again(self):
        ran = subprocess.run([sys.executable, "-B", EXAMPLES / "week" / "calls.py"], stdout=subprocess.PIPE, text=True)
        self.assertEqual(ran.stdout, text_of(EXAMPLES, "week", "trace.csv"))


class Near(Test):
    def test_figures_of_the_page(self):
        """One fast server by the formula of M/M/1; a server for each of C, with calls in turn, by that of a queue that gets every C-th of random
        calls; each compared with Erlang's."""
        rows = re.findall(r"^\| (\d+), (0\.\d+) \| ([\d.]+) \| ([\d.]+) \|$", text_of(ROOT, "docs", "MODEL.md"), flags=re.MULTILINE)
        self.assertEqual(len(rows), 3)
        for agents, each, *told in rows:
            agents, each = int(agents), float(each)
            load, root = agents * each, 0.5
            pool = erlang_c(agents, load) / (agents - load)
            # The share of calls that wait is the root of x = (load / (load + 1 - x)) ^ agents below 1.
            for _ in range(10000):
                root = (load / (load + 1 - root)) ** agents
            near = each / (agents - load) / pool, root / (1 - root) / pool
            self.assertEqual(told, [f"{item:.1f}" for item in near])


if __name__ == "__main__":
    unittest.main()
