"""What needs no program works on systems without Linux's own calls: traces from exports, tables, and pages."""

import os
import subprocess
import sys
import unittest

from commands import InFolder
from ground import EXAMPLES, SOURCES

# Modules that only Unix has, and what only Linux has in others.
ABSENT = "fcntl", "grp", "pwd", "resource", "termios"
PLAIN = f"""
import importlib, os, pathlib, signal, sys
sys.path.insert(0, {str(SOURCES)!r})
for name in {ABSENT!r}:
    sys.modules[name] = None
del os.memfd_create, os.fchmod, signal.SIGHUP, signal.SIGPIPE, signal.SIGKILL
import mpsim
"""
REPORT = EXAMPLES / "callcentre" / "jobs.txt"


class OtherSystems(InFolder):
    def runs(self, script):
        """Returns what a script prints that begins without those modules and calls."""
        words = [sys.executable, "-B", "-c", PLAIN + script]
        ran = subprocess.run(words, cwd=self.folder, env={**os.environ, "MPSIM_PROGRAMS": "/absent"}, capture_output=True, text=True)
        self.assertEqual((ran.returncode, ran.stderr), (0, ""))
        return ran.stdout

    def test_every_module_is_imported(self):
        script = f"""
names = [".".join(path.relative_to({str(SOURCES)!r}).with_suffix("").parts) for path in pathlib.Path({str(SOURCES / "mpsim")!r}).rglob("*.py")]
for name in names:
    if not name.endswith("__main__"):
        importlib.import_module(name.replace(".__init__", ""))
print(len(names))
"""
        self.assertGreater(int(self.runs(script)), 90)

    def test_a_trace_from_an_export(self):
        export = self.file("calls.csv", "When;Who;Long\n02.03.2026 08:00:17;Desk;1,5\n02.03.2026 08:00:05;Desk;0,5\n")
        words = ["prepare", str(export), "--time", "When", "--source", "Who", "--demand", "Long=talk:min", "--out", "trace.csv"]
        script = f"""
import io
from mpsim.command import main
sys.stderr = io.StringIO()
print(main({words!r}), sys.stderr.getvalue().count("2 records"))
"""
        self.assertEqual(self.runs(script), "0 1\n")
        self.assertEqual((self.folder / "trace.csv").read_text(), "source,time,talk\ndesk,5,30\ndesk,17,90\n")

    def test_tables_and_a_page_from_a_report(self):
        script = f"""
from mpsim.tables.nodes import table
from mpsim.tables.sheets import write_table
report = mpsim.Report.read({str(REPORT)!r})
report.save("page.html")
write_table(table(report), path="table.csv")
print(len(report.nodes))
"""
        count = int(self.runs(script))
        self.assertIn("</html>", (self.folder / "page.html").read_text())
        self.assertEqual((self.folder / "table.csv").read_text().count("\n"), count + 1)


if __name__ == "__main__":
    unittest.main()
