"""Compares the programs with the reference (reference.py, edits.py, sweep.py): random cases with a fixed seed, and the examples."""
import sys

from programs import CASES, CHECKS, EXAMPLES, SCRIPTS, Check, executable, form_of, run
from reference import read_file, simulate

SEED, COUNT = 1, 400
# A case of a million visits, which takes the reference half a minute.
LONG = "too-many-visits"


class Compare(Check):
    def compares(self, tool):
        """compare.py finds no difference in this many random cases, in which every expected feature occurs."""
        words = ["--seed", SEED, "--count", COUNT, "--tool", tool, "--program", executable(tool), "--threads", "2"]
        ran = run(sys.executable, CHECKS / "compare.py", *map(str, words))
        self.cases += COUNT
        self.assertEqual(ran.status, 0, f"{ran.command}\n{(ran.out + ran.line).decode(errors='backslashreplace')}")

    def test_reference_answers_the_examples(self):
        """The reference gives the stored answer of each example and case that uses the default arguments, except a long one."""
        for model in [*sorted(EXAMPLES.glob("*/model.txt")), *sorted(CASES.glob("*/model.txt"))]:
            folder = model.parent
            if folder.name != LONG and not (folder / "words").is_file():
                with self.subTest(folder.name):
                    report, line = (item.read_text() if item.is_file() else "" for item in (folder / "report.txt", folder / "line.txt"))
                    answer = simulate([str(model), str(folder / "trace.csv"), *form_of(report)], read_file)
                    self.same(f"the reference on {folder}", answer.output, report)
                    self.same(f"the line of the reference on {folder}", answer.error, line)


for tool in SCRIPTS:
    setattr(Compare, f"test_{tool}", lambda self, tool=tool: self.compares(tool))
