"""The table that `mpplan` makes from a sweep, and its message for an older Python."""
import sys

from programs import EXAMPLES, ROOT, Check, run

PLANNER, DAY = ROOT / "mpplan", EXAMPLES / "sweep"
# Named relative to the root, since a table contains the names.
MODELS = [str(file.relative_to(ROOT)) for file in sorted(DAY.glob("agents-*.txt"))] + ["examples/cases/unknown-kind/model.txt"]


class Tools(Check):
    def test_table_of_a_sweep(self):
        """It has a row per scenario and node."""
        sweep = run("mpsweep", DAY / "trace.csv", *MODELS).out
        rows = run(PLANNER, "table", "/dev/stdin", "--labels", *MODELS, given=sweep).out.decode().splitlines()
        self.same("rows", len(rows), 26)
        row = "examples/sweep/agents-15.txt,0,36335,callback,server,6,6,0,0,235,220,0,220,220,1413,1648,2,0.0388,"
        self.same("the row of the last agents", [row for row in rows if "agents-15" in row and ",callback," in row], [row])
        last = "examples/cases/unknown-kind/model.txt,3,,,,,,,,,,,,,,,,,mpsim: model line 3: word 1 not allowed"
        self.same("the row of a model that is refused", rows[-1], last)

    def test_an_older_python(self):
        script = f"import sys; sys.version_info = (3, 6, 8); exec(open({str(PLANNER)!r}).read())"
        self.did(run(sys.executable, "-c", script), 1, "", "mpplan: it needs Python 3.9 or later, and this is 3.6\n")
