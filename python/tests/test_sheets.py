"""The forms of tables: CSV in two styles, JSON, Markdown and spreadsheets."""

import io
import json
import subprocess
import sys
import unittest
import unittest.mock

from commands import InFolder, planner
from ground import EXAMPLES, ROOT, Test

from mpsim.tables import sheets

JOBS = EXAMPLES / "callcentre" / "jobs.txt"


def openpyxl():
    try:
        import openpyxl

        return openpyxl
    except ImportError:
        raise unittest.SkipTest("openpyxl is missing") from None


class Forms(InFolder):
    def test_service(self):
        words = "service", JOBS, "--node", "expert", "--within", "5", "--percentile", "50"
        plain = planner(*words)[1].splitlines()
        german = planner(*words, "--csv-style", "excel-de")[1]
        self.assertEqual(german[0], "\ufeff")
        self.assertEqual([line.replace(";", ",") for line in german[1:].replace(",", ".").splitlines()], plain)
        self.assertIn(";", german)
        (row,) = json.loads(planner(*words, "--format", "json")[1])
        self.assertEqual([str(value) for value in row.values()], plain[1].split(","))
        self.assertEqual(list(row), plain[0].split(","))
        table = planner(*words, "--format", "md")[1].splitlines()
        self.assertEqual([table[0].replace("\\_", "_").strip("| ").split(" | "), table[1]], [plain[0].split(","), "|" + "---|" * len(row)])
        status, _, err = planner(*words, "--format", "md", "--csv-style", "excel-de")
        self.assertEqual((status, err), (1, "mpplan: --csv-style excel-de: it can't be used with --format md\n"))

    def test_each_command(self):
        """Each that writes a table takes both options; a sweep, which writes its rows as they come, takes the style."""
        for words in ("table", JOBS), ("sojourns", JOBS), ("service", JOBS), ("compare", JOBS), ("hours", JOBS, "--node", "expert", "--tick", "1s"):
            with self.subTest(words[0]):
                plain = planner(*words, *(["--csv"] if words[0] == "compare" else []))
                self.assertEqual(plain[0], 0, plain[2])
                self.assertEqual(planner(*words, "--csv-style", "excel-de")[1][1:].count("\n"), plain[1].count("\n"))
                self.assertEqual(len(json.loads(planner(*words, "--format", "json")[1])), plain[1].count("\n") - 1)

    def test_formulas(self):
        """A text that a spreadsheet would take for a formula gets an apostrophe; numbers stay as they are."""
        rows = [["a", "=1+1"], [-1.5, "-1.5"], ["@x", "-x"], ["+49 40 1", "x=y"], ["\tx", None]]
        out = io.StringIO()
        sheets.Writer(out).writerows(rows)
        self.assertEqual(out.getvalue(), "a,'=1+1\n-1.5,-1.5\n'@x,'-x\n'+49 40 1,x=y\n'\tx,\n")
        out = io.StringIO()
        sheets.Writer(out, "excel-de").writerow([-1.5, "0.25", 7, "1.2.3", "a;b", None])
        self.assertEqual(out.getvalue(), '\ufeff-1,5;0,25;7;1.2.3;"a;b";\n')

    def test_spreadsheets(self):
        library = openpyxl()
        path = self.folder / "table.xlsx"
        with open(path, "wb") as file:
            command = [sys.executable, "-B", ROOT / "mpplan", "table", JOBS, "--format", "xlsx"]
            subprocess.run(command, stdout=file, check=True)
        found = list(library.load_workbook(path).active.values)
        plain = [line.split(",") for line in planner("table", JOBS)[1].splitlines()]
        self.assertEqual(list(found[0]), plain[0])
        self.assertEqual([value for value in found[1] if isinstance(value, int)], [int(value) for value in plain[1] if value.isdigit()])
        made = library.load_workbook(io.BytesIO(sheets._xlsx([["=1+1", 2]]))).active
        self.assertEqual((made["A1"].data_type, made["A1"].value), ("s", "=1+1"))

    def test_without_the_library(self):
        with unittest.mock.patch.dict(sys.modules, openpyxl=None):
            status, out, err = planner("table", JOBS, "--format", "xlsx")
        self.assertEqual((status, out), (1, ""))
        self.assertIn("--format xlsx requires the Python package openpyxl", err)


class Empty(Test):
    def test_no_rows(self):
        self.assertEqual("".join(sheets._json(iter([["a"]]))), "[]\n")


if __name__ == "__main__":
    unittest.main()
