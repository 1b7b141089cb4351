"""The files that exports come in: packed, spreadsheets, standard input and output, and what isn't a table."""

import bz2
import gzip
import io
import lzma
import subprocess
import sys
import unittest
import unittest.mock
import zipfile
from datetime import datetime, time, timedelta

from commands import InFolder, planner
from ground import ROOT
from test_prepare import table

from mpsim.exports.prepare import prepare

ROWS = table("2026-03-02 08:00,a,1", "2026-03-02 08:01,b,2")
MADE = [("a", 0, 1), ("b", 60, 2)]
ASKS = {"source": "who", "demand": ["long=d"]}


class Packed(InFolder):
    def made(self, name, data, **options):
        path = self.folder / name
        path.write_bytes(data)
        return list(prepare(path, "when", **ASKS, **options).rows())

    def test_by_their_first_bytes(self):
        """Whatever they are called."""
        for name, pack in ("a.csv.gz", gzip.compress), ("b.csv", bz2.compress), ("c.txt", lzma.compress):
            self.assertEqual(self.made(name, pack(ROWS)), MADE)
            self.assertEqual(self.made(name, pack("when,who,long\n2026-03-02 08:00,é,1\n".encode("cp1252"))), [("e", 0, 1)])
        self.assertEqual(self.made("d.zip", self.zipped({"calls.csv": ROWS})), MADE)
        self.assertIn("the file is unpacked (zip): calls.csv", prepare(self.folder / "d.zip", "when").told)

    def zipped(self, files):
        made = io.BytesIO()
        with zipfile.ZipFile(made, "w", zipfile.ZIP_DEFLATED) as archive:
            for name, data in files.items():
                archive.writestr(name, data)
        return made.getvalue()

    def test_damaged(self):
        for pack in gzip.compress, bz2.compress, lzma.compress:
            data = pack(ROWS * 100)
            for bad in data[:-9], data[: len(data) // 2] + b"xxxxxxxx" + data[len(data) // 2 + 8 :]:
                with self.assertRaisesRegex(ValueError, "it can't be unpacked: "):
                    self.made("bad", bad)
        with self.assertRaisesRegex(ValueError, "damaged zip archive: "):
            self.made("bad.zip", self.zipped({"a": ROWS})[:-30])
        with self.assertRaisesRegex(ValueError, "the zip archive has 2 files, but must have one: a.csv, b.csv"):
            self.made("two.zip", self.zipped({"a.csv": ROWS, "b.csv": ROWS}))

    def test_what_is_no_table(self):
        for data, says in (
            (b"\xd0\xcf\x11\xe0\xa1\xb1\x1a\xe1", r"this is an old spreadsheet \(.xls\): save it as CSV UTF-8"),
            (b'{"when": 1}\n', "this is JSON: convert it to CSV"),
            (b"%PDF-1.7", "this is a PDF document"),
            (b"\xd4\xc3\xb2\xa1\x02\x00\x04\x00", "this is a packet capture: convert it with tshark"),
            (b"\x28\xb5\x2f\xfd\x00", "compressed by zstd"),
        ):
            with self.subTest(says), self.assertRaisesRegex(ValueError, says):
                self.made("other", data + bytes(50))


class Streams(InFolder):
    def piped(self, given, *words):
        command = [sys.executable, "-B", ROOT / "mpplan", "prepare", *words, "--time", "when", "--source", "who", "--demand", "long=d"]
        ran = subprocess.run(command, input=given, capture_output=True, cwd=self.folder, check=False)
        return ran.returncode, ran.stdout.decode()

    def test_standard_input_and_output(self):
        shown = "source,time,d\na,0,1\nb,60,2\n"
        for data in ROWS, gzip.compress(ROWS), ROWS.decode().encode("utf-16"):
            self.assertEqual(self.piped(data, "-"), (0, shown))
            self.assertEqual(self.piped(data, "/dev/stdin", "--out", "-"), (0, shown))
        self.assertEqual(list(self.folder.iterdir()), [])
        export = self.file("export.csv", ROWS.decode())
        with open(export, "rb") as file:
            command = [sys.executable, "-B", ROOT / "mpplan", "prepare", "-", "--time", "when", "--source", "who", "--demand", "long=d"]
            ran = subprocess.run(command, stdin=file, capture_output=True, check=True)
        self.assertEqual(ran.stdout.decode(), shown)

    def test_a_pipe_is_read_twice_for_names_to_change(self):
        status, out = self.piped(ROWS, "-", "--rename", "b=c", "--rename", "x=y")
        self.assertEqual((status, out), (0, "source,time,d\na,0,1\nc,60,2\n"))


class Workbooks(InFolder):
    def setUp(self):
        super().setUp()
        try:
            import openpyxl
        except ImportError:
            self.skipTest("openpyxl is missing")
        self.library = openpyxl

    def book(self, *sheets):
        book = self.library.Workbook()
        book.remove(book.active)
        for name, rows in sheets:
            sheet = book.create_sheet(name)
            for row in rows:
                sheet.append(row)
        book.save(self.folder / "calls.xlsx")
        return self.folder / "calls.xlsx"

    def test_cells(self):
        """Dates, times, lengths, numbers and texts, as cells and as texts."""
        rows = [
            ["Report of March"],
            ["when", "clock", "who", "long", "wrap", None],
            [datetime(2026, 3, 2, 8, 0, 17), time(8, 0, 17), "Büro", timedelta(minutes=3, seconds=30), 1.5],
            [],
            [datetime(2026, 3, 2, 8, 1), time(8, 1), "x=1", timedelta(hours=25), 90],
            [datetime(2026, 3, 2, 8, 2), time(8, 2), "x", None, 3],
        ]
        path = self.book(("March", rows))
        asks = {"source": "who", "demand": ["long=d", "wrap=w"], "skip": 1, "left_out_most": "40%", "begin": "2026-03-02T08:00"}
        made = prepare(path, "when", **asks)
        self.assertEqual((list(made.rows()), made.left), ([("buro", 17, 210, 2), ("x_1", 60, 90000, 90)], {"long is empty": 1}))
        self.assertIn("1 row: long is empty (row 6)", made.told)
        self.assertEqual(list(prepare(path, "clock", source="who", skip=1, begin="8:00").times), [17, 60, 120])

    def test_fractions(self):
        """A number of a cell has no separator of thousands, and small ones are as good as others."""
        rows = [["when", "long"], *([datetime(2026, 3, 2, 8, at), value] for at, value in enumerate((1.125, 2.125, 0.00005)))]
        path = self.book(("March", rows))
        made = prepare(path, "when", demand=["long:min"], tick="1ms")
        self.assertEqual((made.values[0].tolist(), made.left), ([67500, 127500, 3], {}))
        with self.assertRaisesRegex(ValueError, "long: not a number with a decimal comma"):
            prepare(path, "when", demand=["long:min"], tick="1ms", decimal=",")

    def test_sheets(self):
        rows = [["when", "who"], [datetime(2026, 3, 2, 8), "a"]]
        path = self.book(("One", rows), ("Two", [*rows, [datetime(2026, 3, 2, 9), "b"]]))
        with self.assertRaisesRegex(ValueError, "the spreadsheet has 2 sheets: give --sheet 'One' or 'Two'"):
            prepare(path, "when")
        self.assertEqual(len(prepare(path, "when", sheet="Two")), 2)
        for asks, says in (
            ({"sheet": "Three"}, "no sheet 'Three'; it has 'One', 'Two'"),
            ({"sheet": "One", "encoding": "utf-8"}, "--encoding, --delimiter and --fixed can't be used with a spreadsheet"),
        ):
            with self.assertRaisesRegex(ValueError, says):
                prepare(path, "when", **asks)
        with self.assertRaisesRegex(ValueError, "--sheet One: this isn't a spreadsheet"):
            prepare(ROWS, "when", sheet="One")
        path.write_bytes(path.read_bytes()[:-2000] + bytes(2000))
        with self.assertRaisesRegex(ValueError, "damaged"):
            prepare(path, "when", sheet="One")


class WithoutLibrary(InFolder):
    def test_a_spreadsheet(self):
        path = self.folder / "calls.xlsx"
        with zipfile.ZipFile(path, "w") as archive:
            archive.writestr("xl/workbook.xml", "<x/>")
        with unittest.mock.patch.dict(sys.modules, openpyxl=None):
            status, out, err = planner("prepare", path, "--time", "when")
        says = "this is a spreadsheet (.xlsx): save it as CSV UTF-8, or install the Python package openpyxl"
        self.assertEqual((status, out, says in err, err.count("\n")), (1, "", True, 1), err)


if __name__ == "__main__":
    unittest.main()
