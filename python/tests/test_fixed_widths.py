"""Exports whose columns have fixed widths."""

import unittest

from commands import InFolder, planner
from ground import Test

from mpsim.exports.fixed import Fixed
from mpsim.exports.prepare import prepare

LINES = (
    "DATUM   ZEIT  QUEUE       SEK\r\n",
    "02.03.2608:00 Büro          5\r\n",
    "02.03.2608:01 17 Verkauf  120\r\n",
    "\r\n",
    "02.03.2608:02 Büro           \r\n",
    "02.03.2608:03 Büro\r\n",
    "02.03.2608:04 Büro          7  zu viel\r\n",
)
OPTIONS = {"fixed": "8,6,12,3", "date": "DATUM", "date_format": "%d.%m.%y", "source": "QUEUE", "demand": ["SEK=talk"]}


class Widths(InFolder):
    def test_columns(self):
        """Fields that touch; a short line; an empty one; and one with text after the last column."""
        for encoding in "utf-8", "cp1252", "utf-16":
            made = prepare("".join(LINES).encode(encoding), "ZEIT", left_out_most="60%", **OPTIONS)
            self.assertEqual(list(made.rows()), [("buro", 0, 5), ("x_17_verkauf", 60, 120)])
            self.assertEqual(made.left, {"SEK is empty": 2, "the number of fields isn't the header's 4": 1})
            self.assertIn("2 rows: SEK is empty; the first is row 5", made.told)
        made = prepare("".join(LINES).encode(), "ZEIT", empty="0s", left_out_most="60%", **OPTIONS)
        self.assertEqual(list(made.values[0]), [5, 120, 0, 0])

    def test_without_a_header(self):
        export = Fixed(b" 8:00 a 1\n 9:30 b22\n", [5, 2, 2], header="when,who,d")
        self.assertEqual((export.header, export.sample), (["when", "who", "d"], [["8:00", "a", "1"], ["9:30", "b", "22"]]))
        made = prepare(b"a report\n\n 8:00 a 1\n 9:30 b22\n", "when", fixed="5,2,2", header="when,who,d", skip=2, source="who", demand=["d"])
        self.assertEqual(list(made.rows()), [("a", 0, 1), ("b", 5400, 22)])

    def test_the_command(self):
        export = self.file("export.txt", "when  who d\n 8:00 a   1\n 8:01 b   2\n")
        status, out, err = planner("prepare", export, "--fixed", "5,4,2", "--time", "when", "--source", "who", "--demand", "d")
        self.assertEqual((status, out), (0, "source,time,d\na,0,1\nb,60,2\n"))
        self.assertNotIn("delimiter", err)


class Refusals(Test):
    def test_what_is_not_a_width(self):
        for text in "", "x", "0", "5,,2", "5;2", "-1", "70000", "40000,40000", "\u0665":
            with self.subTest(text), self.assertRaisesRegex(ValueError, f"--fixed {text}: expected the widths of all columns in characters"):
                prepare(b"when\n8:00\n", "when", fixed=text)

    def test_a_header_that_goes_on(self):
        says = "--fixed has 2 columns of 9 characters, but the header goes on: 'd'"
        with self.assertRaisesRegex(ValueError, says):
            prepare(b"when who  d\n8:00 a    1\n", "when", fixed="5,4")
        with self.assertRaisesRegex(ValueError, "but --header names more columns"):
            prepare(b"8:00 a    1\n", "when", fixed="5,4", header="when,who,d")
        with self.assertRaisesRegex(ValueError, "--fixed and --delimiter exclude each other"):
            prepare(b"when who\n", "when", fixed="5,4", delimiter=";")
        with self.assertRaisesRegex(ValueError, "no column 'when'; it has 'whe', 'n who'"):
            prepare(b"when who\n8:00 a\n", "when", fixed="3,6")


if __name__ == "__main__":
    unittest.main()
