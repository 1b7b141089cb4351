"""`mpplan inspect`: the columns of an export, what can't be told of them, and a command that works."""

import csv
import importlib.util
import io
import shlex
import unittest

from commands import InFolder, planner
from ground import EXAMPLES

from mpsim.exports.inspection import inspected
from mpsim.exports.recipes import READERS

CALLS = (
    "Id;Start;Answered;End;Queue;Talk (min);Wait;Note\n"
    "1;02.03.2026 08:00:17;02.03.2026 08:00:20;02.03.2026 08:01:50;Desk A;1,5;0:00:03;\n"
    "2;02.03.2026 08:00:30;02.03.2026 08:00:31;02.03.2026 08:01:01;Desk B;0,5;0:00:01;late\n"
    "3;02.03.2026 12:40:00;02.03.2026 12:40:10;02.03.2026 12:52:10;Desk A;12,0;0:00:10;\n"
    "3;02.03.2026 12:40:00;02.03.2026 12:40:10;02.03.2026 12:52:10;Desk A;12,0;0:00:10;\n"
    "5;03.03.2026 08:00:00;03.03.2026 08:00:02;03.03.2026 08:02:02;Desk B;2,0;0:00:02;\n"
)


class Lengths(InFolder):
    def test_decimal_commas_before_a_unit(self):
        path = self.file("units.csv", "Start;Dauer\n" + "".join(f"2026-03-02 08:0{at}:00;{at},5 Min.\n" for at in range(9)))
        found = inspected(path)
        self.assertEqual(found.columns[1][1:7], ("length", None, 0, 9, "0:00:30", "0:08:30"))
        self.assertEqual((found.options, [note for note in found.notes if "another form" in note]), ({"time": "Start", "demand": ["Dauer"]}, []))
        doubtful = inspected(self.file("doubt.csv", "Start;Dauer\n2026-03-02 08:00:00;1.500 ms\n"))
        self.assertEqual(doubtful.columns[1].doubt, "'1.500' could be thousands or a decimal fraction")


class Inspect(InFolder):
    def seen(self, text, **options):
        return inspected(self.file("calls.csv", text), **options)

    def proposed(self, path, *words):
        """Returns the words of the proposed command, which must work."""
        status, _, err = planner("inspect", path, *words)
        self.assertEqual(status, 0, err)
        lines = [line for line in err.splitlines() if line.startswith("mpplan: proposed: mpplan ")]
        self.assertEqual(len(lines), 1, err)
        command = shlex.split(lines[0].split("proposed: mpplan ")[1])
        status, out, err = planner(*command)
        self.assertEqual((status, out.startswith("source,time")), (0, True), err)
        return command[2:]

    def test_columns(self):
        found = {column.name: column for column in self.seen(CALLS).columns}
        self.assertEqual(
            [(column.kind, column.form, column.empty, column.different, column.least, column.greatest) for column in found.values()],
            [
                ("number", None, 0, 4, "1", "5"),
                ("time", "%d.%m.%Y %H:%M:%S", 0, 4, "2026-03-02T08:00:17", "2026-03-03T08:00:00"),
                ("time", "%d.%m.%Y %H:%M:%S", 0, 4, "2026-03-02T08:00:20", "2026-03-03T08:00:02"),
                ("time", "%d.%m.%Y %H:%M:%S", 0, 4, "2026-03-02T08:01:01", "2026-03-03T08:02:02"),
                ("text", None, 0, 2, None, None),
                ("number", None, 0, 4, "0.5", "12"),
                ("length", None, 0, 4, "0:00:01", "0:00:10"),
                ("text", None, 4, 1, None, None),
            ],
        )
        self.assertEqual((found["Start"].example, found["Note"].example), ("02.03.2026 08:00:17", "late"))

    def test_notes(self):
        notes = self.seen(f"{CALLS}6;only\n").notes
        self.assertIn("6 rows, 1 of them with too few fields", notes)
        self.assertIn("1 row that repeats an earlier row, field by field: --duplicates drop leaves them out", notes)
        self.assertIn("the longest gap of 'Start' is 19:20:00, after 2026-03-02T12:40:00", notes)

    def test_the_command(self):
        self.assertEqual(self.proposed(self.file("my calls.csv", CALLS)), ["--time", "Start", "--source", "Queue", "--demand", "Talk (min):min"])

    def test_ends_instead_of_lengths(self):
        """The first of the times is the arrival, wherever its column is."""
        text = "".join(";".join(line.split(";")[at] for at in (3, 2, 1, 4)) + "\n" for line in CALLS.splitlines())
        found = self.proposed(self.file("a.csv", text))
        self.assertEqual(found, ["--time", "Start", "--source", "Queue", "--end", "End", "--answered", "Answered"])
        text = "".join(";".join(line.split(";")[at] for at in (3, 1)) + "\n" for line in CALLS.splitlines())
        self.assertEqual(self.proposed(self.file("a.csv", text)), ["--time", "Start", "--end", "End"])

    def test_days_in_a_column_of_their_own(self):
        """With services that some rows lack."""
        lines = [f"2026-03-02;{8 + at // 2}:{at}0;{'' if at == 3 else at}" for at in range(6)]
        found = self.proposed(self.file("a.csv", "\n".join(["Day;Clock;Handling", *lines, ""])))
        self.assertEqual(found, ["--time", "Clock", "--date", "Day", "--demand", "Handling", "--where", "Handling!="])

    def test_seconds_since_1970(self):
        for factor, form in (1, "unix"), (1000, "unixms"):
            text = "".join(f"{(1772438400 + at) * factor},{at}\n" for at in range(9))
            self.assertEqual(self.proposed(self.file("a.csv", f"at,long\n{text}")), ["--time", "at", "--format", form])

    def test_what_can_not_be_told(self):
        for text, notes in (
            (
                "when,long\n03/02/2026 08:00,1\n03/02/2026 08:01,2\n",
                [
                    "column 'when' can't be told: '03/02/2026 08:00' could begin with the day or with the month: the format is '%d/%m/%Y %H:%M' or "
                    "'%m/%d/%Y %H:%M'",
                    "no command can be proposed: no column is a time for sure",
                ],
            ),
            ("at,long\n1,3:20\n2,4:10\n", ["column 'long' can't be told: '3:20' could be a time of day, h:mm or m:ss"]),
            ("at,long\n1,1.250\n2,2.500\n", ["column 'long' can't be told: '1.250' could be thousands or a decimal fraction"]),
            ("at,long\n1,3\n2,4\n", ["no command can be proposed: no column is a time; if one has ticks, name it with --time and --format ticks"]),
            ("when,who\n" + "2026-03-02 08:00,a\n" * 12 + "none,a\n", ["column 'when': 1 field of another form"]),
        ):
            found = self.seen(text)
            self.assertEqual([note for note in notes if note not in found.notes], [], found.notes)
            self.assertEqual(found.options is None, "no command" in " ".join(found.notes))

    def test_rows_that_would_be_left_out(self):
        """The command allows some, said aloud, and never more than half."""
        rows = ["2026-03-02 08:00:00,a,30"] * 18
        found = self.seen("\n".join(["when,who,talk", *rows, "2026-03-02 08:00:00,a,-5", "2026-03-02 08:00:00,a,-5", ""]))
        self.assertEqual(found.options, {"time": "when", "demand": ["talk"], "left-out-most": "10%"})
        self.assertIn("warning: 2 of 20 rows would be left out: talk: below 0", found.notes)
        found = self.seen("\n".join(["when,who,talk", *rows[:4], *["2026-03-02 08:00:00,a,-5"] * 5, ""]))
        self.assertIsNone(found.options)
        self.assertIn("no command can be proposed: 5 of 9 rows would be left out: talk: below 0", found.notes)

    def test_how_the_file_is_read(self):
        """These options are in the command too."""
        path = self.file("a.csv", f"Report\n\n{CALLS}")
        self.assertEqual(self.proposed(path, "--skip", "2")[-2:], ["--skip", "2"])
        path = self.file("b.csv", CALLS.split("\n", 1)[1])
        found = self.proposed(path, "--header", "id,from,answered,to,queue,talk,wait,note", "--decimal", ",")
        self.assertEqual(found[:2] + found[-4:], ["--time", "from", "--decimal", ",", "--header", "id,from,answered,to,queue,talk,wait,note"])

    def test_the_recipe(self):
        path, recipe = self.file("calls.csv", CALLS), self.folder / "calls.toml"
        words = self.proposed(path, "--write-recipe", recipe)
        # Before 3.11, Python itself has no reader of recipes.
        if any(map(importlib.util.find_spec, READERS)):
            self.assertEqual(planner("prepare", path, "--recipe", recipe)[1], planner("prepare", path, *words)[1])
        self.assertEqual(recipe.read_text().split("\n")[1:4], ['time = "Start"', 'source = "Queue"', 'demand = ["Talk (min):min"]'])
        status, out, err = planner("inspect", self.file("a.csv", "a,b\n1,2\n"), "--write-recipe", self.folder / "none.toml")
        self.assertEqual((status, out, (self.folder / "none.toml").exists()), (1, "", False))
        self.assertIn("none.toml isn't written: the options of ", err)
        self.refuses(f"{path}: this is the export, which is never overwritten", "inspect", path, "--write-recipe", path)

    def test_examples(self):
        """Every export in the examples that shows its columns and its formats."""
        paths = [EXAMPLES / "export" / "calls.csv", *(EXAMPLES / "recipes" / f"{name}.csv" for name in ("cucm", "sap"))]
        for path in paths:
            with self.subTest(path.name):
                self.proposed(path)
        # The month may be the first or the second number of its dates.
        path = EXAMPLES / "recipes" / "avaya.csv"
        says = "no command can be proposed: the day of 'Start Time' is in 'Date', whose format can't be told: --date-format"
        self.assertIn(says, inspected(path, skip=3).notes)

    def test_tables(self):
        out = planner("inspect", self.file("calls.csv", CALLS))[1]
        rows = list(csv.DictReader(io.StringIO(out)))
        self.assertEqual([row["kind"] for row in rows[:2]], ["number", "time (%d.%m.%Y %H:%M:%S)"])
        self.assertTrue(planner("inspect", self.folder / "calls.csv", "--format", "md")[1].startswith("| column | kind |"))

    def test_a_pipe(self):
        with self.assertRaisesRegex(ValueError, "it is read twice, so it must be a file"):
            inspected("/dev/stdin")


if __name__ == "__main__":
    unittest.main()
