"""The errors of `mpplan prepare`: one line with the file, the row, the column and the value, or with the option to set."""

import functools
import unittest
import unittest.mock

from commands import InFolder, planner
from ground import ROOT, Test, programs_in, text_of

from mpsim.exports import prepare as module
from mpsim.exports import result
from mpsim.exports import rows as rows_module

# Some tables below have rows that are left out.
prepare = functools.partial(module.prepare, left_out_most="100%")

MODEL = "model 1\nsource a\nserver desk d from a\n"
ROW = "8:00,a,1"
DAY = "--day", "when", "who", "long"
SMALL = "is a lower-case letter, then lower-case letters, digits and underscores, at most 32"
NUMBERS = "ticks, unix, unixms, hmm, hmmss, excel, or a strptime format such as %H.%M"


def table(*rows, header="when,who,long"):
    return "\n".join([header, *rows, ""]).encode()


class Refusals(InFolder):
    def is_refused(self, line, data, *words):
        """Checks the error line for an export of these bytes; no file is made."""
        export = self.folder / "export.csv"
        export.write_bytes(data)
        time = [] if "--time" in words else ["--time", "when"]
        status, out, err = planner("prepare", export, *time, *words, "--out", self.folder / "trace.csv", "--left-out", self.folder / "left.csv")
        self.assertEqual((status, out, err), (1, "", f"mpplan: {line.replace('EXPORT', str(export))}\n"))
        self.assertEqual([path.name for path in self.folder.iterdir()], ["export.csv"])

    def test_files(self):
        for data, line in (
            (b"", "the file is empty"),
            (b"\r\n\r\n", "the file is empty"),
            (b"\xef\xbb\xbf", "the file is empty"),
            (b"sep=;\n", "the file is empty"),
            ("\n".encode("utf-16"), "the file is empty"),
            (b"\n" + table(ROW), "it begins with an empty line: give the number of lines before its header with --skip"),
            (table(), "column 'when': there is no time from which to detect the format (--format)"),
            ("when\n8:00\n".encode("utf-16-le"), "it has NUL bytes: is it UTF-16 without a byte order mark? Give --encoding, e.g. utf-16-le"),
            (b"\xef\xbb\xbfwhen\n8:00\n\xff\n", "line 3: the byte ff isn't valid UTF-8, although the file has a UTF-8 byte order mark (--encoding)"),
            (b"when;a,b\n8:00;1,2\n", "the delimiter could be ';' or ',' (--delimiter)"),
            (table(ROW, '8:01,a,"1' + "x" * 200000), "row 3: field larger than field limit (131072): is a closing quote missing?"),
            (b'when,"' + b"x" * 200000, "row 1: field larger than field limit (131072): is a closing quote missing?"),
        ):
            self.is_refused(f"EXPORT: {line}", data)
        some = table(ROW, ROW)
        for data, skip, lines in (some, 9, "3 lines"), (some, 3, "3 lines"), (b"x\n\n", 1, "2 lines"), (b"x\nsep=;\n", 1, "2 lines"):
            self.is_refused(f"EXPORT: --skip {skip}: the file has {lines}, so no header is left", data, "--skip", skip)
        self.is_refused("EXPORT: the file is empty", b"\n\n", "--skip", "1")
        self.is_refused("EXPORT: line 2: the byte ff isn't valid utf-8 (--encoding)", b"when\n\xff\n", "--encoding", "utf-8")
        self.is_refused("EXPORT: unknown encoding 'utf-9' (--encoding)", table(ROW), "--encoding", "utf-9")
        self.is_refused("EXPORT: unknown encoding 'hex' (--encoding)", table(ROW), "--encoding", "hex")
        for bad in ";;", "", '"':
            self.is_refused(f"EXPORT: {bad!r} isn't a delimiter, which is one character (--delimiter)", table(ROW), f"--delimiter={bad}")
        absent = self.folder / "absent.csv"
        self.assertEqual(planner("prepare", absent, "--time", "x"), (1, "", f"mpplan: {absent}: No such file or directory\n"))
        self.assertEqual(planner("prepare", self.folder, "--time", "x"), (1, "", f"mpplan: {self.folder}: Is a directory\n"))

    def test_options_that_are_needed(self):
        for line, data, *words in (
            ("no column 'Zeit'; it has 'when', 'who', 'long'", table(ROW), "--time", "Zeit"),
            ("two columns are called 'when': write #1 or #2", b"when,when\n8:00,9:00\n"),
            (
                "column 'when': '03/02/2026' could begin with the day or with the month: the format is '%d/%m/%Y' or '%m/%d/%Y' (--format)",
                table("03/02/2026,a,1"),
            ),
            (
                "column 'when': '02.03.26 8:00' has a two-digit year: the format may be '%d.%m.%y %H:%M' (--format)",
                table("02.03.26 8:00,a,1"),
            ),
            (f"column 'when': '805' is a number: the format is one of {NUMBERS} (--format)", table("805,a,1")),
            ("column 'long': '1.500' could be thousands or a decimal fraction (--decimal)", table("8:00,a,1.500"), "--demand", "long"),
            (
                "column 'long': its numbers use both decimal commas and decimal points (--decimal)",
                table("8:00,a,1.5", '8:00,a,"1,5"'),
                "--demand",
                "long",
            ),
            (
                "row 3, column 'long': '3:30': this could be h:mm or m:ss: give the unit, --demand long:h:mm or --demand long:m:ss",
                table(ROW, "8:01,a,3:30"),
                "--demand",
                "long",
            ),
            (
                "row 3, column 'long': '3:30': this could be h:mm or m:ss: give the unit, --where long:h:mm or --where long:m:ss",
                table(ROW, "8:01,a,3:30"),
                "--where",
                "long>0",
            ),
            (
                "row 2, column 'when': '2026-10-25 02:30': in the hour that occurs twice on 2026-10-25 in Europe/Berlin: "
                "give --twice first, second or order",
                table("2026-10-25 02:30,a,1"),
                "--zone",
                "Europe/Berlin",
            ),
            (
                "some times have an offset from UTC and others have none: give --zone for those",
                table("2026-03-02T08:00,a,1", "2026-03-02T08:00Z,a,1"),
            ),
            ("column 'when' has no day, so --zone can't be used", table(ROW), "--zone", "Europe/Berlin"),
            ("column 'when' has ticks, so --zone can't be used", table("5,a,1"), "--format", "ticks", "--zone", "Europe/Berlin"),
            ("--begin 8:00: it can't be used with times in ticks", table("5,a,1"), "--format", "ticks", "--begin", "8:00"),
            ("--date-format requires --date", table(ROW), "--date-format", "iso"),
            (
                "column 'when': 'Summe' isn't written like '01.10.2026'; if you give a format, such rows are left out (--format)",
                table("01.10.2026,a,1", "Summe,,9", "02.10.2026,a,1"),
            ),
            ("no rows are left; 1 row: when: out of the range of times (row 2, '1772436600000')", table("1772436600000,a,1"), "--format", "unix"),
            ("--answered requires --end", table(ROW), "--answered", "when"),
            ("column 'when' isn't only a time of day, so --date can't be used", table("2026-03-02,a,1"), "--date", "when"),
            ("column 'when' isn't only a time of day, so --day can't be used", table("2026-03-02,a,1"), *DAY),
            ("--date and --day exclude each other: give one of them", table(ROW), "--date", "who", *DAY),
            ("--day who long who: expected three columns: the year, the month and the day", table(ROW), "--day", "who", "long", "who"),
            ("no column 'year'; it has 'when', 'who', 'long'", table(ROW), "--day", "year", "who", "long"),
            ("--date-format requires --date", table(ROW), *DAY, "--date-format", "iso"),
            (
                "row 2, column 'who': '8:01': the format clock has no day: give another --date-format",
                table("8:00,8:01,1"),
                "--date",
                "who",
            ),
            ("no column 'When' for --source; it has 'when', 'who', 'long'", table(ROW), "--source", "When"),
            ("no column 'No Column' for --source; it has 'when', 'who', 'long'", table(ROW), "--source", "No Column"),
            (
                "the column's name 'Talk' is invalid: use a lower-case letter, then lower-case letters, digits and underscores, at most 32",
                table(ROW),
                "--demand",
                "long=Talk",
            ),
            ("the column's name 'from' is reserved", table(ROW), "--demand", "long=from"),
            ("the column's name 'd' is already taken", table(ROW), "--demand", "long=d", "--constant", "d=1s"),
            (
                "unknown unit 'fortnight': it is one of ns, us, ms, s, sec, min, h, d, ticks, h:mm, m:ss, h:mm:ss, excel, or "
                "data at a rate such as bytes@10Gbps",
                table(ROW),
                "--demand",
                "long:fortnight",
            ),
            ("--constant wrap: expected NAME=LENGTH, e.g. wrap=90s", table(ROW), "--constant", "wrap"),
            ("--constant wrap 1.5s is not a whole number of ticks", table(ROW), "--constant", "wrap=1.5s"),
            (
                "--constant wrap long: not a length of time: expected a number and one of ns, us, ms, s, sec, min, h, d",
                table(ROW),
                "--constant",
                "wrap=long",
            ),
            ("--empty 800000d is more than 2^36 ticks", table(ROW), "--empty", "800000d"),
            (f"--rename a=B: expected OLD=NEW, where NEW {SMALL}", table(ROW), "--rename", "a=B"),
            ("--rename a=from: expected OLD=NEW, where NEW isn't reserved", table(ROW), "--rename", "a=from"),
            ("--rename a is given twice", table(ROW), "--source", "who", "--rename", "a=b", "--rename", " a=c"),
            ("--rename requires a column for --source", table(ROW), "--rename", "a=b"),
            ("--rename requires a column for --source", table(ROW), "--rename", "jobs=b", "--source", "calls"),
            ("no source 'B' for --rename; it has 'a', 'b'", table(ROW, "8:01,b,1", "8:02,a,1"), "--source", "who", "--rename", "B=c"),
            # As in the export, not under its new name.
            ("no source 'sales' for --rename; it has 'Sales'", table("8:00, Sales ,1"), "--source", "who", "--rename", "sales=c"),
            ("no source 'x' for --rename; it has none", table("8:00,,1", "8:01"), "--source", "who", "--rename", "x=c"),
            ("1 record before --begin 9:00, which is to be time 0", table(ROW), "--begin", "9:00"),
            ("--begin 25:00: not a time of day", table(ROW), "--begin", "25:00"),
            ("--begin 8:60 pm: not a time of day", table("2026-03-02 08:00,a,1"), "--begin", "8:60 pm"),
            ("--begin noon: not an ISO 8601 time", table(ROW), "--begin", "noon"),
            ("--begin 2026-03-02: it has a day, but the times have none", table(ROW), "--begin", "2026-03-02"),
            ("column 'long' is read as clock, but column 'when' as ticks", table("5,a,8:00"), "--format", "ticks", "--end", "long"),
            ("the time 1152921504606846977 is above 2^60 ticks, the limit of a trace", table(f"{2**60 + 1},a,1"), "--format", "ticks"),
            ("'%Q' isn't a valid strptime format: 'Q' is a bad directive in format '%Q'", table(ROW), "--format", "%Q"),
            ("the format '%d.%m. %H:%M' has a day but no year", table(ROW), "--format", "%d.%m. %H:%M"),
            (
                "no rows are left; 2 rows: when: not a time of day; the first is row 2, '25:00'; 1 row: when is empty (row 3)",
                table("25:00,a,1", ",a,1", "25:01,a,1"),
                "--format",
                "clock",
            ),
        ):
            with self.subTest(line):
                self.is_refused(f"EXPORT: {line}", data, *words)

    def test_options(self):
        for line, *words in (
            ("--tick 0s: a tick must be longer than 0", "--tick", "0s"),
            ("--tick 1: not a length of time: expected a number and one of ns, us, ms, s, sec, min, h, d", "--tick", "1"),
            ("EXPORT: --skip -1: expected a number of lines, 0 or more", "--skip=-1"),
            ("this machine has no time zone 'Berlin'; their names look like Europe/Berlin", "--zone", "Berlin"),
        ):
            self.is_refused(line, table(ROW), *words)

    def test_models(self):
        model = self.file("model.txt", MODEL)
        export = self.file("export.csv", table("8:00,b,1").decode())
        words = "prepare", export, "--time", "when", "--model", model, "--out", self.folder / "trace.csv"
        for line, *more in (
            ("the model names d, which no --demand, --end, --constant or --code provides",),
            ("the model has no source b (--source)", "--demand", "long=d", "--source", "b"),
            ("no rows are left; 1 row: who: the model has no source b (row 2, 'b')", "--demand", "long=d", "--source", "who"),
            ("no source 'c' for --rename; it has 'b'", "--demand", "long=d", "--source", "who", "--rename", "c=a"),
        ):
            self.assertEqual(planner(*words, *more), (1, "", f"mpplan: {export}: {line}\n"))
        for text, line in (
            ("model 1\nsource Sales\n", "model line 2: word 2 not allowed: source Sales"),
            ("model 1\nsource b\nsever desk d from b\n", "model line 3: word 1 not allowed: sever desk d from b"),
        ):
            model.write_text(text)
            self.refuses(f"{model}: {line}", *words, status=3)
        with programs_in(self.folder):
            model.write_text("model 1\nsource b\nsever desk d from b\n")
            status, _, told = planner(*words, "--source", "who")
            why = f"no program mpsim in {self.folder}; set MPSIM_PROGRAMS to a directory that has it"
            self.assertEqual((status, told.split("\n", 1)[0]), (0, f"mpplan: warning: {model} isn't checked: {why}"))
            (self.folder / "trace.csv").unlink()
        model.write_bytes(b"model 1\nsource \xff\n")
        self.assertEqual(planner(*words), (1, "", f"mpplan: {model}: line 2: the byte ff isn't valid UTF-8\n"))
        self.assertFalse((self.folder / "trace.csv").exists())

    def test_the_export_is_not_written_over(self):
        export = self.file("export.csv", table(ROW).decode())
        (self.folder / "link").symlink_to(export)
        for option in "--out", "--left-out", "--first-lines":
            for path in export, self.folder / "link":
                line = f"mpplan: {path}: this is the export, which is never overwritten\n"
                self.assertEqual(planner("prepare", export, "--time", "when", option, path), (1, "", line))
        self.assertEqual(export.read_bytes(), table(ROW))
        out = self.folder / "out"
        status = planner("prepare", export, "--time", "when", "--out", out, "--left-out", out)
        self.assertEqual(status, (1, "", f"mpplan: {out}, {out}: two outputs can't go to one file\n"))


class Limits(Test):
    def test_sources(self):
        rows = [f"8:00,s{number},1" for number in range(64)]
        with self.assertRaisesRegex(ValueError, "more than 63 sources, the limit of a model: give one name for all, or --rename several to one"):
            prepare(table(*rows), "when", source="who")
        self.assertEqual(len(prepare(table(*rows[1:]), "when", source="who").names), 63)

    def test_sources_that_are_listed(self):
        rows = [f"8:00,s{number},1" for number in range(23)]
        with self.assertRaisesRegex(ValueError, "no source 'S1' for --rename; it has 's0', .*'s19' and 3 more$"):
            prepare(table(*rows), "when", source="who", rename=["S1=x"])

    def test_columns(self):
        constants = [f"c{number}=1s" for number in range(17)]
        with self.assertRaisesRegex(ValueError, "17 columns; the limit of a trace is 16"):
            prepare(table(ROW), "when", constant=constants)
        self.assertEqual(len(prepare(table(ROW), "when", constant=constants[1:]).header), 18)

    def test_records_and_bytes(self):
        """The limits are those of docs/ERRORS.md; smaller ones are tried."""
        errors = text_of(ROOT, "docs", "ERRORS.md").replace(",", "")
        for limit in rows_module.RECORDS, result.BYTES:
            self.assertRegex(errors, rf"\b{limit}\b")
        with unittest.mock.patch.object(rows_module, "RECORDS", 3), unittest.mock.patch.object(result, "BYTES", 33):
            with self.assertRaisesRegex(ValueError, "more than 3 records, the limit of a trace: choose a part with --from, --until or --where"):
                prepare(table(*[ROW] * 4), "when")
            # Each record has `jobs,0` and a line feed, with the value two more bytes; the header has 11 or 13.
            self.assertEqual(sum(map(len, prepare(table(*[ROW] * 3), "when").lines())), 12 + 21)
            made = prepare(table(*[ROW] * 3), "when", demand=["long=d"])
            with self.assertRaisesRegex(ValueError, "the trace is longer than 33 bytes, the limit of mpsim: shorten the export"):
                list(made.lines())

    def test_times_out_of_range(self):
        made = prepare(table("9999-12-31T23:00,a,1", "2026-03-02T08:00,a,1"), "when", zone="Europe/Berlin")
        self.assertEqual(made.left, {"when: out of the range of dates": 1})
        made = prepare(table("9" * 20 + ",a,1", "5,a,1"), "when", format="ticks")
        self.assertEqual(made.left, {"when: out of the range of times": 1})

    def test_warnings(self):
        made = prepare(table("20260302080017,a,1"), "when", format="ticks")
        self.assertIn("times look like dates with a time, such as 20260302080017", made.warned[0])
        made = prepare(table("23:00,a,1", "8:00,a,1"), "when")
        day = "times have no day, so all are put on one day, although they go back by more than half a day 1 time (--date)"
        self.assertEqual(made.warned, [day])
        made = prepare(table("8:00,8:10,x", "8:00,7:59,x", header="when,end,code"), "when", end=["end"])
        self.assertIn("end: 1 service longer than 12 hours", made.warned)
        words = [f"2026-03-02 8:0{number},a,k{number}" for number in range(9)]
        values = "long has 9 values, but a split by remainder has at most 8 outputs"
        self.assertEqual(prepare(table(*words), "when", code=["long"]).warned, [values])
        long_field = table("2026-03-02 8:00,a,1", '2026-03-02 8:01,a,"1', *["a remark, and more"] * 30 + ['end"'])
        self.assertEqual(prepare(long_field, "when").warned, ["row 3: a field has more than 20 lines: is a closing quote missing?"])
        for mark, whose in ("", "a clock that never changes"), ("T00Z", "UTC"):
            told = prepare(table(f"2026-03-02{mark},a,1", f"2026-03-04{mark},a,1"), "when").told
            self.assertIn(f"days are those of {whose}: give --zone for another", told)


if __name__ == "__main__":
    unittest.main()
