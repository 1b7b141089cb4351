"""Exports, and the traces made from them."""

import functools
import io
import random
import unittest
import unittest.mock
from datetime import datetime, timedelta

from commands import InFolder, planner
from ground import EXAMPLES, Test, text_of

import mpsim
from mpsim.exports.delimited import Export, found_delimiter, found_encoding
from mpsim.exports.prepare import prepare as prepare_strictly
from mpsim.times.calendar import settings_in

# Many tables below have rows that are left out.
prepare = functools.partial(prepare_strictly, left_out_most="100%")
EXPORT = EXAMPLES / "export"
ASKED = ["--date", "Datum", "--time", "Uhrzeit", "--source", "Warteschlange"]
ASKED += ["--demand", "Gesprächsdauer (min)=talk:min", "--demand", "Nachbearbeitung=wrap", "--code", "Anliegen=kind"]
ASKED += ["--zone", "Europe/Berlin", "--left-out-most", "40%"]


def table(*rows, header="when,who,long"):
    return "\n".join([header, *rows, ""]).encode()


def times(*texts, header="when", **options):
    """Returns the times of records that arrive at these texts, in the order of the trace."""
    return list(prepare(table(*(f'"{text}"' for text in texts), header=header), header, **{"begin": "first", **options}).times)


class Example(InFolder):
    def test_its_files(self):
        made = [self.folder / item for item in ("trace.csv", "left-out.csv", "lines.txt")]
        words = *ASKED, "--out", made[0], "--left-out", made[1], "--first-lines", made[2]
        status, out, err = planner("prepare", EXPORT / "calls.csv", *words)
        self.assertEqual((status, out), (0, ""), err)
        self.assertEqual([text_of(item) for item in made[:2]], [text_of(EXPORT, item) for item in ("trace.csv", "left-out.csv")])
        self.assertTrue(text_of(EXPORT, "model.txt").startswith(text_of(made[2])))
        for line in "kind: 0 is 'Störung', 1 is 'Bestellung', 2 is 'Rechnung'", "4 rows are left out", "7 records, 3 sources":
            self.assertIn(f"mpplan: {line}\n", err)
        for line in "Datum is empty (row 7)", "Datum: not of the format %d.%m.%Y (row 9, '31.02.2026')":
            self.assertIn(f"mpplan: 1 row: {line}\n", err)

    def test_its_run(self):
        report = mpsim.run(EXPORT / "model.txt", EXPORT / "trace.csv")
        # 75, 210, 30, 165, 720, 120 and 66 seconds, of calls at 5, 17, 17, 131, 220, 330 and 362.
        self.assertEqual((report["desk"].busy, report["desk"].wait), (1386, 0 + 63 + 273 + 189 + 265 + 875 + 963))
        # 20, 90, 0, 45, 240, 30 and 15 seconds after calls that end at 80, 290, 320, 485, 1205, 1325 and 1391.
        self.assertEqual((report["after"].busy, report.span, report.exits[0].sojourn), (440, 1205 + 240, 1386 + 2628 + 440))

    def test_one_of_each(self):
        """One row, one record and one source are reported in the singular."""
        export = self.file("one.csv", "when,who,long\n8:00,a,1\n8:01,a,\n")
        told = planner("prepare", export, "--time", "when", "--source", "who", "--demand", "long", "--left-out-most", "50%")[2].splitlines()
        self.assertEqual([item for item in told if "row" in item], ["mpplan: 1 row is left out", "mpplan: 1 row: long is empty (row 3)"])
        self.assertEqual(told[-1], "mpplan: 1 record, 1 source")

    def test_flights(self):
        """As in public flight data; the option may also come before the export."""
        rows = "2015,6,30,2400,SEA,12", "2015,6,30,5,SEA,21", "2015,6,31,5,SEA,1"
        export = self.file("flights.csv", table(*rows, header="YEAR,MONTH,DAY_OF_MONTH,CRS_DEP_TIME,ORIGIN,TAXI_OUT").decode())
        words = ["--day", "YEAR", "MONTH", "DAY_OF_MONTH", export, "--time", "CRS_DEP_TIME", "--format", "hmm", "--demand", "TAXI_OUT=taxi:min"]
        words += ["--left-out-most", "40%"]
        lines = self.folder / "lines.txt"
        status, out, err = planner("prepare", *words, "--source", "ORIGIN", "--zone", "America/Los_Angeles", "--first-lines", lines)
        self.assertEqual((status, out), (0, "source,time,taxi\nsea,300,1260\nsea,86400,720\n"), err)
        self.assertIn("mpplan: 1 row: DAY_OF_MONTH: not a day of its month (row 4, '31')\n", err)
        self.assertEqual(settings_in(text_of(lines)), (10**9, "2015-06-30T00:00:00-07:00", "America/Los_Angeles"))

    def test_the_output(self):
        status, out, err = planner("prepare", EXPORT / "calls.csv", *ASKED)
        self.assertEqual((status, out), (0, text_of(EXPORT, "trace.csv")), err)


class Exports(Test):
    def test_encodings(self):
        text = "when,who\n8:00,Büro\n"
        for code in "utf-8", "utf-8-sig", "utf-16", "latin-1", "cp1252":
            made = prepare(text.encode(code), "when", source="who")
            self.assertEqual(dict(made.told and [it.split(" is called ") for it in made.told if "called" in it]), {"source 'Büro'": "buro"}, code)
        for code in "utf-16-le", "utf-16-be", "cp437", "utf-8", "UTF8":
            self.assertEqual(prepare(text.encode(code), "when", source="who", encoding=code).sources, ["buro"])
            marked = ("\ufeff" + text).encode(code) if code != "cp437" else text.encode(code)
            self.assertEqual(prepare(marked, "when", source="who", encoding=code).sources, ["buro"])
        self.assertEqual(found_encoding(b"a\nb\nx\xfc")[1].split(",")[0], "line 3 has the byte fc")
        # As DOS encodes it: two words that differ in such bytes would become one.
        dos = "when,who\n8:00,Bär\n8:00,Büro\n"
        with self.assertRaisesRegex(ValueError, r"line 3: the byte 81 isn't valid UTF-8 or Windows-1252 \(--encoding\)"):
            prepare(dos.encode("cp850"), "when", source="who")
        self.assertEqual(prepare(dos.encode("cp850"), "when", source="who", encoding="cp850").sources, ["bar", "buro"])

    def test_delimiters(self):
        for lines, mark in (
            (["a;b\n", "1,0;2,0\n", "3,5;1,5\n"], ";"),
            (["a\tb\n", "1,0\t2\n"], "\t"),
            (["a,b\n", '"x;y",2\n'], ","),
            (["alone\n", "1\n"], ","),
            (["a;b;c, in min\n", "1;2;3,5\n", "1;2;3,5\n", "1;2,5\n"] + ["1;2;3,5\n"] * 9, ";"),
            (["a|b\n", "1|2\n"], "|"),
        ):
            self.assertEqual(found_delimiter(lines), mark)
        with self.assertRaisesRegex(ValueError, r"the delimiter could be '[;,]' or '[;,]' \(--delimiter\)"):
            found_delimiter(["a;b,c\n", "1;2,3\n"])
        # As a spreadsheet says it; and a tab as one can type it.
        self.assertEqual(prepare(b"sep=|\r\nwhen|d\r\n8:00|1\r\n", "when", demand=["d"]).values[0].tolist(), [1])
        self.assertEqual(list(prepare(b"a,b\twhen\nx,y\t8:01\n", "when", delimiter="\\t").times), [60])

    def test_quotes_and_ends_of_lines(self):
        for end in "\n", "\r\n", "\r":
            text = end.join(["when;note;d", '8:00:00;"a;b' + end + '""c""";1', '"8:00:05";;"2"', "", "8:00:07;;3;", ""])
            made = prepare(text.encode(), "when", demand=["d"], begin="first")
            self.assertEqual((list(made.times), made.values[0].tolist(), made.left), ([0, 5, 7], [1, 2, 3], {}))

    def test_an_export_without_a_header(self):
        rows = b"2026-03-02 08:00:05 phone 95\n2026-03-02 08:00:x web 1\n2026-03-02 08:00:40 web 120\n"
        given = {"delimiter": " ", "header": "day,clock, who,talk"}
        out = io.StringIO()
        made = prepare(rows, "clock", format="clock", date="day", source="who", demand=["talk"], left_out=out, **given)
        self.assertEqual(list(made.rows()), [("phone", 5, 95), ("web", 40, 120)])
        self.assertEqual(out.getvalue(), "row,reason,day,clock,who,talk\n2,clock: not h:mm or h:mm:ss,2026-03-02,08:00:x,web,1\n")

    def test_columns(self):
        export = Export(b"a,a=b,d:e,twice,twice,\n1,2,3,4,5,\n")
        for word, found in ("a=b", (1, None, None)), ("a=b=c:min", (1, "c", "min")), ("d:e:h", (2, None, "h")), ("a=x", (0, "x", None)):
            self.assertEqual(export.parse(word, True), found)
        for bad, says in ("twice", "two columns are called 'twice'"), ("x=y", "no column 'x'; it has 'a', 'a=b',"), ("", "no column ''"):
            with self.assertRaisesRegex(ValueError, says):
                export.parse(bad)

    def test_a_format_may_be_settled_late(self):
        """The days of more rows than are examined at the beginning could be months; those at the end couldn't."""
        rows = [f"{day:02}/03/2026 8:00,a,{'1' * 20}" for day in range(1, 13) for _ in range(3000)]
        late = prepare(table(*rows, "13/03/2026 9:00,a,1"), "when", tick="1h")
        self.assertEqual((late.times[-1], sum(late.left.values())), (12 * 24 + 1, 0))
        with self.assertRaisesRegex(ValueError, "could begin with the day or with the month"):
            prepare(table(*rows), "when")

    def test_fields_that_no_column_has(self):
        made = prepare(table("8:00,a,1,", "8:01,a,1,,", "8:02,a,1,x", "8:03,a"), "when")
        self.assertEqual((len(made), made.left), (2, {"the number of fields isn't the header's 3": 2}))

    def test_rows_are_counted_as_a_spreadsheet_does(self):
        rows = ["8:00,a,1", "8:01,a,x", "", "8:02,b,1"] + ["8:03,b,1"] * 40000 + ['8:03,"b\nc",y', "8:07,c,z", "8:08"]
        out = io.StringIO()
        made = prepare(b"title\n" + table(*rows), "when", demand=["long=d"], code=["who=kind"], skip=1, left_out=out)
        self.assertEqual([part.split(",")[0] for part in out.getvalue().split("\n")[1:-1]], ["4", "40007", 'c"', "40008", "40009"])
        self.assertEqual((len(made), set(made.values[1])), (40002, {0, 1}))
        # Words of rows that are left out have no number.
        self.assertIn("kind: 0 is 'a', 1 is 'b'", made.told)
        reasons = {"long: not a number with a decimal point": 3, "the number of fields isn't the header's 3": 1}
        self.assertEqual(made.left, reasons)
        self.assertIn("3 rows: long: not a number with a decimal point; the first is row 4, 'x'", made.told)


class Times(Test):
    def test_a_date_and_a_time_in_columns_of_their_own(self):
        rows = table("02.03.2026,23:59:50,0:00:05", "03.03.2026,0:00:10,0:00:20", "30.02.2026,0:00:10,0:00:20", header="day,clock,end")
        made = prepare(rows, "clock", date="day", end=["end=talk"], begin="day")
        self.assertEqual((list(made.times), made.values[0].tolist()), ([86390, 86410], [15, 10]))
        self.assertEqual(made.left, {"day: not of the format %d.%m.%Y": 1})
        excels = table("46083,0.25,1", header="day,clock,d")
        self.assertEqual(list(prepare(excels, "clock", date="day", date_format="excel", format="excel", begin="day").times), [21600])
        numbers = table("2026-03-02,805", "2026-03-02,1430", header="day,clock")
        self.assertEqual(list(prepare(numbers, "clock", date="day", format="hmm").times), [300, 23400])
        # A date may include a midnight.
        self.assertEqual(list(prepare(table("2026-03-02 00:00:00,8:05", header="day,clock"), "clock", date="day").times), [300])

    def test_times_with_and_without_am_and_pm(self):
        """If some have it, one without it may be in either half of the day, unless no 12-hour clock shows it."""
        self.assertEqual(times("1:30 PM", "13:40", "0:10", "11:00 am", begin="day"), [600, 39600, 48600, 49200])
        self.assertEqual(times("1:30", "13:40", begin="day"), [5400, 49200])
        for one in "1:30", "12:05", "8:00:07":
            with self.assertRaisesRegex(ValueError, "some times have AM or PM, but others .* don't: --format '%I:%M %p' leaves those out"):
                times("1:30 PM", "2:30 pm", one)
        self.assertEqual(times("1:30 PM", "1:45", "2:30 pm", format="%I:%M %p"), [0, 3600])

    def test_a_day_in_three_columns(self):
        """By their names, in any order; 5 is five minutes past midnight, and 2400 the midnight at the end of the day."""
        head, given = "DAY_OF_MONTH,YEAR,DEP,MONTH", {"day": ["YEAR", "MONTH", "DAY_OF_MONTH"], "begin": "day"}
        rows = table("30,2015,5,06", "30,2015,2359,6", "30,2015,2400,6", "01,2015,0,7", " 1 ,2015, 1430 ,7", header=head)
        made = prepare(rows, "DEP", format="hmm", **given)
        self.assertEqual((list(made.times), made.left, made.zero), ([300, 86340, 86400, 86400, 138600], {}, "2015-06-30T00:00:00"))
        # Times that show their format; February of a leap year has 29 days.
        for texts in ("0:05", "8:05", "24:00"), ("00:05:00", "08:05:00", "24:00:00"):
            rows = table(f"28,2016,{texts[0]},2", f"29,2016,{texts[1]},2", f"29,2016,{texts[2]},2", header=head)
            made = prepare(rows, "DEP", **given)
            self.assertEqual((list(made.times), made.left), ([300, 86400 + 29100, 2 * 86400], {}))
        # Days of a spreadsheet: a quarter of one. A day on which clocks are set forward has 23 hours, and the skipped hour doesn't occur.
        self.assertEqual(list(prepare(table("2,2026,0.25,3", header=head), "DEP", format="excel", **given).times), [21600])
        rows = table("29,2026,300,3", "29,2026,2400,3", "29,2026,230,3", header=head)
        made = prepare(rows, "DEP", format="hmm", zone="Europe/Berlin", **given)
        self.assertEqual((list(made.times), made.left), ([7200, 82800], {"DEP: in the hour that is skipped on 2026-03-29 in Europe/Berlin": 1}))
        # What ends after midnight.
        rows = table("31,2015,2350,12,110", header=f"{head},ARR")
        self.assertEqual(prepare(rows, "DEP", format="hmm", end=["ARR=fly"], tick="1min", **given).values[0].tolist(), [80])

    def test_days_and_times_that_there_are_not(self):
        """Each is a row that is left out, counted by its reason, and reported with its row, its column and its value."""
        rows = ["2015,4,30,5", "2015,13,1,5", "2015,0,1,5", "2015,4,31,5", "2015,2,29,5", "2015,4,32,5", "2015,4,0,5", "15,4,1,5", "x,4,1,5"]
        rows += ["2015,,1,5", "2015,4,30.0,5", "2015,4,1,1260", "2015,4,1,2401", "2015,4,1,", "2015,4,1,-5", "2015,31,4,5"]
        out = io.StringIO()
        made = prepare(table(*rows, header="Y,M,D,DEP"), "DEP", day=["Y", "M", "D"], format="hmm", left_out=out)
        self.assertEqual((len(made), made.zero, list(made.times)), (1, "2015-04-30T00:00:00", [300]))
        one = {"M is empty": "row 11", "DEP is empty": "row 15", "DEP: not a number of the form hmm": "row 16, '-5'"}
        more = {
            "M: not a month from 1 to 12": (3, "row 3, '13'"),
            "D: not a day from 1 to 31": (3, "row 7, '32'"),
            "D: not a day of its month": (2, "row 5, '31'"),
            "Y: not a year of four digits": (2, "row 9, '15'"),
            "DEP: not a time of day": (2, "row 13, '1260'"),
        }
        self.assertEqual(made.left, {**{why: count for why, (count, _) in more.items()}, **dict.fromkeys(one, 1)})
        for why, where in one.items():
            self.assertIn(f"1 row: {why} ({where})", made.told)
        for why, (count, where) in more.items():
            self.assertIn(f"{count} rows: {why}; the first is {where}", made.told)
        written = out.getvalue().splitlines()
        self.assertEqual(written[0], "row,reason,Y,M,D,DEP")
        self.assertEqual((written[1], written[-1]), ("3,M: not a month from 1 to 12,2015,13,1,5", "17,M: not a month from 1 to 12,2015,31,4,5"))
        with self.assertRaisesRegex(ValueError, "no rows are left; 1 row: D: not a year of four digits \\(row 2, '4'\\)"):
            prepare(table("4,5,2015,5", header="D,M,Y,DEP"), "DEP", day=["D", "M", "Y"], format="hmm")

    def test_a_date_with_a_time(self):
        rows = table("2026-03-02 00:00:00,8:05", "2026-03-02 00:05:00,8:05", header="day,clock")
        self.assertEqual(prepare(rows, "clock", date="day").left, {"day: a date with a time": 1})

    def test_ticks(self):
        made = prepare(table("8:00:00.250,a,0.26", "8:00:01.999,a,1.04"), "when", tick="100ms", demand=["long=d"])
        self.assertEqual((list(made.times), made.values[0].tolist()), ([2, 19], [3, 10]))
        self.assertIn("2 times between two ticks, rounded down", made.told)
        self.assertIn("d: 2 different values between two ticks, rounded to the nearest", made.told)
        self.assertIn("# a tick is 100ms\n", made.first_lines())
        plain = prepare(table("5,a,7", "3,a,1"), "when", format="ticks", tick="1min", demand=["long=d:ticks"])
        self.assertEqual((list(plain.rows()), plain.zero), ([("jobs", 3, 1), ("jobs", 5, 7)], None))
        self.assertEqual(list(prepare(table(f"{2**60},a,1"), "when", format="ticks").times), [2**60])

    def test_time_0(self):
        days = ("2026-03-01T08:30", 86400), ("2026-03-02T08:00+01:00", 1800)
        for begin, ticks in ("hour", 1800), ("day", 30600), ("first", 0), ("8:15", 900), *days:
            zone = "Europe/Berlin" if "+" in begin else None
            self.assertEqual(times("2026-03-02 08:30", begin=begin, zone=zone), [ticks], begin)
        self.assertEqual(times("2026-03-02 08:30+01:00", begin="2026-03-02T08:00+01:00"), [1800])
        with self.assertRaisesRegex(ValueError, "it has an offset from UTC, but the times have none: give --zone for those"):
            times("2026-03-02 08:30", begin="2026-03-02T08:00+01:00")
        # Hours are those of the wall clock.
        self.assertEqual(times("2026-03-02T08:20+05:45", begin="hour", zone="Asia/Kathmandu"), [1200])
        self.assertEqual(times("2026-10-25 12:00", begin="day", zone="Europe/Berlin"), [13 * 3600])
        self.assertEqual(times("2026-03-02 00:30", begin="day", zone="Europe/Berlin"), [1800])
        self.assertEqual(times("2026-03-02 00:30", begin="0:15", zone="Europe/Berlin"), [900])
        made = prepare(table("2026-03-02 08:30,a,1"), "when", zone="Europe/Berlin")
        self.assertEqual(settings_in(made.first_lines()), (10**9, "2026-03-02T08:00:00+01:00", "Europe/Berlin"))
        self.assertEqual(prepare(table("2026-03-02 08:30,a,1"), "when").zero, "2026-03-02T08:00:00")
        self.assertEqual(prepare(table("2026-03-02T08:30+01:00,a,1"), "when").zero, "2026-03-02T07:00:00+00:00")
        self.assertEqual(prepare(table("1772436600,a,1"), "when", format="unix").zero, "2026-03-02T07:00:00+00:00")

    def test_days_on_which_clocks_change(self):
        self.assertEqual(times("2026-03-29 01:59:59", "2026-03-29 03:00:00", zone="Europe/Berlin"), [0, 1])
        self.assertEqual(times("2026-03-29 01:59:59", "2026-03-29 03:00:00"), [0, 3601])
        self.assertEqual(times("2026-03-28 12:00:00", "2026-03-30 12:00:00", zone="Europe/Berlin"), [0, 47 * 3600])
        autumn = "2026-10-25 02:59:59", "2026-10-25 02:00:00", "2026-10-25 03:00:00"
        for twice, ticks in ("order", [0, 1, 3601]), ("first", [0, 3599, 7200 + 3599 - 3599]), ("second", [0, 3599, 3600]):
            self.assertEqual(times(*autumn, zone="Europe/Berlin", twice=twice), ticks)
        # Each column separately, and an end after its beginning.
        rows = table("2026-10-25 02:50,2026-10-25 02:10", "2026-10-25 02:52,2026-10-25 02:58", "2026-10-25 02:01,2026-10-25 02:03", header="come,end")
        made = prepare(rows, "come", end=["end"], zone="Europe/Berlin", twice="order", tick="1min")
        self.assertEqual((list(made.times), made.values[0].tolist()), ([50, 52, 61], [20, 6, 2]))
        # A file with the newest first goes back at each row, so it is unknown which hour is meant.
        with self.assertRaisesRegex(ValueError, "row 4, .*'2026-10-25 02:05:00'.*goes back more than once there: --twice order needs rows in"):
            times("2026-10-25 02:50:00", "2026-10-25 02:20:00", "2026-10-25 02:05:00", zone="Europe/Berlin", twice="order")
        gone = prepare(table("2026-03-29 02:30,a,1", "2026-03-29 03:30,a,1"), "when", zone="Europe/Berlin")
        self.assertEqual(gone.left, {"when: in the hour that is skipped on 2026-03-29 in Europe/Berlin": 1})

    def test_offsets_go_before_the_zone(self):
        self.assertEqual(times("2026-10-25T02:59:59+02:00", "2026-10-25T02:00:00+01:00", zone="Europe/Berlin"), [0, 1])
        mixed = table("2026-03-02T08:00:00,a,1", "2026-03-02T08:00:00Z,a,1")
        with self.assertRaisesRegex(ValueError, "some times have an offset from UTC and others have none: give --zone for those"):
            prepare(mixed, "when")
        self.assertEqual(list(prepare(mixed, "when", zone="Europe/Berlin").times), [0, 3600])

    def test_ways_to_write_the_same(self):
        """A random year, in four ways: the ticks are those of datetime."""
        draw = random.Random(3)
        moments = sorted({datetime(2026, 1, 1) + timedelta(seconds=draw.randrange(31 * 10**6)) for _ in range(2000)})
        for form in "%Y-%m-%dT%H:%M:%SZ", "%a, %d %b %Y %H:%M:%S +0000", "%Y-%m-%d %H:%M:%S", "%d.%m.%Y %H:%M:%S":
            texts = [moment.strftime(form) for moment in moments]
            self.assertEqual(times(*texts), [int((moment - moments[0]).total_seconds()) for moment in moments], form)


if __name__ == "__main__":
    unittest.main()
