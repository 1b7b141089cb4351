"""Exports from which a trace would be made that is silently wrong: what is refused, counted or reported, and how to say what is meant."""

import io
import unittest

from commands import InFolder, planner
from ground import Test
from test_prepare import table

from mpsim.exports.prepare import prepare
from mpsim.exports.rows import TooManyLeft
from mpsim.times.calendar import Calendar, settings_in
from mpsim.times.formats import found_format
from mpsim.times.lengths import Lengths

DAYS = [f"2026-03-{day:02} 08:{minute:02}:00,a,{minute}" for day in range(2, 12) for minute in range(5)]


class Far(Test):
    def test_a_time_far_from_the_rest(self):
        """An empty date of a spreadsheet or of .NET, the end of all days, and a slip of the pen."""
        for far, zone, says in (
            ("1900-01-01 00:00:00", None, "row 2: 1900-01-01T00:00:00: its record lies 46,081 days before the rest, which span 9 days"),
            ("1900-01-01 00:00:00", "Europe/Berlin", r"row 2: 1900-01-01T00:00:00\+01:00: its record lies 46,081 days before the rest"),
            ("1970-01-01 00:00:00", None, "20,514 days before .*: leave out such rows with --from 2026-03-02, or keep them with --far"),
            ("2062-03-02 00:00:00", None, "row 2: .* days after the rest, which span 9 days: leave out such rows with --until 2026-03-12"),
            ("2026-11-02 08:00:00", None, "235 days after the rest, which span 9 days"),
        ):
            for rows in [f"{far},a,1", *DAYS], [f"{far},a,1", f"{far},a,2", *DAYS]:
                two = says.replace("its record lies", "the first 2 records lie")
                with self.subTest(far), self.assertRaisesRegex(ValueError, says if len(rows) == 51 else two):
                    prepare(table(*rows), "when", zone=zone)
            self.assertEqual(len(prepare(table(f"{far},a,1", *DAYS), "when", zone=zone, far=True)), 51)
            self.assertEqual(len(prepare(table(f"{far},a,1", *DAYS), "when", zone=zone, begins="2026-03-02", until="2026-03-12")), 50)

    def test_its_row(self):
        """Rows before it were left out, excluded or empty."""
        rows = [DAYS[0], "x,a,1", "", *DAYS[1:40], "2026-03-10 08:00:00,b,1", "2036-03-10 08:00:00,a,1", *DAYS[40:]]
        with self.assertRaisesRegex(ValueError, "row 45: 2036-03-10"):
            prepare(table(*rows), "when", where=["who=a"])

    def test_more_than_five_percent_ten_years_away(self):
        """An empty date of a system is never the time of a job, however often it occurs, and however few rows there are."""
        for count, good in (1, DAYS[:1]), (1, DAYS[:2]), (20, DAYS), (60, DAYS), (1, DAYS[:3]):
            rows = ["1900-01-01 00:00:00,a,1"] * count + good
            says = "row 2: 1900-01-01T00:00:00: " if count <= len(good) else "row 62: 2026-03-02T08:00:00: the first|after the rest"
            with self.subTest(count), self.assertRaisesRegex(ValueError, says):
                prepare(table(*rows), "when")
            self.assertEqual(len(prepare(table(*rows), "when", far=True)), len(rows))
            self.assertEqual(len(prepare(table(*rows), "when", begins="2026-03-02")), len(good))
        twice = [item.replace("2026", "2017") for item in DAYS] + DAYS
        self.assertEqual(len(prepare(table(*twice), "when")), 100)

    def test_what_is_not_far(self):
        """Two weeks over Christmas; the same days of two months; a gap that is shorter than the rest; a clock without a day; ticks."""
        year = [f"2026-{month:02}-01 08:00,a,1" for month in range(1, 8)] + ["2026-11-01 08:00,a,1"]
        self.assertEqual(len(prepare(table(*year), "when")), 8)
        holidays = ["2025-12-23 08:00,a,1", "2025-12-23 08:01,a,1", "2026-01-07 08:00,a,1"]
        for rows in holidays, DAYS + [item.replace("-03-", "-11-") for item in DAYS]:
            self.assertEqual(len(prepare(table(*rows), "when")), len(rows))
        self.assertEqual(len(prepare(table("0,a,1", "5,a,1", "6,a,1", "99999999999,a,1"), "when", format="ticks")), 4)


class Years(Test):
    def test_years_of_two_digits(self):
        for texts, forms in (
            (["3/2/26 8:00 AM", "3/14/26 8:01 AM"], "the format may be '%m/%d/%y %I:%M %p'"),
            (["3/2/26 8:00 AM", "14/3/26 8:01 AM"], "the format may be '%d/%m/%y %I:%M %p'"),
            (["3/2/26 8:00", "4/2/26 8:01"], "the format may be '%d/%m/%y %H:%M' or '%m/%d/%y %H:%M'"),
            (["26-03-14 8:00", "26-11-15 8:01", "26-13-01 8:00"], "the format may be '%y-%m-%d %H:%M'"),
            (["02.03.26 08:00"], "the format may be '%d.%m.%y %H:%M'"),
        ):
            with self.assertRaises(ValueError) as caught:
                found_format(texts)
            self.assertEqual(str(caught.exception), f"{texts[0]!r} has a two-digit year: {forms}")


class LeftOut(InFolder):
    def test_more_than_five_percent(self):
        good = ["2026-03-02 08:00:00,a,1"] * 95
        self.assertEqual(len(prepare(table(*good, *["x,a,1"] * 5), "when")), 95)
        with self.assertRaisesRegex(
            TooManyLeft,
            "6 of 101 rows would be left out, more than 5 percent: to allow it, give --left-out-most 6%; "
            "3 rows: when is empty; the first is row 97; 2 rows: when: not an ISO 8601 time; the first is row 100, 'x'; 1 row: the number of fields",
        ):
            prepare(table(*good, ",a,1", ",a,1", ",a,1", "x,a,1", "y,a,1", "2026-03-02"), "when")
        self.assertEqual(len(prepare(table(*good, *["x,a,1"] * 6), "when", left_out_most="6%")), 95)

    def test_the_status(self):
        """It is a status of its own, and nothing is written."""
        export = self.file("most.csv", table(*["x,a,1"] * 999, "2026-03-02 08:00,a,1").decode())
        words = "prepare", export, "--time", "when", "--format", "iso", "--out", self.folder / "trace.csv"
        status, out, err = planner(*words)
        self.assertEqual((status, out, err.count("\n")), (13, "", 1))
        self.assertIn("999 of 1,000 rows would be left out, more than 5 percent: to allow it, give --left-out-most 100%; 999 rows: when: not", err)
        self.assertFalse((self.folder / "trace.csv").exists())
        self.assertEqual(planner(*words, "--left-out-most", "99.9%")[0], 0)
        for bad in "101%", "x", "-1":
            status, _, err = planner(*words, f"--left-out-most={bad}")
            self.assertEqual((status, err.partition(": --")[2]), (1, f"left-out-most {bad}: expected a percentage from 0% to 100%\n"))


class Duplicates(Test):
    def test_rows_that_occur_twice(self):
        rows = "8:00,a,1", "8:01,b,2", "8:00,a,1", "8:00,a,7", "8:01,b,2", "8:00,a,1"
        says = "3 rows that repeat an earlier row, field by field (the first is row 4)"
        made = prepare(table(*rows), "when", source="who")
        self.assertEqual((len(made), made.warned[0]), (6, f"{says}: kept; --duplicates drop leaves them out"))
        made = prepare(table(*rows), "when", source="who", duplicates="keep")
        self.assertEqual((len(made), f"{says}: kept" in made.told, len(made.warned)), (6, True, 1))
        made = prepare(table(*rows), "when", source="who", demand=["long=d"], duplicates="drop", begin="first")
        self.assertEqual((list(made.rows()), f"{says}: dropped" in made.told), ([("a", 0, 1), ("a", 0, 7), ("b", 60, 2)], True))
        # A field that no column of the trace has tells rows apart.
        made = prepare(table("8:00,a,1", "8:00,a,2"), "when", source="who", duplicates="drop")
        self.assertEqual((len(made), any("repeat" in item for item in made.told + made.warned)), (2, False))

    def test_among_many(self):
        rows = [f"2026-03-02 {8 + at // 3600:02}:{at // 60 % 60:02}:{at % 60:02},a,{at % 7}" for at in range(5000)]
        made = prepare(table(*rows, *rows[100:110]), "when", demand=["long=d"], duplicates="drop")
        self.assertEqual((list(made.times), made.values[0].tolist()), (list(range(5000)), [at % 7 for at in range(5000)]))


class Zeros(Test):
    def test_services_of_0(self):
        made = prepare(table("8:00,a,0:00:00", "8:00,b,0:00:05", "8:01,c,0"), "when", demand=["long=d"], decimal=".")
        says = "d: 2 services of 0 ticks: --where 'long>0' leaves them out, --abandoned 'long<=0' keeps them as jobs that gave up"
        self.assertIn(says, made.told)
        made = prepare(table("8:00,a,0:00:00", "8:00,b,0:00:05", "8:01,c,0"), "when", demand=["long=d"], where=["long>0"])
        self.assertEqual((made.values[0].tolist(), any("services" in item for item in made.told)), ([5], False))
        self.assertIn("2 rows excluded by --where, --from or --until", made.told)
        self.assertIn("d: 1 service of 0 ticks", prepare(table("8:00,8:00", "8:00,8:01", header="when,end"), "when", end=["end=d"]).told)


class LongServices(Test):
    def test_an_empty_date_within_a_sum(self):
        rows = "2026-03-02 08:00,1900-01-01 00:00,2026-03-02 08:05,1", "2026-03-02 08:00,2026-03-02 08:01,2026-03-02 08:05,1"
        for demand in "talk=End-Answered", "talk=End-Answered+Wrap":
            made = prepare(table(*rows, header="Start,Answered,End,Wrap"), "Start", demand=[demand])
            self.assertIn("talk: 1 service longer than 12 hours", made.warned)


class HoursThatOccurTwice(Test):
    """In Berlin on 25 October 2026 the hour from 2:00 occurs twice."""

    def made(self, *rows, twice="first", **options):
        rows = [row.replace("@", "2026-10-25 0") for row in rows]
        return prepare(table(*rows, header="when,end"), "when", end=["end=d"], zone="Europe/Berlin", twice=twice, begin="2026-10-25", **options)

    def test_a_service_with_two_lengths(self):
        """By the first hour it is 73 minutes long, by the second 13."""
        says = "row 2, column 'end': '2026-10-25 03:08': the service is 780 or 4380 ticks long, since an hour occurs twice: give --twice order"
        with self.assertRaisesRegex(ValueError, says):
            self.made("@2:55,@3:08")
        self.assertEqual(self.made("@2:55,@3:08", twice="second").values[0].tolist(), [780])
        # Those of one length in either hour, or that fit only one.
        for twice in "first", "second":
            made = self.made("@1:50,@1:59", "@2:10,@2:20", "@4:00,@6:00", "@1:00,@4:00", twice=twice)
            self.assertEqual(made.values[0].tolist(), [4 * 3600, 540, 600, 7200])
        self.assertEqual(self.made("@2:50,@2:10").values[0].tolist(), [1200])

    def test_rows_in_order_of_their_ends(self):
        """As a telephone system writes them: when a call ends."""
        rows = "@1:50,@2:05", "@2:20,@2:30", "@2:05,@2:35", "@2:40,@2:59", "@2:55,@2:01", "@2:03,@2:08", "@2:58,@2:10", "@2:30,@3:08", "@2:55,@3:10"
        made = self.made(*rows, twice="order", tick="1min")
        arrivals = [110, 125, 140, 160, 175, 178, 183, 210, 235]
        self.assertEqual((list(made.times), made.values[0].tolist()), (arrivals, [15, 30, 10, 19, 6, 12, 5, 38, 15]))
        self.assertIn("rows are in order of 'end'", made.told)

    def sums(self, *rows, demand="d=end-answer", **options):
        rows = [row.replace("@", "2026-10-25 0") for row in rows]
        options = {"twice": "first", "zone": "Europe/Berlin", "begin": "2026-10-25", "tick": "1min", **options}
        return prepare(table(*rows, header="when,answer,end,wrap"), "when", demand=[demand], **options)

    def test_a_sum_with_two_lengths(self):
        says = "row 2, column 'end': '2026-10-25 03:08': its times span 12 or 72 ticks, since an hour occurs twice: give --twice order"
        for demand in "d=end-answer", "d=end-answer+wrap:min":
            with self.assertRaisesRegex(ValueError, says):
                self.sums("@2:55,@2:56,@3:08,1", demand=demand)
            self.assertEqual(self.sums("@2:55,@2:56,@3:08,0", demand=demand, twice="second").values[0].tolist(), [12])
        # One length: in one of the hours, around both, and from the first to the second.
        for twice in "first", "second":
            rows = "@1:50,@1:51,@1:59,0", "@2:10,@2:11,@2:20,0", "@4:00,@4:01,@6:00,0", "@1:00,@1:01,@4:00,0"
            self.assertEqual(self.sums(*rows, twice=twice).values[0].tolist(), [239, 8, 9, 119])
        for twice in "first", "second", "order":
            self.assertEqual(self.sums("@2:00,@2:05,@2:45,0", twice=twice).values[0].tolist(), [40])
        self.assertEqual(self.sums("@2:30,@2:35,@3:10,0", twice="second").values[0].tolist(), [35])
        self.assertEqual(self.sums("@2:00,@2:50,@2:10,0", "@2:50,@2:55,@2:05,0", "@2:50,@2:05,@2:15,0").values[0].tolist(), [20, 10, 10])

    def test_a_sum_with_rows_in_order_of_their_ends(self):
        rows = "@1:50,@1:55,@2:05,0", "@2:20,@2:21,@2:30,0", "@2:05,@2:07,@2:35,0", "@2:55,@2:58,@2:01,0"
        rows += "@2:58,@2:05,@2:10,0", "@2:55,@2:56,@3:10,0"
        made = self.sums(*rows, twice="order")
        self.assertEqual((list(made.times), made.values[0].tolist()), ([110, 125, 140, 175, 178, 235], [10, 28, 9, 3, 5, 14]))
        self.assertIn("rows are in order of 'end'", made.told)

    def test_rows_in_order_of_their_arrivals(self):
        rows = "@1:50,@2:05", "@2:20,@2:50", "@2:25,@2:30", "@2:55,@2:05", "@2:01,@2:03", "@2:30,@3:01"
        made = self.made(*rows, twice="order", tick="1min")
        self.assertEqual((list(made.times), made.values[0].tolist()), ([110, 140, 145, 175, 181, 210], [15, 30, 5, 10, 2, 31]))

    def test_rows_in_order_of_both(self):
        """Then the arrivals say which hour it is: they don't go back, so it is the first."""
        made = self.made("@1:50,@1:55", "@2:30,@3:05", twice="order", tick="1min")
        self.assertEqual((list(made.times), made.values[0].tolist()), ([110, 150], [5, 95]))
        self.assertNotIn("rows are in order of 'end'", made.told)


class Nanoseconds(Test):
    def test_packets(self):
        """Frames of 64 and 1518 bytes at 10 Gb/s take 51.2 and 1214.4 ns."""
        rows = table("1772438417.123456789,64", "1772438417.123456791,1518", "1772438418,0", header="at,bytes")
        made = prepare(rows, "at", format="unix", demand=["bytes=length:bytes@10Gbps"], tick="1ns", begin="first")
        self.assertEqual([list(row) for row in made.rows()], [["jobs", 0, 51], ["jobs", 2, 1214], ["jobs", 876543211, 0]])
        self.assertEqual(made.first_lines().splitlines()[1], "# a tick is 1ns, time 0 is 2026-03-02T08:00:17.123456789+00:00")
        self.assertEqual(settings_in(made.first_lines())[:2], (1, "2026-03-02T08:00:17.123456789+00:00"))
        self.assertEqual(Calendar(1, "2026-03-02T08:00:17.123456789").wall(1) % 10**9, 123456790)
        made = prepare(rows.replace(b"3456789", b"3456007").replace(b"3456791", b"3456008"), "at", format="unix", tick="1ns", begin="first")
        self.assertEqual(settings_in(made.first_lines())[:2], (1, "2026-03-02T08:00:17.123456007+00:00"))
        iso = table("2026-03-02T08:00:17.123456789Z,1", "2026-03-02T08:00:17.123456791Z,1", header="at,bytes")
        self.assertEqual(list(prepare(iso, "at", tick="1ns", begin="first").times), [0, 2])

    def test_rates(self):
        for unit, text, ticks in (
            ("bytes@10Gbps", "1250000000", 10**9),
            ("bits@1bps", "3", 3 * 10**9),
            ("bytes@2.5Gbps", "1", 3),
            ("bytes@1.544Mbps", "193", 10**6),
            ("bits@3Mbps", "1", 333),
            ("bytes@1Tbps", "9,000", 72),
        ):
            self.assertEqual(Lengths(unit, ".", 1).ticks[text], ticks, unit)
        for bad in "bytes@0bps", "bytes@Gbps", "bytes@10", "furlongs@1bps", "bytes@10gbps":
            with self.assertRaisesRegex(ValueError, f"unknown unit '{bad}': it is one of .*, or data at a rate such as bytes@10Gbps"):
                Lengths(bad, ".", 1)


class Conditions(Test):
    ROWS = table("2026-03-02 08:00,in,1.5", "2026-03-02 09:00,out,20", "2026-03-03 08:00,Inbound,", "2026-03-04 08:00,in,0:00:03")

    def found(self, *where, **options):
        made = prepare(self.ROWS, "when", where=where, begin="2026-03-02", tick="1h", code=["who=kind"], **options)
        return list(made.times), list(made.codes["kind"])

    def test_where(self):
        for where, times, words in (
            (["who=in"], [8, 56], ["in"]),
            (["who != in"], [9, 32], ["out", "Inbound"]),
            (["who~IN"], [8, 32, 56], ["in", "Inbound"]),
            (["long="], [32], ["Inbound"]),
            (["long!="], [8, 9, 56], ["in", "out"]),
            (["long>1.5"], [9, 56], ["out", "in"]),
            (["long>=1.5"], [8, 9, 56], ["in", "out"]),
            (["long<=0:00:03"], [8, 56], ["in"]),
            (["long<20", "who=in", "long<3"], [8], ["in"]),
        ):
            with self.subTest(where):
                self.assertEqual(self.found(*where), (times, words))
        for bad, says in (
            ("what=in", "--where what=in: expected COLUMN, one of !=, <=, >=, <, >, =, ~, and a value; the columns are 'when', 'who', 'long'"),
            ("who", "--where who: expected COLUMN"),
            ("long>x", "--where long>x: not a number with a decimal point"),
            ("long>", "--where long>: expected a number"),
            ("who=x", "no rows are left; 4 rows excluded by --where, --from or --until"),
        ):
            with self.subTest(bad), self.assertRaisesRegex(ValueError, says):
                self.found(bad)
        # A field that should be a number and isn't is a row that is left out.
        made = prepare(table("8:00,x,1", "8:01,7,1"), "when", where=["who>3"], left_out_most="50%")
        self.assertEqual((len(made), made.left), (1, {"who: not a number with a decimal point": 1}))

    def test_between_two_times(self):
        for options, times in (
            ({"begins": "2026-03-03"}, [32, 56]),
            ({"until": "2026-03-03"}, [8, 9]),
            ({"begins": "2026-03-02T09:00", "until": "2026-03-04 08:00"}, [9, 32]),
            ({"begins": "2026-03-04T09:00+01:00", "zone": "Asia/Kolkata", "until": "2026-04-01"}, []),
        ):
            with self.subTest(options):
                if times:
                    self.assertEqual(self.found(**options)[0], times)
                else:
                    with self.assertRaisesRegex(ValueError, "no rows are left; 4 rows excluded"):
                        self.found(**options)
        self.assertEqual(len(prepare(table("8:00,a,1", "9:00,a,1"), "when", begins="8:30")), 1)
        for option in "begins", "until":
            with self.assertRaisesRegex(ValueError, "--(from|until) x: not an ISO 8601 time"):
                self.found(**{option: "x"})
            with self.assertRaisesRegex(ValueError, "it can't be used with times in ticks"):
                prepare(table("5,a,1"), "when", format="ticks", **{option: "5"})

    def test_rows_that_are_excluded_are_not_judged(self):
        """A row that can't be read, of a kind that isn't asked for, isn't one that is left out."""
        out = io.StringIO()
        made = prepare(table("8:00,in,1", "x,out,2", "8:01,in,3"), "when", where=["who=in"], left_out=out)
        self.assertEqual((len(made), made.left, out.getvalue().count("\n")), (2, {}, 1))


if __name__ == "__main__":
    unittest.main()
