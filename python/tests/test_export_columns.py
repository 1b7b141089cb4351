"""The columns of an export: sums and differences under one name, columns by number, and the row that is the header."""

import unittest

from ground import Test
from test_prepare import prepare, table

from mpsim.exports.delimited import Export
from mpsim.exports.expressions import terms

HEAD = "Begin,Answered,End,Wrap,Hold (min)"


class Sums(Test):
    ROWS = table(
        "2026-03-02 08:00:00,2026-03-02 08:00:30,2026-03-02 08:02:00,15,1",
        "2026-03-02 09:00:00,2026-03-02 09:00:01,2026-03-02 09:00:01,0:00:20,0.5",
        "2026-03-02 10:00:00,,2026-03-02 10:00:09,0,0",
        "2026-03-02 11:00:00,2026-03-02 11:00:01,2026-03-02 11:00:02,3,1",
        header=HEAD,
    )

    def made(self, *demand, **options):
        made = prepare(self.ROWS, "Begin", demand=demand, decimal=".", **options)
        return [column.tolist() for column in made.values], made.left

    def test_times_and_lengths(self):
        """90 seconds of talk and 15 of wrap-up; 0 and 20; and a caller who gave up."""
        gone = {"Answered is empty": 1}
        self.assertEqual(self.made("aht=End-Answered+Wrap"), ([[105, 20, 4]], gone))
        self.assertEqual(self.made("aht=End-Answered+Wrap+Hold (min):min"), ([[165, 50, 64]], gone))
        self.assertEqual(self.made("aht = End - Answered", "Wrap=aht"), ([[105, 20, 4]], gone))
        self.assertEqual(self.made("wait=Answered-Begin"), ([[30, 1, 1]], gone))
        self.assertEqual(self.made("talk=End-Begin-Wrap"), ([[105, 9]], {"End: talk is below 0": 2}))

    def test_ends_and_demands_of_one_name(self):
        made = prepare(self.ROWS, "Begin", end=["End=aht"], answered=["Answered"], demand=["Wrap=aht"], decimal=".")
        self.assertEqual((made.header[2:], made.values[0].tolist()), (["aht"], [105, 20, 4]))
        self.assertIn("aht is the sum of 'Wrap' and 'End'", made.told)

    def test_it_is_rounded_once(self):
        rows = table("2026-03-02 08:00:00,0.4,0.4", header="at,a,b")
        self.assertEqual(prepare(rows, "at", demand=["d=a+b"]).values[0].tolist(), [1])
        self.assertEqual(prepare(rows, "at", demand=["a=d", "b=d"]).values[0].tolist(), [0])

    def test_clocks_need_units(self):
        """A length in h:mm:ss looks like a time of day."""
        rows = table("8:00:00,8:01:00,0:00:20", "23:59:50,0:00:20,0:00:20", header="at,end,wrap")
        with self.assertRaisesRegex(ValueError, r"as many times must be subtracted as are added; a service time may need its unit, e.g. Wrap:s"):
            prepare(rows, "at", demand=["d=end-at+wrap"])
        self.assertEqual(sorted(prepare(rows, "at", demand=["d=end-at+wrap:s"]).values[0].tolist()), [50, 80])

    def test_numbers_that_count_from_a_day(self):
        for form, time in ("unix", "1772438417"), ("unixms", "1772438417000"), ("excel", "46083.25"):
            rows = table(f"{time},120,20", header="at,total,hold")
            made = prepare(rows, "at", format=form, demand=["talk=total-hold"], wait=["hold"])
            self.assertEqual([column.tolist() for column in made.values], [[100], [20]], form)
        rows = table("1772438417000,1772438420000,1772438430500", header="at,begin,end")
        made = prepare(rows, "at", format="unixms", demand=["talk=end-begin"], wait=["begin"], tick="1ms")
        self.assertEqual([column.tolist() for column in made.values], [[10500], [3000]])

    def test_waits_that_look_like_times(self):
        """However the day is given: a length and a time at which the wait ended may be the same text."""
        for header, at, options, texts in (
            ("at", "14:30:00", {}, ("0:00:20", "14:30:20")),
            ("at", "1430", {"format": "hmm"}, ("20", "1431")),
            ("at", "143000", {"format": "hmmss"}, ("20", "143020")),
            ("at", "14:30:00", {"format": "gtfs"}, ("0:00:20", "14:30:20")),
            ("at", "2026-03-02 14:30:00", {}, ("0:00:20", "14:30:20")),
            ("at", "1772438417", {"format": "unix"}, ("0:00:20", "08:00:37")),
            ("day,at", "2026-03-02,14:30:00", {"date": "day"}, ("0:00:20", "14:30:20")),
            ("day,at", "2026-03-02,0.5", {"date": "day", "format": "excel", "date_format": "iso"}, ("0:00:20", "0.50023148148")),
            ("y,m,d,at", "2026,3,2,1430", {"day": ["y", "m", "d"], "format": "hmm"}, ("20", "1431")),
            ("at", "100", {"format": "ticks"}, ("20", "120")),
        ):
            for text, want in zip(texts, ("hold:s", "hold:time")):
                rows = table(f"{at},{text}", header=f"{header},hold")
                says = f"'{text}': it could be the length of the wait, or the time at which the wait ended: give its unit, --wait hold:s or "
                with self.subTest(at=at, text=text, options=options):
                    with self.assertRaisesRegex(ValueError, says):
                        prepare(rows, "at", wait=["hold"], decimal=".", **options)
                    waits = prepare(rows, "at", wait=[want], decimal=".", **options).values[0].tolist()
                    self.assertEqual(waits, [60 if text == "1431" else 20])
        # It is met after rows with numbers or without waits; numbers, texts with units and more than a day are lengths.
        for rows in ["8:00:00,20", "8:01:00,0:00:20"], ["8:00:00,"] * 200 + ["8:01:00,0:00:20"]:
            with self.assertRaisesRegex(ValueError, "'0:00:20': it could be the length"):
                prepare(table(*rows, header="at,hold"), "at", wait=["hold"], left_out_most="100%")
        rows = table("8:00:00,20", "8:00:01,PT20S", "8:00:02,25:00:00", "8:00:03,24:30:00", header="at,hold")
        self.assertEqual(prepare(rows, "at", wait=["hold"]).values[0].tolist(), [20, 20, 90000, 88200])

    def test_differences_that_look_like_times(self):
        """They are the same for lengths and for times of day, but around midnight and in h:mm."""
        says = "the columns of d could have times of day or lengths: give each its unit, such as --demand b:time or --demand b:s"
        for header, day, options in ("at", "", {}), ("day,at", "2026-03-02,", {"date": "day"}), ("at", "2026-03-02 ", {}):
            for rows, demand, want in (
                (["14:30:00,14:31:00,14:32:10"], "d=b-a", [70]),
                (["23:50:00,23:55:00,0:05:00"], "d=b:time-a:time", [600]),
                (["0:00:30,0:00:20,0:01:00"], "d=b:s-a:s", [40]),
                (["0:00:30,0:00:20,0:01:00"], "d=b-a", None),
                (["14:30,14:31,14:32"], "d=b-a", None),
                (["14:30,0:31,3:32"], "d=b-a", None),
                (["14:30,14:31,14:32"], "d=b:time-a:time", [60]),
                (["14:30,0:31,3:32"], "d=b:m:ss-a:m:ss", [181]),
            ):
                table_of = table(*(day + row for row in rows), header=f"{header},a,b")
                with self.subTest(day=day, rows=rows, demand=demand):
                    if want is None:
                        with self.assertRaisesRegex(ValueError, says):
                            prepare(table_of, "at", demand=[demand], **options)
                    else:
                        self.assertEqual(prepare(table_of, "at", demand=[demand], **options).values[0].tolist(), want)
        # A column of --time is a time, and so is what it is subtracted from.
        self.assertEqual(prepare(table("23:59:50,0:00:20", header="at,b"), "at", demand=["d=b-at"]).values[0].tolist(), [30])

    def test_names_with_signs(self):
        """The longest name counts, as it stands in the header."""
        export = Export(b"After-call work,After,call work,a+b,a,b\n1,2,3,4,5,6\n")
        for word, found in (
            ("x=After-call work", [(1, 0, None)]),
            ("x=After - call work:min", [(1, 1, None), (-1, 2, "min")]),
            ("x=a+b-a", [(1, 3, None), (-1, 4, None)]),
            ("x=a + b", [(1, 4, None), (1, 5, None)]),
            ("x=#5+#6:h", [(1, 4, None), (1, 5, "h")]),
        ):
            self.assertEqual(terms(word, export), ("x", found))
        for bad in "x", "x=", "x=y", "x=a+", "x=a+y", "X=a+b", "x=a*b", "x=+a":
            self.assertIsNone(terms(bad, export))

    def test_empty_terms(self):
        """A value that is given for empty fields has the sign of its term."""
        rows = table("2026-03-02 08:00,100,5,7", "2026-03-02 08:01,100,,7", "2026-03-02 08:02,,5,", header="when,talk,hold,wrap")
        made = prepare(rows, "when", demand=["d=talk-hold+wrap"], empty="30s")
        self.assertEqual((made.values[0].tolist(), made.left), ([102, 77, 55], {}))

    def test_what_is_wrong(self):
        for demand, says in (
            ("x=End-Nothing", "no column 'x'; it has 'Begin'"),
            ("x=End+Answered", "as many times must be subtracted as are added"),
            ("time=End-Answered", "the column's name 'time' is reserved"),
        ):
            with self.assertRaisesRegex(ValueError, says):
                self.made(demand)


class Columns(Test):
    def test_by_number(self):
        rows = table("2026-03-02 08:00,x,5,7", header="when,when,long,long")
        made = prepare(rows, "#1", demand=["#4=d", "#3=e:min"])
        self.assertEqual(list(made.rows()), [("jobs", 0, 7, 300)])
        with self.assertRaisesRegex(ValueError, "two columns are called 'when': write #1 or #2"):
            prepare(rows, "when")
        for bad in "#0", "#5", "#x":
            with self.assertRaisesRegex(ValueError, f"no column '{bad}'"):
                prepare(rows, bad)
        twice = table("2026-03-02 08:00,a,5", "2026-03-02 08:01,b,0", header="when,q,q")
        made = prepare(twice, "when", source="#2", constant=["d=1s"], where=["#3>0"])
        self.assertEqual(list(made.rows()), [("a", 0, 1)])
        with self.assertRaisesRegex(ValueError, "no column '#4'"):
            prepare(table("2026-03-02 08:00,a", header="when,q"), "when", source="#4")
        # A column of that name comes first.
        self.assertEqual(list(prepare(table("8:00,8:05", header="#2,b"), "#2", begin="8:00").times), [0])

    def test_the_row_that_is_the_header(self):
        rows = b"Report;;of March\nPeriod;02.03.2026;\n\nwhen;who;long;note\n02.03.2026 08:00;a;1;\n"
        with self.assertRaisesRegex(ValueError, "no column 'when'; it has 'Report', '', 'of March'; row 4 looks like the header: --skip 3"):
            prepare(rows, "when", demand=["long=d"])
        self.assertEqual(list(prepare(rows, "when", demand=["long=d"], skip=3).rows()), [("jobs", 0, 1)])


if __name__ == "__main__":
    unittest.main()
