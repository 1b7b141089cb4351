"""Texts of times, lengths and numbers, each separately: against `datetime` and `email.utils`, and against figures worked out by hand."""

import random
import unittest
from datetime import datetime, timedelta, timezone
from email.utils import format_datetime

from ground import Test

from mpsim.names import is_name, name_for
from mpsim.times.formats import found_format, judged_format, looks_like_clocks
from mpsim.times.lengths import Lengths, found_decimal
from mpsim.times.moments import Moments
from mpsim.times.texts import Asks, Unread, clock, excel, hmm, hmmss, iso, length
from mpsim.times.zones import Zone

SECOND = 10**9
EPOCH = datetime(1970, 1, 1, tzinfo=timezone.utc)


def utc(*moment):
    """Returns the nanoseconds from 1970 to a moment in UTC."""
    return (datetime(*moment, tzinfo=timezone.utc) - EPOCH) // timedelta(microseconds=1) * 1000


class Clocks(Test):
    def seconds(self, read, *texts):
        return [read(text) / SECOND for text in texts]

    def test_clock(self):
        texts = "8:05", "08:05:09", "12:00 AM", "12:30 pm", "1:30 p.m.", "24:00", "23:59:60", "8:00:00.250", "8:00:00,5"
        self.assertEqual(self.seconds(clock, *texts), [29100, 29109, 0, 45000, 48600, 86400, 86400, 28800.25, 28800.5])
        for bad in "8:60", "25:00", "24:01", "13:00 PM", "0:30 AM", "8", "8:5", "8:00:61", "8:00:00.", "", "٨:٠٥":
            with self.subTest(bad), self.assertRaises(Unread):
                clock(bad)

    def test_formats_of_clocks(self):
        """A text may lack the seconds or the fraction that a format has, but it may have nothing that the format lacks."""
        forms = "%H:%M", "%H:%M:%S", "%H:%M:%S.%f", "%I:%M %p", "%I:%M:%S %p"
        for text, seconds, read in (
            ("8:05", 29100, forms[:3]),
            ("08:05:09", 29109, forms[1:3]),
            ("08:05:09.5", 29109.5, forms[2:3]),
            ("8:05 PM", 72300, forms[3:]),
            ("8:05:09 p.m.", 72309, forms[4:]),
            ("8:05:09.5 PM", 72309.5, ()),
        ):
            for form in forms:
                for prefix, day in ("", 0), ("%d.%m.%Y ", utc(2026, 3, 2)):
                    how, given = Moments(prefix + form, Zone()), prefix and "02.03.2026 "
                    with self.subTest(text=text, form=form):
                        if form in read:
                            self.assertEqual(how.of(given + text), day + seconds * SECOND)
                        else:
                            says = "without AM or PM" if "%p" in form and "m" not in text.lower() else f"not of the format {form}"
                            with self.assertRaisesRegex(Unread, says):
                                how.of(given + text)

    def test_numbers(self):
        self.assertEqual(self.seconds(hmm, "5", "805", "0805", "1430", "2400", " 0 "), [300, 29100, 29100, 52200, 86400, 0])
        self.assertEqual(self.seconds(hmmss, "5", "130", "80509", "143005"), [5, 90, 29109, 52205])
        for read, bad in (hmm, "860"), (hmm, "80509"), (hmm, "2401"), (hmm, "8:05"), (hmm, ""), (hmm, "-5"), (hmmss, "9960"), (hmmss, "1430050"):
            with self.subTest(bad), self.assertRaises(Unread):
                read(bad)

    def test_spreadsheet(self):
        # Day 46083 of a spreadsheet is March 2, 2026, and day 61 March 1, 1900.
        days = ("46083", (2026, 3, 2)), ("46083,25", (2026, 3, 2, 6)), ("46083.2501157407", (2026, 3, 2, 6, 0, 10)), ("61", (1900, 3, 1))
        for text, moment in days:
            self.assertEqual(Moments("excel", Zone()).of(text), utc(*moment))
        self.assertEqual(excel("0.25"), 6 * 3600 * SECOND)
        for bad in "x", "", "-1", "1e3", "12345678":
            with self.assertRaises(Unread):
                excel(bad)

    def test_length(self):
        texts = "1s", "100ms", "1min", "0.5s", "2 h", "7us", "1d", "1.5sec"
        self.assertEqual(
            [length(text) for text in texts], [10**9, 10**8, 6 * 10**10, 5 * 10**8, 72 * 10**11, 7000, 864 * 10**11, 15 * 10**8]
        )
        for bad in "1", "s", "1 x", "-1s", "0.5ns", "1,5s", "":
            with self.subTest(bad), self.assertRaises(ValueError):
                length(bad)


class Moment(Test):
    """Random moments, written by datetime in each way, and read back."""

    def setUp(self):
        super().setUp()
        draw = random.Random(5)
        self.moments = [datetime(1999, 1, 1) + timedelta(seconds=draw.randrange(10**9), microseconds=draw.randrange(10**6)) for _ in range(300)]

    def reads(self, form, texts, moments):
        how = Moments(form, Zone())
        self.assertEqual([how.of(f" {text} ") for text in texts], [utc(*moment.timetuple()[:6], moment.microsecond) for moment in moments], texts[0])

    def test_iso(self):
        zones = [timezone(timedelta(minutes=item)) for item in (0, 60, -300, 345, -570)]
        here = [it.replace(tzinfo=zones[at % 5]) for at, it in enumerate(self.moments)]
        there = [item.astimezone(timezone.utc) for item in here]
        self.reads("iso", [item.isoformat() for item in here], there)
        self.reads("iso", [item.isoformat(" ") for item in here], there)
        self.reads("iso", [item.strftime("%Y%m%dT%H%M%S.%f%z") for item in here], there)
        self.reads("iso", [moment.isoformat().replace(".", ",") for moment in self.moments], self.moments)
        self.reads("iso", [item.strftime("%Y-%m-%dT%H:%MZ") for item in self.moments], [it.replace(second=0, microsecond=0) for it in self.moments])
        self.reads("iso", [str(moment.date()) for moment in self.moments], [datetime(item.year, item.month, item.day) for item in self.moments])
        self.assertEqual(iso("2026-03-02T24:00+0530"), (utc(2026, 3, 3), 19800 * SECOND))
        times = "2026-03-02T25:00", "2026-03-02T08:61", "2026-03-02T08:00:75", "2026-03-02T08:00+25:00", "2026-03-02x"
        for bad in "2026-02-30", "2026-3-2", "x", *times:
            with self.subTest(bad), self.assertRaises(Unread):
                iso(bad)

    def test_rfc(self):
        plain = [moment.replace(microsecond=0) for moment in self.moments]
        zones = [timezone(timedelta(minutes=item)) for item in (60, -300, 0)]
        here = [it.replace(tzinfo=zones[at % 3]) for at, it in enumerate(plain)]
        there = [item.astimezone(timezone.utc) for item in here]
        self.reads("rfc", [format_datetime(item) for item in here], there)
        self.reads("rfc", [format_datetime(item).split(", ")[1] + " (CET)" for item in here], there)
        self.reads("rfc", [format_datetime(item.replace(tzinfo=timezone.utc), usegmt=True) for item in plain], plain)
        self.reads("rfc", [format_datetime(item)[:-5] + "EST" for item in plain], [item + timedelta(hours=5) for item in plain])
        self.reads("rfc", [format_datetime(item)[:-6] for item in plain], plain)
        how = Moments("rfc", Zone())
        # 2 March 2026 is a Monday; no RFC defines CET; the year has four digits.
        for bad in "Tue, 02 Mar 2026 %s +0100", "Mon, 02 Mar 2026 %s CET", "Mon, 02 Mar 26 %s +0100", "Mon, 30 Feb 2026 %s +0100", "Mon, 02 Mar 2026":
            bad = bad.replace("%s", "08:00:17")
            with self.subTest(bad), self.assertRaises(Unread):
                how.of(bad)

    def test_formats_of_strptime(self):
        plain = [moment.replace(microsecond=0) for moment in self.moments]
        for form in "%d.%m.%Y %H:%M:%S", "%m/%d/%Y %I:%M:%S %p", "%Y%m%d%H%M%S", "%d/%b/%Y:%H:%M:%S", "%A %d %B %Y %H.%M.%S", "%d.%m.%Y, %H:%M:%S":
            self.reads(form, [item.strftime(form) for item in plain], plain)
        self.reads("%d/%b/%Y:%H:%M:%S %z", [it.strftime("%d/%b/%Y:%H:%M:%S -0230") for it in plain], [it + timedelta(minutes=150) for it in plain])
        self.reads("%d.%m.%Y %H:%M:%S.%f", [moment.strftime("%d.%m.%Y %H:%M:%S.%f") for moment in self.moments], self.moments)

    def test_what_strptime_takes_and_is_not_meant(self):
        """With fewer digits than the format it reads another time, such as 13:05 for 135; without AM or PM the half of the day is unknown."""
        for form, good, bad in (
            ("%H%M", "0135", ["135", "5", "01350"]),
            ("%Y%m%d%H%M%S", "20260302080500", ["202603020805", "20260302"]),
            ("%Y%m%d%H%M", "202603020805", ["2026030208", "20260302135"]),
            ("%Y%m%d", "20260302", ["2026312"]),
            ("%d%m%Y %H%M", "02032026 0805", ["2032026 0805", "02032026 805"]),
            ("%m/%d/%Y %I:%M %p", "3/2/2026 1:30 pm", ["3/2/2026 1:30", "3/2/2026 13:30"]),
            ("%m/%d/%Y %I:%M:%S %p", "3/2/2026 1:30:05 P.M.", ["3/2/2026 1:30:05"]),
        ):
            how = Moments(form, Zone())
            for text in good, *bad:
                with self.subTest(form=form, text=text):
                    self.assertEqual(how.is_one(text), text == good)
        self.assertEqual(Moments("%m/%d/%Y %I:%M %p", Zone()).of("3/2/2026 1:30 pm"), utc(2026, 3, 2, 13, 30))

    def test_numbers_since_1970(self):
        plain = [moment.replace(microsecond=0) for moment in self.moments]
        self.reads("unix", [str(utc(*item.timetuple()[:6]) // SECOND) for item in plain], plain)
        self.reads("unix", [f"{utc(*moment.timetuple()[:6]) // SECOND}.{moment.microsecond:06}" for moment in self.moments], self.moments)
        self.reads("unixms", [str(utc(*item.timetuple()[:6]) // 10**6) for item in plain], plain)
        for form, bad in ("unix", "-1"), ("unix", "1."), ("unix", "x"), ("ticks", "1.5"), ("unixms", "1e3"), ("unix", "٣"):
            with self.subTest(bad), self.assertRaises(Unread):
                Moments(form, Zone()).of(bad)


class Formats(Test):
    def test_formats_are_found(self):
        moments = [datetime(2026, 3, 2, 8, 0, 17) + timedelta(seconds=7919 * number) for number in range(300)]
        forms = "%d.%m.%Y %H:%M:%S", "%d/%m/%Y %H:%M", "%m/%d/%Y %I:%M:%S %p", "%m-%d-%Y %H:%M:%S", "%Y/%m/%d %H:%M:%S", "%Y%m%d%H%M%S"
        for form in *forms, "%d.%m.%Y, %H:%M", "%d.%m.%Y", "%Y%m%d", "%d/%m/%Y, %I:%M %p", "%d.%m.%Y %H:%M:%S.%f":
            self.assertEqual(found_format([moment.strftime(form) for moment in moments]), form)
        zone = timezone(timedelta(hours=1))
        here = [moment.replace(tzinfo=zone) for moment in moments]
        for form, texts in (
            ("iso", [moment.isoformat() for moment in moments]),
            ("iso", [moment.isoformat(" ") + "Z" for moment in moments]),
            ("iso", [item.isoformat() for item in here]),
            ("iso", [moment.strftime("%Y%m%dT%H%M%S") for moment in moments]),
            ("rfc", [format_datetime(item) for item in here]),
            ("clock", [moment.strftime("%H:%M:%S") for moment in moments]),
            ("clock", [moment.strftime("%I:%M %p") for moment in moments]),
        ):
            self.assertEqual(found_format(texts), form)
        # There is no 13th month.
        for days, form in (["12/03/2026", "13/03/2026"], "%d/%m/%Y"), (["12/03/2026", "12/13/2026"], "%m/%d/%Y"), (["13.12.2026"], "%d.%m.%Y"):
            self.assertEqual(found_format(days), form)
        # One in ten may be anything.
        self.assertEqual(found_format(["2026-03-02"] * 9 + ["x"]), "iso")

    def test_options_that_are_needed(self):
        for texts, says in (
            (["03/02/2026 8:00", "04/05/2026 9:00"], "'03/02/2026 8:00' could begin with the day or with the month: the format is '%d/%m/%Y %H:%M'"),
            (["25/03/2026 8:00", "03/25/2026 8:00"], "could begin with the day or with the month"),
            (["02.03.26 08:00"], "'02.03.26 08:00' has a two-digit year: the format may be '%d.%m.%y %H:%M'"),
            (["46083.25"], "'46083.25' is a number: the format is one of ticks, unix"),
            (["1772434817"], "is a number"),
            (["2026-03-02"] * 8 + ["x", "y"], "'x' isn't written like '2026-03-02'; if you give a format, such rows are left out"),
            (["01.10.2026 7:00", "01.10.2026 7:00", "01.10.2026 7:00:30"], "'01.10.2026 7:00:30' isn't written like '01.10.2026 7:00'"),
            (["2026-03-02", "x"], "the format of '2026-03-02' can't be detected"),
            (["", " "], "there is no time from which to detect the format"),
        ):
            with self.assertRaises(ValueError) as caught:
                found_format(texts)
            self.assertIn(says, str(caught.exception))

    def test_formats_that_are_given(self):
        for form in "%d.%m.%y %H:%M", "%H:%M", "iso", "hmm", "%Y-%m-%dT%H:%M:%S%z":
            self.assertEqual(judged_format(form), form)
        for bad in "%Q", "dd.mm.yyyy", "%d.%m. %H:%M", "%", "hhmm", "":
            with self.subTest(bad), self.assertRaises(ValueError):
                judged_format(bad)

    def test_what_looks_like_clocks(self):
        self.assertEqual(looks_like_clocks([20260302080017, 20260302080018]), "dates with a time, such as 20260302080017")
        self.assertEqual(looks_like_clocks([202603020800]), "dates with a time, such as 202603020800")
        self.assertEqual(looks_like_clocks([800 + 100 * (number // 60) + number % 60 for number in range(0, 300, 7)]), "times of day, such as 1254")
        seconds = [10000 * (number // 3600) + 100 * (number // 60 % 60) + number % 60 for number in range(28800, 60000, 77)]
        self.assertEqual(looks_like_clocks(seconds), f"times of day with seconds, such as {seconds[-1]}")
        self.assertEqual(looks_like_clocks([1772434817]), "seconds since 1970, such as 1772434817")
        self.assertEqual(looks_like_clocks([1772434817000]), "milliseconds since 1970, such as 1772434817000")
        for values in range(0, 5000, 7), range(0, 2400, 100), [5] * 100, [], [20261302080017], range(0, 60), [10**18], [800, 801], range(800, 861):
            self.assertIsNone(looks_like_clocks(values))


class Demands(Test):
    def read(self, text, unit="s", decimal="."):
        return Lengths(unit, decimal, SECOND).ticks[text]

    def test_units(self):
        for text, unit, decimal, ticks in (
            ("210", "s", None, 210),
            (" 210,0 ", "s", ",", 210),
            ("3,5", "min", ",", 210),
            ("1.210,0", "s", ",", 1210),
            ("1,210.0", "s", ".", 1210),
            ("1'210", "s", ".", 1210),
            ("1\u00a0210,0", "s", ",", 1210),
            ("0:03:30", "s", ".", 210),
            ("75:30", "m:ss", ".", 4530),
            ("3:30", "h:mm", ".", 12600),
            ("0:03:30,6", "s", ",", 211),
            ("210000", "ms", ".", 210),
            ("7", "ticks", ".", 7),
            ("2", "h", ".", 7200),
            ("0.5", "excel", ".", 43200),
            ("0.4999", "s", ".", 0),
            ("0.5", "s", ".", 1),
            ("68719476736", "s", ".", 2**36),
        ):
            with self.subTest(text):
                self.assertEqual(self.read(text, unit, decimal), ticks)
        for text, decimal in ("1.5", ","), ("1,5", "."), ("-1", "."), ("", "."), ("0:61:00", "."), ("1e5", "."), ("٣", "."), ("1.2345,0", ","):
            with self.subTest(text), self.assertRaises(Unread):
                self.read(text, "s", decimal)
        with self.assertRaises(Unread):
            self.read("68719476737")
        for text, decimal in ("3:30", "."), ("1.500", None), ("1,5", None):
            with self.subTest(text), self.assertRaises(Asks):
                self.read(text, "s", decimal)
        with self.assertRaises(ValueError):
            Lengths("fortnight", ".", SECOND)

    def test_parts_of_a_microsecond(self):
        """The nearest tick is that of all digits, even if a tick is only a few microseconds."""
        for text, unit, tick, ticks in (
            ("1.0009", "ms", 1, 1001),
            ("0.0015", "ms", 1, 2),
            ("0.0014999", "ms", 1, 1),
            ("0.0000015", "s", 3, 1),
            ("0.0000014", "s", 3, 0),
            ("0.00000125", "min", 1, 75),
            ("0:00:00.0000005", "s", 1, 1),
            ("0:00:01.000001499", "s", 1, 1000001),
            ("1.500", "ms", 1, 1500),
        ):
            with self.subTest(text):
                lengths = Lengths(unit, ".", 1000 * tick)
                self.assertEqual((lengths.ticks[text], lengths.rounded), (ticks, text not in ("0.00000125", "1.500")))

    def test_decimal_marks(self):
        texts = ["1,5", "2"], ["1.5"], ["1.000,5"], ["1,000.5"], ["1.000.000"], ["2", "0:03:30,5"], ["1.500", "1,5"], ["0.500"]
        self.assertEqual([found_decimal(text) for text in texts], [",", ".", ",", ".", ",", None, ",", "."])
        self.assertEqual([found_decimal([text]) for text in ("3,5 Min.", "1.210,0 ms", "1.25 s", "5 Min.", "PT1.500S")], [",", ",", ".", None, None])
        doubt = "'1.500' could be thousands or a decimal fraction"
        for texts, says in (["1.500"], doubt), (["1.500 ms"], doubt), (["1.5", "1,5"], "both"):
            with self.assertRaisesRegex(ValueError, says):
                found_decimal(texts)


class Names(Test):
    def test_names(self):
        for text, name in (
            ("Technical Support", "technical_support"),
            ("Verkauf & Büro", "verkauf_and_buro"),
            ("Straße", "strasse"),
            ("ŁÓDŹ", "lodz"),
            ("24h", "x_24h"),
            ("from", "x_from"),
            ("Time", "x_time"),
            ("日本", "name_1"),
            ("  --", "name_1"),
            ("A" * 40, "a" * 32),
            ("a" * 31 + " b", "a" * 31),
        ):
            self.assertEqual(name_for(text), name)
            self.assertTrue(is_name(name))
        self.assertEqual(name_for("Büro", ["buro", "buro_2"]), "buro_3")
        self.assertEqual(name_for("a" * 40, ["a" * 32]), "a" * 30 + "_2")
        for bad in "", "A", "1a", "a-b", "from", "time", "source", "a" * 33, "é", "a\n":
            self.assertFalse(is_name(bad), bad)


if __name__ == "__main__":
    unittest.main()
