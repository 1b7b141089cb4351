"""Times, lengths and names as systems of many countries write them; figures are worked out by hand."""

import time
import unittest
from datetime import datetime, timedelta, timezone

from ground import Test
from test_prepare import prepare, table

from mpsim.names import name_for
from mpsim.times import months
from mpsim.times.calendar import settings_in
from mpsim.times.formats import found_format
from mpsim.times.lengths import duration
from mpsim.times.lengths import Lengths
from mpsim.times.moments import Moments
from mpsim.times.texts import Asks, Unread
from mpsim.times.zones import Zone

SECOND = 10**9


def utc(*moment):
    """Returns the nanoseconds from 1970 to a moment in UTC."""
    return (datetime(*moment, tzinfo=timezone.utc) - datetime(1970, 1, 1, tzinfo=timezone.utc)) // timedelta(microseconds=1) * 1000


class Times(Test):
    def test_forms_that_are_found(self):
        """Each text is 2 March or 14 March 2026, 8:00:17 of the clock; the offset is subtracted."""
        for form, texts, offset in (
            ("iso", ["2026-03-02 08:00:17 UTC"], 0),
            ("iso", ["2026-03-02 08:00:17 CET"], 1),
            ("iso", ["2026-03-02 08:00:17 EDT"], -4),
            ("iso", ["2026-03-02T08:00:17+01:00[Europe/Berlin]"], 1),
            ("iso", ["2026-03-02T08:00:17Z[Etc/UTC]"], 0),
            ("%d/%m/%Y %I:%M:%S %p", ["14/03/2026 8:00:17 a. m."], 0),
            ("%d/%m/%Y %I:%M:%S %p", ["14/03/2026 8:00:17 a.\u00a0m."], 0),
            ("%d/%m/%Y %I:%M:%S %p", ["14/03/2026 8:00:17\u202fAM"], 0),
            ("months", ["2. März 2026 08:00:17", "02 mars 2026 08:00:17", "2 de marzo de 2026, 8:00:17", "2 marzo 2026 8:00:17"], 0),
            ("months", ["2 maart 2026 8:00:17", "2 mrt. 2026 8:00:17", "Montag, 2. März 2026 um 8:00:17"], 0),
            ("months", ["Mar 2, 2026 8:00:17 AM", "March 2nd, 2026 at 8:00:17 am", "2-Mar-2026 08:00:17", "Mon, Mar 2, 2026, 8:00:17 AM"], 0),
        ):
            for text in texts:
                with self.subTest(text):
                    self.assertEqual(found_format([text]), form)
                    day = 14 if text.startswith("14") else 2
                    self.assertEqual(Moments(form, Zone()).of(text), utc(2026, 3, day, 8, 0, 17) - 3600 * SECOND * offset)

    def test_all_months(self):
        """The twelve names of each language, and none that means two months."""
        for names in (
            "January February March April May June July August September October November December",
            "Januar Februar März April Mai Juni Juli August September Oktober November Dezember",
            "janvier février mars avril mai juin juillet août septembre octobre novembre décembre",
            "enero febrero marzo abril mayo junio julio agosto septiembre octubre noviembre diciembre",
            "gennaio febbraio marzo aprile maggio giugno luglio agosto settembre ottobre novembre dicembre",
            "januari februari maart april mei juni juli augustus september oktober november december",
        ):
            self.assertEqual([months.day(f"1 {name} 2026") for name in names.split()], [utc(2026, month, 1) for month in range(1, 13)])
        numbered = [(name, number) for listed in months._LANGUAGES for number, name in enumerate(listed.split(), 1)]
        self.assertEqual(len(set(numbered)), len({name for name, _ in numbered}))
        for bad in "31. Februar 2026", "2 Foo 2026", "2. März", "März 2026", "2. März 26":
            with self.assertRaises(Unread):
                months.day(bad)

    def test_zones_of_several_meanings(self):
        for bad in "IST", "CST", "BST", "XYZ":
            with self.assertRaisesRegex(Unread, f"the zone {bad} isn't known"):
                Moments("iso", Zone()).of(f"2026-03-02 08:00:17 {bad}")

    def test_hours_after_midnight(self):
        """As in timetables: 25:10 is ten past one on the next morning."""
        rows = table("2026-03-02,23:50:00", "2026-03-02,25:10:00", header="day,at")
        with self.assertRaisesRegex(ValueError, "'25:10:00' has an hour above 24: the format is gtfs, if hours go on after midnight, or clock"):
            prepare(rows, "at", date="day")
        self.assertEqual(list(prepare(rows, "at", date="day", format="gtfs", begin="day").times), [85800, 90600])
        rows = "2026-03-02,23:50:00,24:10:00", "2026-03-02,24:00:00,24:00:00", "2026-03-02,25:10:00,25:40:00", "2026-03-02,0:30:00,49:30:00"
        for options in {"date": "day"}, {}, {"date": "day", "zone": "Europe/Berlin"}:
            made = prepare(table(*rows, header="day,at,end"), "at", format="gtfs", end=["end"], begin="day", tick="1min", **options)
            self.assertEqual(list(made.rows()), [("jobs", 30, 2940), ("jobs", 1430, 20), ("jobs", 1440, 0), ("jobs", 1510, 30)])
        for bad in "100:00:00", "25:60:00", "x", "":
            with self.assertRaises(Unread):
                Moments("gtfs", Zone()).of(bad)

    def test_rounded_numbers(self):
        """1.77244E+12 ms could be any of ten thousand seconds."""
        with self.assertRaisesRegex(Unread, "a rounded number: export the column with all its digits"):
            Moments("unixms", Zone()).of("1.77244E+12")

    def test_settings(self):
        made = prepare(table('"2. März 2026 08:00",a,1', '"14. März 2026 08:00",a,1'), "when", zone="Europe/Berlin")
        self.assertEqual(settings_in(made.first_lines())[1], "2026-03-02T08:00:00+01:00")
        self.assertEqual(list(made.times), [0, 12 * 86400])


class Spans(Test):
    def test_texts_with_units(self):
        for text, seconds in (
            ("0 days 00:03:20", 200),
            ("1 day, 2:00:00", 93600),
            ("PT3M20S", 200),
            ("P1DT1H", 90000),
            ("PT0.5S", 0.5),
            ("3m 20s", 200),
            ("3min20s", 200),
            ("1 h 5 min", 3900),
            ("2 Std. 3 Min.", 7380),
            ("200 s", 200),
            ("200 sec", 200),
            ("250 ms", 0.25),
            ("1,5 min", 90),
        ):
            with self.subTest(text):
                self.assertEqual(duration(text), seconds * SECOND)
                self.assertEqual(Lengths("min", ".", 10**6).ticks[text], seconds * 1000)
        for bad in "", "P", "PT", "3", "3x", "m", "20s 3m", "3 m x", "1.2.3 s", "PT3M20", "-3 s":
            with self.subTest(bad):
                self.assertIsNone(duration(bad))

    def test_thousands_before_a_unit(self):
        rows = table("2026-03-02 08:00;1.500 ms", "2026-03-02 08:00;250 ms", header="when;long")
        with self.assertRaisesRegex(ValueError, "column 'long': '1.500' could be thousands or a decimal fraction \\(--decimal\\)"):
            prepare(rows, "when", demand=["long"], tick="1us")
        for decimal, want in (",", 1500000), (".", 1500):
            self.assertEqual(list(prepare(rows, "when", demand=["long"], tick="1us", decimal=decimal).values[0]), [want, 250000])
        with self.assertRaisesRegex(Asks, "give --decimal"):
            Lengths("s", None, SECOND).ticks["1.500 ms"]
        for text in "PT1.500S", "0 days 00:00:01.500", "1,5 Sek.":
            self.assertEqual([Lengths("s", decimal, SECOND // 1000).ticks[text] for decimal in (None, ".", ",")], [1500] * 3)

    def test_numbers_of_narrow_columns(self):
        self.assertEqual([Lengths(unit, ".", SECOND).ticks["1.2E+02"] for unit in ("s", "min")], [120, 7200])
        for bad in "1.234,50-", "5-", "-5", "\u22125":
            with self.assertRaisesRegex(Unread, "below 0"):
                Lengths("s", ",", SECOND).ticks[bad]
        with self.assertRaises(Unread):
            Lengths("s", ".", SECOND).ticks["9E+99"]


class Names(Test):
    def test_other_alphabets(self):
        for text, name in (
            ("Продажи", "prodazhi"),
            ("Поддержка", "podderzhka"),
            ("Склад №1", "sklad_no1"),
            ("Щёлково", "shchyolkovo"),
            ("Київ", "kiyiv"),
            ("Πωλήσεις", "poliseis"),
            ("Ψυχή", "psychi"),
            ("客服", "name_1"),
            ("客服 2", "x_2"),
        ):
            self.assertEqual(name_for(text), name)
        made = prepare(table("8:00,客服,1", "8:01,销售,2", "8:02,Büro,3", '8:03,"技 {x} ""术""",4'), "when", source="who")
        self.assertEqual(made.names, ["name_1", "name_2", "buro", "x"])
        lines = made.first_lines().splitlines()
        self.assertEqual([line for line in lines if " is \"" in line], ['# name_1 is "客服"', '# name_2 is "销售"'])

    def test_many(self):
        """Refused at the 64th, and names of columns in time proportional to their number."""
        rows = table(*(f"8:00,{chr(0x4E00 + at)},1" for at in range(4000)))
        begin = time.process_time()
        with self.assertRaisesRegex(ValueError, "more than 63 sources"):
            prepare(rows, "when", source="who")
        numbers, taken = {}, set()
        for at in range(20000):
            taken.add(name_for(chr(0x4E00 + at), taken, numbers))
        self.assertEqual((len(taken), max(numbers.values())), (20000, 20000))
        self.assertLess(time.process_time() - begin, 3)


if __name__ == "__main__":
    unittest.main()
