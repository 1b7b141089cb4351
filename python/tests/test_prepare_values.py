"""The columns of values that mpplan prepare makes: demands, ends, constants and codes."""

import random
import unittest
import unittest.mock
from datetime import datetime, timedelta

from ground import Test
from test_prepare import prepare, table

from mpsim.exports.records import Records
from mpsim.times.texts import Unread


class Values(Test):
    def test_ends(self):
        rows = table("8:00:00,8:00:30,8:02:00,a b", "23:59:00,23:59:30,0:01:00,c", "8:00:00,,8:01:00,c", header="come,answer,end,kind")
        made = prepare(rows, "come", answered="answer", end=["end=talk"], constant=["wrap=90s"], code=["kind"], begin="day")
        self.assertEqual((made.header[2:], [value.tolist() for value in made.values]), (["talk", "wrap", "kind"], [[90, 90], [90, 90], [0, 1]]))
        self.assertEqual(made.left, {"answer is empty": 1})
        self.assertEqual(prepare(rows, "come", answered="answer", end=["end"], empty="5s", begin="day").left, {"answer is empty": 1})
        # Jobs that gave up are reported as such in each format, separately from what can't be read.
        for form in "%Y-%m-%d %H:%M:%S", "%a, %d %b %Y %H:%M:%S", "%Y%m%d%H%M%S", "%d.%m.%Y %H:%M":
            begin, end = (datetime(2026, 3, 2, 8, item).strftime(form) for item in (0, 2))
            rows = [f'"{begin}","{item}","{end}"' for item in ("", "  ", "x", *[begin] * 12)]
            left = prepare(table(*rows, header="come,answer,end"), "come", answered="answer", end=["end"]).left
            self.assertEqual((left.pop("answer is empty"), list(left.values())), (2, [1]), form)
        rows = table("2026-03-02 08:00,1", ",1", "2026-03-02 08:01,1", header="come,d")
        self.assertEqual(prepare(rows, "come").left, {"come is empty": 1})
        full = table("2026-03-02 08:00,2026-03-02 07:59", *["2026-03-02 08:00,2026-03-02 08:07"] * 9, "2026-03-02 08:00,0:05", header="come,end")
        made = prepare(full, "come", end=["end"])
        self.assertEqual((made.values[0].tolist(), made.left), ([420] * 9, {"end: before the service begins": 1, "end: not an ISO 8601 time": 1}))
        # A time of day is the next one after the beginning, in the days of the zone.
        night = table("2026-10-24 23:50,0:05", "2026-10-25 01:50,4:00", header="come,end")
        self.assertEqual(prepare(night, "come", end=["end"], zone="Europe/Berlin", tick="1min").values[0].tolist(), [15, 130 + 60])
        # A time in the hour that was skipped in the morning is on the next day; after the beginning it doesn't occur.
        night = table("2026-03-29 23:50,2:10", "2026-03-29 01:50,2:15", header="come,end")
        made = prepare(night, "come", end=["end"], zone="Europe/Berlin", tick="1min")
        self.assertEqual((made.values[0].tolist(), made.left), ([140], {"end: in the hour that is skipped on 2026-03-29 in Europe/Berlin": 1}))
        # A given format also applies to other times.
        given = table("03/02/2026 8:00,03/02/2026 8:01", header="come,end")
        self.assertEqual(prepare(given, "come", format="%d/%m/%Y %H:%M", end=["end"]).values[0].tolist(), [60])
        self.assertEqual(prepare(table("800,830", header="come,end"), "come", format="hmm", end=["end"], tick="1min").values[0].tolist(), [30])

        # A job that ends at once doesn't stay for a day; service times are rounded to the nearest tick.
        rows = table("8:00:00,8:00:00", "8:00:00,8:00:29", "8:00:00,8:00:30", header="come,end")
        self.assertEqual(prepare(rows, "come", end=["end"], tick="1min").values[0].tolist(), [0, 0, 1])

    def test_ends_with_beginnings_of_their_own(self):
        """A scan and its report: each has its beginning. A row whose later beginning is empty, or before the job arrives, is left out."""
        header = "come,scan,scanned,read,done"
        rows = table("8:00,8:05,8:15,9:00,9:05", "8:10,8:20,8:21,,", "8:20,8:30,8:31,8:10,8:12", header=header)
        made = prepare(rows, "come", end=["scanned=scan", "done=report"], answered=["scan", "read"], begin="day", date=None)
        self.assertEqual([list(row) for row in made.rows()], [["jobs", 8 * 3600, 600, 300], ["jobs", 8 * 3600 + 1200, 60, 120]])
        self.assertEqual(made.left, {"read is empty": 1})
        one = prepare(rows, "come", end=["scanned=scan"], answered="scan", begin="day")
        self.assertEqual(one.values[0].tolist(), [600, 60, 60])
        with self.assertRaisesRegex(ValueError, "--answered is given 2 times for 3 of --end: give it once, or once per --end"):
            prepare(rows, "come", end=["scanned=a", "done=b", "read=c"], answered=["scan", "read"])

    def test_rows_that_are_left_out_have_no_code(self):
        rows = table("8:00,x,p", "8:01,a,q", "8:02,a,r")
        made = prepare(rows, "when", source="who", code=["long=kind"], model="model 1\nsource a\n")
        self.assertEqual((made.values[0].tolist(), sum(made.left.values())), ([0, 1], 1))

    def test_rows_by_columns_and_one_by_one(self):
        """Both ways to read rows give the same, even on days on which clocks change and if a row can't be read."""
        draw, forms = random.Random(3), ["%Y-%m-%dT%H:%M:%S", "%d.%m.%Y %H:%M:%S", "%a, %d %b %Y %H:%M:%S +0100"]
        for form in forms:
            rows = []
            for _ in range(4000):
                day = draw.choice([datetime(2026, 3, 28), datetime(2026, 3, 30), datetime(2026, 10, 24), datetime(2026, 10, 25)])
                moment = day + timedelta(seconds=draw.randrange(86400))
                rows.append(f'"{moment.strftime(form)}",{draw.choice("abc")},{draw.randrange(999)}')
            rows[3000] = draw.choice(["x,a,1", '"",a,1', "2026,,"])
            for zone in None, "Europe/Berlin":
                asks = {"source": "who", "demand": ["long=d"], "constant": ["wrap=2s"], "code": ["who=kind"], "zone": zone, "twice": "first"}
                fast = prepare(table(*rows), "when", **asks)
                with unittest.mock.patch.object(Records, "many", side_effect=Unread("one by one")) as slow_way:
                    slow = prepare(table(*rows), "when", **asks)
                self.assertEqual((list(fast.rows()), fast.told, fast.left), (list(slow.rows()), slow.told, slow.left))
                self.assertEqual((slow_way.call_count, sum(fast.left.values())), (4, 1))

    def test_empty(self):
        rows = table("8:00,a,", "8:01,b,3")
        self.assertEqual(prepare(rows, "when", demand=["long"]).left, {"long is empty": 1})
        self.assertEqual(prepare(rows, "when", demand=["long"], empty="2s").values[0].tolist(), [2, 3])

    def test_lengths_of_options(self):
        """Those of --constant and --empty are in ticks of any length."""
        made = prepare(table("8:00,a,", "8:01,a,2"), "when", demand=["long=d"], constant=["wrap=1.5s"], empty="0.5s", tick="100ms")
        self.assertEqual([column.tolist() for column in made.values], [[5, 20], [15, 15]])
        with self.assertRaisesRegex(ValueError, "--constant wrap 1.55s is not a whole number of ticks"):
            prepare(table("8:00,a,1"), "when", constant=["wrap=1.55s"], tick="100ms")

    def test_demands_of_one_name(self):
        """They are added up, each in its own unit and rounded to ticks; a row that lacks one of them is left out."""
        rows = table("8:00,1,5,30", "8:01,0,5,0", "8:02,,9,9", "8:03,2,x,9", "8:04,68719476735,1,0", header="when,talk,wrap,note")
        asks = ["talk=aht:ticks", "note=note", "wrap=aht"]
        made = prepare(rows, "when", demand=asks, tick="2s")
        # Five seconds are two and a half ticks.
        self.assertEqual(
            (made.header, [it.tolist() for it in made.values]), (["source", "time", "aht", "note"], [[1 + 3, 0 + 3, 2**36], [15, 0, 0]])
        )
        self.assertEqual(made.left, {"talk is empty": 1, "wrap: not a number with a decimal point": 1})
        self.assertIn("aht is the sum of 'talk' and 'wrap'", made.told)
        self.assertIn("aht: 2 different values between two ticks, rounded to the nearest", made.told)
        more = prepare(rows.replace(b"68719476735", b"68719476736"), "when", demand=["talk=aht:ticks", "wrap=aht"], empty="4s")
        self.assertEqual(more.values[0].tolist(), [1 + 5, 0 + 5, 4 + 9])
        self.assertEqual(more.left, {"talk: above 2^36 ticks": 1, "wrap: not a number with a decimal point": 1})
        with unittest.mock.patch.object(Records, "many", side_effect=Unread("one by one")):
            self.assertEqual(list(prepare(rows, "when", demand=asks, tick="2s").rows()), list(made.rows()))
        # Times in ISO 8601 are read by columns.
        day = "2026-03-02T08:00:00"
        many = prepare(table(f"{day},68719476736,1", header="when,a,b") + f"{day},68719476735,1\n".encode(), "when", demand=["a=d", "b=d"])
        self.assertEqual((many.values[0].tolist(), many.left), ([2**36], {"a: above 2^36 ticks": 1}))
        three = prepare(table(f"{day},1,20,300", header="when,a,b,c"), "when", demand=["a=d", "b=d", "c=d"])
        self.assertEqual((list(three.rows()), "d is the sum of 'a' and 'b' and 'c'" in three.told), ([("jobs", 0, 321)], True))
        with self.assertRaisesRegex(ValueError, "--demand a=d:min: the column 'a' is already part of d"):
            prepare(table("8:00,1", header="when,a"), "when", demand=["a=d", "a=d:min"])

    def test_limits(self):
        made = prepare(table("8:00,a,68719476737", "8:00,a,68719476736"), "when", demand=["long=d"])
        self.assertEqual((made.left, made.values[0].tolist()), ({"long: above 2^36 ticks": 1}, [2**36]))


if __name__ == "__main__":
    unittest.main()
