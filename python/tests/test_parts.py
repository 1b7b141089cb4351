"""Exports that are cut into parts, such as months, in one pass."""

import random
import unittest
from datetime import datetime, timedelta
from unittest import mock

from commands import InFolder, planner
from test_prepare import table

from mpsim.exports import parts
from mpsim.exports.prepare import prepare, prepare_parts

# The begin of each part and of the next.
BOUNDS = {
    "month": [(f"2026-{month:02}", f"2026-{month:02}-01", f"2026-{month + 1:02}-01") for month in (2, 3, 4)],
    "week": [(f"2026-W{week:02}", *(str(datetime(2026, 2, 23) + timedelta(7 * (week - 9 + more)))[:10] for more in (0, 1))) for week in range(9, 15)],
}


def calls(count, seed=1, begin=datetime(2026, 2, 24), days=40):
    """Returns rows of calls in random order, over some days, with a change of clocks among them."""
    dice = random.Random(seed)
    found = []
    for number in range(count):
        at = begin + timedelta(seconds=dice.randrange(days * 86400))
        found.append(f"{at},{dice.choice(['support', 'sales & co', 'desk'])},{dice.choice(['in', 'out'])},{dice.randrange(400)},{number}")
    dice.shuffle(found)
    return found


HEADER = "when,queue,way,talk,number"
OPTIONS = {"source": "queue", "demand": ["talk"], "code": ["way=kind"], "zone": "Europe/Berlin", "left_out_most": "9%"}


class Parts(InFolder):
    def test_each_part_is_the_trace_of_its_days(self):
        """Whatever the number of records that wait in memory, and the order of the rows."""
        export = table(*calls(700), header=HEADER)
        whole = prepare(export, "when", **OPTIONS)
        codes = whole.first_lines()
        for by, bounds in BOUNDS.items():
            for waiting in 1, 97, 1 << 17:
                with mock.patch.object(parts, "WAITING", waiting), mock.patch("mpsim.exports.rows.CHUNK", min(waiting, 64)):
                    made = list(prepare_parts(export, "when", by, **OPTIONS))
                self.assertEqual([name for name, _ in made], [name for name, _, _ in bounds])
                for (name, it), (_, begin, end) in zip(made, bounds):
                    want = prepare(export, "when", begins=begin, until=end, **OPTIONS)
                    kinds = [{number: word for word, number in some.codes["kind"].items()} for some in (it, want)]
                    rows = [[(*row[:-1], kind[row[-1]]) for row in sorted(some.rows())] for some, kind in zip((it, want), kinds)]
                    self.assertEqual((rows[0], it.zero, it.header), (rows[1], want.zero, want.header), name)
                    self.assertEqual((it.codes, it.names), (whole.codes, whole.names))
                self.assertEqual(sum(len(it) for _, it in made), len(whole))
                self.assertIn('# kind: 0 is "', codes)

    def test_days_and_what_is_counted(self):
        rows = ["2026-03-02 23:59:59,a,in,1,1", "2026-03-03 00:00:00,a,in,2,2", "x,a,in,2,3", "2026-03-05 00:00:00,b,out,2,4"]
        rows.append(rows[1])
        options = {"source": "queue", "format": "iso", "left_out_most": "50%", "duplicates": "drop", "where": ["way=in"]}
        made = dict(prepare_parts(table(*rows, header=HEADER), "when", "day", **options))
        self.assertEqual({name: list(it.rows()) for name, it in made.items()}, {"2026-03-02": [("a", 3599)], "2026-03-03": [("a", 0)]})
        self.assertIn("1 row that repeats an earlier row, field by field (the first is row 6): dropped", made["2026-03-03"].told)
        self.assertEqual([it.left for it in made.values()], [{"when: not an ISO 8601 time": 1}, {}])
        self.assertIn("1 row excluded by --where, --from or --until", made["2026-03-02"].told)
        utc = dict(prepare_parts(b"when\n1772496000\n1772488800\n", "when", "day", format="unix", zone="America/New_York"))
        self.assertEqual(list(utc), ["2026-03-02"])

    def test_the_week_of_a_new_year(self):
        """It belongs to the year of its Thursday, and isn't cut."""
        rows = "2026-12-31 08:00,60", "2027-01-01 08:00,90", "2027-01-04 08:00,30"
        parts = [(name, len(made)) for name, made in prepare_parts(table(*rows, header="when,long"), "when", "week", demand=["long"])]
        self.assertEqual(parts, [("2026-W53", 2), ("2027-W01", 1)])

    def test_records_that_wait_in_memory(self):
        seen, put_down = [], parts.Parts._put_down

        def counted(it):
            seen.append(len(it.stamps))
            put_down(it)

        few, put = mock.patch.object(parts, "WAITING", 100), mock.patch.object(parts.Parts, "_put_down", counted)
        with few, put, mock.patch("mpsim.exports.rows.CHUNK", 64):
            made = list(prepare_parts(table(*calls(700), header=HEADER), "when", "month", **OPTIONS))
        self.assertEqual((max(seen) < 164, len(seen) > 5, sum(seen)), (True, True, sum(len(it) for _, it in made)))

    def test_times_far_from_the_rest(self):
        """They would be a part of their own."""
        rows = calls(100)
        for far, says in (
            ("1900-01-01 00:00:00,a,in,1,1", r"row 42: 1900-01-01T00:00:00\+01:00: its record lies 46,0\d\d days before .* --from 2026-02-24"),
            ("2062-01-01 00:00:00,a,in,1,1", r"row 42: 2062-01-01T00:00:00\+01:00: .* after the rest, which span 39 .* --until 2026-04-0"),
            ("2026-09-01 00:00:00,a,in,1,1", "row 42: .* its record lies 1[45]. days after the rest"),
        ):
            export = table(*rows[:40], far, *rows[40:], header=HEADER)
            with self.subTest(far), self.assertRaisesRegex(ValueError, says):
                list(prepare_parts(export, "when", "month", **OPTIONS))
            self.assertEqual(len(list(prepare_parts(export, "when", "month", far=True, **OPTIONS))), 4)
        many = ["1900-01-01 00:00:00,a,in,1,1"] * 30 + rows
        with self.assertRaisesRegex(ValueError, "row 2: .* the first 30 records lie"):
            list(prepare_parts(table(*many, header=HEADER), "when", "month", **OPTIONS))

    def test_the_limit_of_a_part(self):
        export = table(*calls(300), header=HEADER)
        with mock.patch("mpsim.exports.rows.RECORDS", 100), mock.patch.object(parts, "RECORDS", 100):
            with self.assertRaisesRegex(ValueError, "more than 100 records, .* --until or --where, or cut it with --split-by month"):
                prepare(export, "when", **OPTIONS)
            with self.assertRaisesRegex(ValueError, "2026-03 has 2.. records, but a trace has at most 100: --split-by week"):
                list(prepare_parts(export, "when", "month", **OPTIONS))
            self.assertEqual(len(list(prepare_parts(export, "when", "week", **OPTIONS))), 6)
        with mock.patch.object(parts, "RECORDS", 1), self.assertRaisesRegex(ValueError, "2026-02-24 has .*: choose some with --where"):
            list(prepare_parts(export, "when", "day", **OPTIONS))
        with mock.patch.object(parts, "PARTS", 2), self.assertRaisesRegex(ValueError, "more than 2 parts: choose longer ones"):
            list(prepare_parts(export, "when", "day", **OPTIONS))

    def test_refusals(self):
        for options, says in (
            ({"zone": None, "format": "ticks"}, "--split-by month: the times have no day"),
            ({"unit": "queue"}, "--split-by can't be used with --unit"),
            ({"left_out_most": "x"}, "--left-out-most x"),
            ({"where": ["queue=x"]}, "no rows are left"),
        ):
            rows = ["5,a,in,1,1"] if "format" in options else calls(9)
            with self.subTest(options), self.assertRaisesRegex(ValueError, says):
                list(prepare_parts(table(*rows, header=HEADER), "when", "month", **{**OPTIONS, **options}))
        with self.assertRaisesRegex(ValueError, "the times have no day"):
            list(prepare_parts(b"when\n8:00\n", "when", "day"))
        with self.assertRaises(TypeError):
            prepare_parts(b"when\n8:00\n", "when", "day", wheer=[])

    def test_the_command(self):
        export, out = self.file("calls.csv", table(*calls(50), header=HEADER).decode()), self.folder / "out"
        out.mkdir()
        words = "prepare", export, "--time", "when", "--source", "queue", "--demand", "talk", "--left-out-most", "9%", "--split-by", "month"
        status, said, err = planner(*words, "--out", out / "t.csv", "--first-lines", out / "m.txt", "--left-out", out / "left.csv")
        names = [f"{name}-2026-0{month}.{kind}" for name, kind in (("m", "txt"), ("t", "csv")) for month in (2, 3, 4)]
        self.assertEqual((status, said, sorted(item.name for item in out.iterdir())), (0, "", ["left.csv", *names]))
        self.assertEqual(sum("the delimiter" in line for line in err.splitlines()), 1)
        self.assertRegex(err, r"t-2026-02.csv: \d+ records, 3 sources\n")
        self.assertIn("\n# a tick is 1s, time 0 is 2026-03-01T", (out / "m-2026-03.txt").read_text())
        total = sum((out / name).read_text().count("\n") - 1 for name in names[3:])
        self.assertEqual(total, 50)
        self.refuses("--split-by requires --out FILE: each trace gets the name of its part, as in FILE-2026-03.csv", *words)
        (out / "t-2026-02.csv").write_bytes(export.read_bytes())
        line = f"{out / 't-2026-02.csv'}: this is the export, which is never overwritten\n"
        status, _, err = planner("prepare", out / "t-2026-02.csv", *words[2:], "--out", out / "t.csv")
        self.assertEqual((status, err.endswith(line)), (1, True))


if __name__ == "__main__":
    unittest.main()
