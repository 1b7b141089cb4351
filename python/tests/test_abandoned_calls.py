"""Calls that were abandoned: kept with their wait, or counted, but never silently calls of no length."""

import unittest

from commands import InFolder, planner
from test_prepare import table

from mpsim.exports.prepare import prepare
from mpsim.exports.rows import TooManyLeft

HEADER = "when,who,answered,end,talk,wait,state"
CALLS = (
    "2026-03-02 08:00:00,a,2026-03-02 08:00:10,2026-03-02 08:01:10,60,10,ok",
    "2026-03-02 08:01:00,a,,2026-03-02 08:01:45,,45,gone",
    "2026-03-02 08:02:00,a,2026-03-02 08:02:00,2026-03-02 08:03:10,70,0,ok",
)


def made(rows=CALLS, **named):
    return prepare(table(*rows, header=HEADER), "when", **named)


class Abandoned(InFolder):
    def test_kept(self):
        """By its length or by its times; the wait is until the call is answered or the caller hangs up."""
        want = [("jobs", 0, 60, 10, 0), ("jobs", 60, 0, 45, 1), ("jobs", 120, 70, 0, 0)]
        for options in (
            {"demand": ["talk"], "wait": "wait", "abandoned": ["talk="]},
            {"demand": "talk", "wait": "wait", "abandoned": "talk="},
            {"demand": ["talk"], "wait": ["wait=wait:s"], "abandoned": ["state=gone"]},
            {"demand": ["talk"], "wait": ["answered", "end"], "abandoned": ["state=gone", "talk="]},
            {"answered": ["answered"], "end": ["end=talk"], "wait": ["answered", "end"], "abandoned": ["answered="]},
            {"demand": ["talk=end-answered"], "wait": ["wait"], "abandoned": ["state~GON"]},
            {"demand": ["talk"], "wait": ["wait"], "abandoned": ["who=a", "state=gone"]},
        ):
            with self.subTest(options):
                it = made(**options)
                self.assertEqual((it.header[2:], list(it.rows()), it.left), (["talk", "wait", "abandoned"], want, {}))
                self.assertIn("1 job that gave up", it.told)
                self.assertFalse(any("of 0 ticks" in line or "several" in line for line in it.told + it.warned))

    def test_what_an_abandoned_call_does_not_have(self):
        """Work that all calls have after them; the codes of a call stay."""
        it = made(demand=["talk"], constant=["wrap=30s"], code=["state"], abandoned=["state=gone"])
        self.assertEqual(list(it.rows()), [("jobs", 0, 60, 30, 0, 0), ("jobs", 60, 0, 0, 1, 1), ("jobs", 120, 70, 30, 0, 0)])
        self.assertIn("jobs that gave up have no wait: --wait COLUMN gives one", it.told)
        # A time that begins a service and a wait is read once, and reported once.
        self.assertEqual(sum("'end' is read as" in line for line in made(end=["end"], wait=["end"], abandoned=["talk="]).told), 1)
        rows = [row.replace(",,45,gone", ",7,45,gone") for row in CALLS]
        it = made(rows=rows, demand=["talk"], abandoned=["state=gone"])
        self.assertEqual((list(it.values[0]), it.warned), ([60, 0, 70], ["1 service above 0 of jobs that gave up: taken as 0"]))

    def test_a_wait_that_is_not_known(self):
        """It isn't a wait of 0."""
        rows = [row.replace(",,45,gone", ",,,gone") for row in CALLS]
        it = made(rows=rows, demand=["talk"], wait="wait", abandoned=["talk="], left_out_most="50%")
        self.assertEqual((len(it), it.left), (2, {"wait is empty": 1}))
        rows = [row.replace("08:01:45", "08:00:45") for row in CALLS]
        it = made(rows=rows, demand=["talk"], wait=["answered", "end"], abandoned=["talk="], left_out_most="50%")
        self.assertEqual(it.left, {"end: before the service begins": 1})

    def test_not_said(self):
        """A row with an empty service is left out and counted, with both ways out."""
        hint = "if an empty 'talk' means an abandoned call: --abandoned 'talk=' keeps it as such, --where 'talk!=' excludes it"
        it = made(demand=["talk"], left_out_most="50%")
        self.assertEqual((len(it), it.left, it.told[-1]), (2, {"talk is empty": 1}, hint))
        with self.assertRaisesRegex(TooManyLeft, "1 row: talk is empty .*; if an empty 'talk' means an abandoned call"):
            made(demand=["talk"])
        for options, column in (({"answered": ["answered"], "end": ["end=d"]}, "answered"), ({"demand": ["d=end-answered"]}, "answered")):
            self.assertIn(f"if an empty {column!r} means", made(left_out_most="50%", **options).told[-1])
        self.assertEqual(made(demand=["talk"], where=["talk!="]).left, {})
        # An empty time of arrival isn't an abandoned call, nor is an empty wait.
        for rows, options in ((["," + row.split(",", 1)[1] for row in CALLS[:1]], {}), ([CALLS[0].replace(",10,", ",,")], {"wait": "wait"})):
            it = made(rows=[*rows, *CALLS[2:]], demand=["talk"], left_out_most="50%", **options)
            self.assertFalse(any("abandoned" in line for line in it.told))
        it = made(demand=["talk"], empty="0s")
        self.assertIn("talk: 1 service of 0 ticks: --where 'talk>0' leaves them out, --abandoned 'talk<=0' keeps them as jobs that gave up", it.told)
        zero = [row.replace(",,45,gone", ",0,45,gone") for row in CALLS]
        self.assertEqual(list(made(rows=zero, demand=["talk"], abandoned=["talk<=0"]).values[1]), [0, 1, 0])

    def test_refusals(self):
        for options, says in (
            ({"abandoned": ["state"]}, "--abandoned state: expected COLUMN, one of !="),
            ({"abandoned": ["talk>x"]}, "--abandoned talk>x: not a number"),
            ({"wait": "waits"}, "no column 'waits'"),
            ({"wait": "wait", "demand": ["talk=wait"]}, "the column's name 'wait' is already taken"),
            ({"abandoned": ["talk="], "demand": ["wait=abandoned"]}, "the column's name 'abandoned' is already taken"),
            ({"unit": "who", "demand": ["talk"], "wait": "wait"}, "--wait and --abandoned can't be used with --unit"),
            ({"unit": "who", "demand": ["talk"], "abandoned": ["talk="]}, "--wait and --abandoned can't be used with --unit"),
        ):
            with self.subTest(options), self.assertRaisesRegex(ValueError, says):
                made(**options)

    def test_the_table_of_what_was_recorded(self):
        """From the export to the service level with abandoned calls."""
        export, out, lines = self.file("calls.csv", table(*CALLS, header=HEADER).decode()), self.folder / "t.csv", self.folder / "m.txt"
        words = "--demand", "talk", "--wait", "wait", "--abandoned", "talk=", "--out", out, "--first-lines", lines
        self.assertEqual(planner("prepare", export, "--time", "when", *words)[0], 0)
        told = self.tells("recorded", out, "--model", lines, "--wait", "wait", "--abandoned", "abandoned", "--within", "20")
        self.assertEqual(told.splitlines()[1].split(",")[1:6], ["all", "3", "2", "1", "0.6667"])


if __name__ == "__main__":
    unittest.main()
