"""Recorded waits: their table, and what a model of the same calls says about them."""

import csv
import doctest
import io
import json
import os
import pathlib
import subprocess
import sys
import unittest

from commands import InFolder, idle, planner
from ground import EXAMPLES, Test, text_of

import mpsim.agents.validation

try:
    import openpyxl
except ImportError:
    openpyxl = None

WEEK = EXAMPLES / "week" / "model.txt", EXAMPLES / "week" / "trace.csv"
ROSTER = EXAMPLES / "week" / "roster.csv"
MODEL = "model 1\n# a tick is 1s\nsource phone\nsource mail\nserver desk d from phone mail\n"


def spreadsheet(*words):
    """Returns the bytes that a call writes to standard output."""
    code = "import sys; from mpsim.command import main; sys.exit(main(sys.argv[1:]))"
    settings = {**os.environ, "PYTHONPATH": str(pathlib.Path(mpsim.__file__).parents[1])}
    return subprocess.run([sys.executable, "-c", code, *map(str, words)], capture_output=True, check=True, env=settings).stdout


class Validate(Test):
    def test_docstrings(self):
        self.assertEqual(doctest.testmod(mpsim.agents.validation)[0], 0)

    def test_the_verdict(self):
        """By the gap of all calls, and of intervals with fifty or more."""
        row = lambda name, offered, gap: [name, "all", offered, 0.8, None if gap is None else 0.8 + gap, gap, 1.0]
        for rows, says in [
            ([row("all", 200, 0.02), row("08:00", 50, 0.05), row("09:00", 49, -0.3)], "may be trusted: 80.0 % recorded, 82.0 % modelled"),
            ([row("all", 200, 0.021), row("08:00", 50, 0.05)], "may not be trusted: 80.0 % recorded, 82.1 % modelled, and the model is better"),
            ([row("all", 200, -0.03)], "and the model is worse"),
            ([row("all", 200, 0.0), row("08:00", 50, 0.051), row("09:00", 50, -0.06)], "2 of 2 intervals differ by more than 5 points"),
            ([row("all", 200, 0.0), row("08:00", 50, 0.051), row("09:00", 50, -0.06)], "most at 09:00 (-6.0)"),
            ([row("all", 0, None)], "there are no calls to compare"),
        ]:
            self.assertIn(says, mpsim.agents.validation.verdict(rows))


class Commands(InFolder):
    def setUp(self):
        super().setUp()
        self.model = self.file("m.txt", MODEL)

    def table(self, *words):
        status, out, err = planner(*words)
        self.assertEqual(status, 0, err)
        return list(csv.reader(io.StringIO(out)))[1:], err

    def test_recorded(self):
        """Abandoned calls are offered, and neither answered nor within; in the order of the day over both days."""
        rows = "phone,3600,5,20,0\nphone,3601,0,3,1\nmail,3602,5,21,0\nphone,90001,5,0,0\nphone,1800,1,7,0\n"
        trace = self.file("t.csv", f"source,time,d,wait,gone\n{rows}")
        words = "recorded", trace, "--model", self.model, "--wait", "wait", "--abandoned", "gone"
        got, _ = self.table(*words)
        first = ["1", "1", "0", "1.0", "7.0", "7.0"]
        self.assertEqual(got[:2], [["00:30", "all", *first], ["00:30", "phone", *first]])
        self.assertEqual(got[2], ["01:00", "all", "4", "3", "1", "0.5", "13.7", "21.0"])
        self.assertEqual(got[3], ["01:00", "mail", "1", "1", "0", "0.0", "21.0", "21.0"])
        self.assertEqual(got[4:], [["01:00", "phone", "3", "2", "1", "0.6667", "10.0", "20.0"]])
        got, _ = self.table(*words, "--source", "phone", "--within", 0)
        self.assertEqual([row[2:6] for row in got], [["1", "1", "0", "0.0"], ["3", "2", "1", "0.3333"]])
        self.refuses(f"{trace}: no source 'fax'; it has phone, mail", *words, "--source", "fax")
        self.refuses(f"{trace}: no column 'w'; it has d, wait, gone", *words[:-3], "w")

    def test_forms_and_times(self):
        """Each table in each form, with a time for --within, by quarter, half and whole hours."""
        trace = EXAMPLES / "week" / "recorded.csv"
        more = "--wait", "wait", "--abandoned", "gone"
        commands = ("recorded", trace, "--model", WEEK[0], *more), ("validate", WEEK[0], trace, "--node", "desk", "--roster", ROSTER, *more)
        for words in commands:
            for every, count in ("15min", 40), ("30min", 20), ("1h", 10):
                rows, _ = self.table(*words, "--every", every)
                self.assertEqual(len([row for row in rows if row[0] != "all"]), count)
                self.assertEqual(self.table(*words, "--every", every, "--within", "20s")[0], rows)
                self.assertEqual(self.table(*words, "--every", every, "--within", "1min")[0], self.table(*words, "--every", every, "--within", 60)[0])
            text = planner(*words)[1]
            header, *rows = csv.reader(io.StringIO(text))
            objects = json.loads(planner(*words, "--format", "json")[1])
            self.assertEqual([["" if it is None else str(it) for it in row.values()] for row in objects], rows)
            self.assertEqual(list(objects[0]), header)
            lines = planner(*words, "--format", "md")[1].splitlines()
            self.assertEqual([line.strip("|").strip().split(" | ")[:3] for line in lines[2:]], [row[:3] for row in rows])
            german = planner(*words, "--csv-style", "excel-de")[1]
            self.assertEqual(next(csv.reader(io.StringIO(german.removeprefix("\ufeff")), delimiter=";")), header)
            if openpyxl:
                path = self.folder / "t.xlsx"
                path.write_bytes(spreadsheet(*words, "--format", "xlsx"))
                sheet = openpyxl.load_workbook(path).active
                typed = [["" if it is None else it if isinstance(it, str) else float(it) for it in row] for row in sheet.values]
                self.assertEqual(typed, [header, *([*row[:2], *(it and float(it) for it in row[2:])] for row in rows)])

    def test_the_thresholds(self):
        """The same gaps are trusted or not as the options say."""
        words = "validate", WEEK[0], EXAMPLES / "week" / "recorded.csv", "--node", "desk", "--wait", "wait", "--abandoned", "gone"
        three = *words, "--agents", 3
        rows, said = self.table(*three)
        self.assertIn("may not be trusted", said)
        overall, each = float(rows[0][5]), max(abs(float(row[5])) for row in rows[1:])
        enough = "--trust-overall", f"{100 * overall + 0.01:.2f}", "--trust-interval", f"{100 * each + 0.01:.2f}"
        self.assertIn("the model may be trusted", self.table(*three, *enough)[1])
        self.assertIn("may not be trusted", self.table(*three, *enough[:2])[1])
        self.assertIn("may not be trusted", self.table(*three, *enough[2:])[1])
        self.assertIn("the model may be trusted", self.table(*three, *enough[:2], "--trust-calls", 714)[1])
        said = self.table(*three, *enough[:2], "--trust-interval", 100, "--trust-calls", 1)[1]
        self.assertIn("no interval of 1 call or more differs by more than 100 points", said)
        for option, text in ("--trust-overall", "-1"), ("--trust-interval", "x"), ("--trust-interval", "101"):
            self.refuses(f"{option} {text}: expected percentage points from 0 to 100, such as 2.5", *three, f"{option}={text}")
        self.refuses("--trust-calls 0: expected a number of calls, 1 or more", *three, "--trust-calls", 0)

    def test_a_model_of_itself_is_right_and_another_is_not(self):
        """Waits that a roster gave, as if they had been recorded: all agree. With other agents they don't."""
        out = self.folder / "out.csv"
        self.tells_any("pool", *WEEK, "--node", "desk", "--roster", ROSTER, "--patience", "exp:300s", "--seed", 3, "--out", out)
        rows = list(csv.DictReader(io.StringIO(text_of(out))))
        gone = sum(row["desk_agent"] == "0" for row in rows)
        self.assertGreater(gone, 20)
        lines = [f"{row['source']},{row['time']},{row['talk']},{row['desk_wait']},{int(row['desk_agent'] == '0')}\n" for row in rows]
        trace = self.file("rec.csv", "source,time,talk,wait,gone\n" + "".join(lines))
        words = "validate", WEEK[0], trace, "--node", "desk", "--wait", "wait", "--abandoned", "gone"
        got, said = self.table(*words, "--roster", ROSTER)
        self.assertIn("mpplan: the model may be trusted: ", said)
        self.assertEqual({(row[5], row[6]) for row in got}, {("0.0", "1.0")})
        self.assertEqual((got[0][:3], sum(int(row[2]) for row in got[1:])), (["all", "all", "713"], 713))
        whole = sum(row["desk_agent"] != "0" and int(row["desk_wait"]) <= 20 for row in rows) / 713
        self.assertEqual(got[0][3], str(round(whole, 4)))
        recorded, _ = self.table("recorded", trace, "--model", WEEK[0], "--wait", "wait", "--abandoned", "gone")
        self.assertEqual([row[3] for row in got[1:]], [row[5] for row in recorded])
        for agents, how in (1, "worse"), (9, "better"):
            got, said = self.table(*words, "--agents", agents)
            self.assertRegex(said, f"mpplan: the model may not be trusted: .* and the model is {how}; ")
            self.assertLess(float(got[0][6]), 0.95)

    def test_who_leaves_the_model(self):
        """An answered caller waits as long as it takes; an abandoned one is served if an agent is free, and that isn't the same end."""
        words = "validate", self.model, self.folder / "t.csv", "--node", "desk", "--agents", 1, "--wait", "wait", "--abandoned", "gone"
        self.file("t.csv", "source,time,d,wait,gone\nphone,0,10,0,0\nphone,0,10,0,0\nphone,0,10,0,0\n")
        self.assertEqual(self.table(*words)[0][0], ["all", "all", "3", "1.0", "1.0", "0.0", "0.3333"])
        self.file("t.csv", "source,time,d,wait,gone\nphone,0,10,0,1\nphone,60,10,0,0\n")
        self.assertEqual(self.table(*words)[0][0], ["all", "all", "2", "0.5", "1.0", "0.5", "0.5"])

    def test_calls_without_work(self):
        """They are counted in a warning after the verdict: the model has less work than there was."""
        words = "validate", WEEK[0], EXAMPLES / "week" / "recorded.csv", "--node", "desk", "--wait", "wait", "--abandoned", "gone", "--agents", 3
        self.assertEqual(self.table(*words)[1].splitlines(keepends=True)[1:], [idle(24, 713)])
        trace = self.file("t.csv", "source,time,d,wait,gone\nphone,0,10,0,0\n")
        self.assertEqual(len(self.table("validate", self.model, trace, *words[3:])[1].splitlines()), 1)

    def test_by_weekday(self):
        """Each weekday's rows are those of a trace that has only its days."""
        trace = EXAMPLES / "week" / "recorded.csv"
        lines = text_of(trace).splitlines()
        more = "--wait", "wait", "--abandoned", "gone", "--every", "1h"
        recorded = lambda path: ("recorded", path, "--model", WEEK[0], *more)
        validated = lambda path: ("validate", WEEK[0], path, "--node", "desk", "--roster", ROSTER, *more)
        for words in recorded, validated:
            rows, said = self.table(*words(trace), "--by", "weekday")
            found = {}
            for row in rows:
                found.setdefault(row[0], []).append(row[1:])
            self.assertEqual([name for name in found if name != "all"], ["Monday", "Tuesday", "Wednesday", "Thursday", "Friday", "Saturday"])
            self.assertEqual(found.pop("all", []), [row for row in self.table(*words(trace))[0] if row[0] == "all"])
            for number, mine in enumerate(found.values()):
                only = self.file(
                    "d.csv", "".join(f"{line}\n" for line in lines[:1] + [it for it in lines[1:] if int(it.split(",")[1]) // 86400 == number])
                )
                self.assertEqual([row for row in self.table(*words(only))[0] if row[0] != "all"], mine)
            if words is validated:
                self.assertEqual(
                    (max(int(row[3]) for row in rows[1:]), said.split(":")[1]), (25, " it can't be said whether the model may be trusted")
                )
                # The worst interval has the name of its weekday.
                three = ["3" if it is ROSTER else "--agents" if it == "--roster" else it for it in words(trace)]
                rows, said = self.table(*three, "--by", "weekday", "--trust-calls", 20)
                worst = max((row for row in rows[1:] if int(row[3]) >= 20), key=lambda row: abs(float(row[6])))
                self.assertIn(f"most at {worst[0]} {worst[1]} ({100 * float(worst[6]):+.1f})", said)
        header = planner(*recorded(trace), "--by", "weekday")[1].splitlines()[0]
        self.assertEqual(header, "weekday,from,queue,offered,answered,abandoned,within,mean_wait,p90")
        why = "--by weekday needs the date of time 0: give --start"
        self.refuses(why, "recorded", self.file("t.csv", "source,time,d,w\nphone,0,9,0\n"), "--model", self.model, "--wait", "w", "--by", "weekday")

    def tells_any(self, *words):
        self.assertEqual(planner(*words)[0], 0)

    def test_what_is_rejected(self):
        trace = self.file("t.csv", "source,time,d,wait\nphone,0,9,0\n")
        words = "validate", self.model, trace, "--node", "desk", "--wait", "wait"
        self.refuses("give --roster or --agents", *words)
        self.refuses("a pool has 1 to 255 agents, not 0", *words, "--agents", 0)


if __name__ == "__main__":
    unittest.main()
