"""The page of a decision: its figures beside those of the other commands and of plain sums, its words, and its size on paper."""

import csv
import io
import pathlib
import random
import re
import shutil
import subprocess
import unittest

from commands import InFolder, idle, planner
from ground import EXAMPLES, LONGEST, Test, text_of
from looking import Tree, elements
from looking import text_of as text_in

from mpsim.command.decision import _Case, cost_of
from mpsim.page.decisions import Case, Decision, decision_page
from mpsim.page.parts import in_words
from mpsim.tables.decisions import Calls

MODEL, RECORDED, ROSTER = (EXAMPLES / "week" / name for name in ("model.txt", "recorded.csv", "roster.csv"))
WAITS = "--wait", "wait", "--abandoned", "gone"
CHROMIUM = shutil.which("chromium")


class Page:
    """The page of a file: its sections as text, and its tables as lists of rows."""

    def __init__(self, path):
        self.tree = Tree(text_of(path)).root
        sections = {}
        for section in elements(self.tree, "section"):
            head = next(elements(section, "h2"))
            sections[text_in(head)] = text_in(section)[len(text_in(head)) :]
        self.sections = sections
        self.tables = {}
        for table in elements(self.tree, "table"):
            name = table[1].get("id") or text_in(next(elements(table, "caption")))
            self.tables[name] = [[text_in(it) for it in row[2] if isinstance(it, list)] for row in elements(table, "tr")]


class Decisions(InFolder):
    def page(self, *words, trace=RECORDED, said=None):
        path = self.folder / "d.html"
        status, out, error = planner("decision", MODEL, trace, "--node", "desk", "--out", path, *words)
        self.assertEqual((status, out), (0, ""), error)
        if said:
            unchanged = "mpplan: each call takes 20 seconds longer: 24 of 713 calls need 0 ticks and stay so\n"
            self.assertEqual(error, f"{unchanged}mpplan: {path}: {said}\n{idle(24, 713)}")
        return Page(path)

    def staff(self, *words, trace=RECORDED, idles=(24, 713)):
        return list(csv.DictReader(io.StringIO(self.tells("staff", MODEL, trace, "--node", "desk", *words, error=idle(*idles) if idles else ""))))

    def test_the_proposal(self):
        """The numbers of mpplan staff, half-hour by half-hour; its hours, its share and its cost."""
        rows = self.staff()
        hours = sum(int(row["agents"]) for row in rows) / 2
        calls = sum(float(row["calls"]) * int(row["days"]) for row in rows)
        share = sum(round(float(row["within"] or 0) * float(row["calls"])) for row in rows) / calls
        page = self.page("--cost", "35 EUR/h", "--shrinkage", "30%", said=f"{hours:g} hours per week, {100 * share:.1f} % in time")
        for name in "Monday", "Tuesday", "Saturday":
            mine = {row["from"]: [row["calls"].removesuffix(".0"), row["agents"]] for row in rows if row["weekday"] == name}
            found = {row[0]: row[1:] for row in page.tables[name][1:]}
            self.assertEqual({time: it for time, it in found.items() if it != ["0", "0"]}, mine)
        paid = hours / 0.7
        says = f"{hours:g} hours of answering per week, which is {paid:.1f} paid hours, since 30.0 % of paid time goes to breaks and absences; "
        says += f"this costs {35 * paid:,.2f} EUR per week. With it {int(100 * share)} of 100 of these callers are answered in time."
        self.assertTrue(page.sections["What is proposed"].startswith(says), page.sections["What is proposed"])
        most = max(rows, key=lambda row: int(row["agents"]))
        says = f"At most {most['agents']} people answer at the same time, first on {most['weekday']} at {most['from']}."
        self.assertTrue(page.sections["What is proposed"].endswith(says))
        self.assertEqual(page.tables["cases"][1][:4], ["as proposed", f"{hours:g}", f"{35 * paid:,.2f} EUR", ""])

    def test_what_was(self):
        """The recorded waits, counted here."""
        records = list(csv.DictReader(io.StringIO(text_of(RECORDED))))
        answered = sorted(int(row["wait"]) for row in records if row["gone"] == "0")
        within = 100 * sum(it <= 20 for it in answered) // len(records)
        want = f"{len(records)} people called. {within} of 100 were answered within 20 seconds; {len(records) - len(answered)} gave up before. "
        mean, p90 = round(sum(answered) / len(answered), 1), answered[-(-9 * len(answered) // 10) - 1]
        want += f"Those who were answered waited {in_words(mean)} on average, and 90 of 100 of them at most {in_words(p90)}."
        self.assertTrue(self.page(*WAITS).sections["What was"].startswith(want + "Solid line"))
        self.assertIn("wasn't recorded", self.page().sections["What was"])

    def test_the_roster(self):
        """Its hours from the file; its share as mpplan pool has it."""
        page = self.page("--roster", ROSTER, "--cost", "20/h")
        out = self.folder / "o.csv"
        self.tells("pool", MODEL, RECORDED, "--node", "desk", "--roster", ROSTER, "--every", "1h", "--out", out, error=idle(24, 713))
        waits = [int(row["desk_wait"]) for row in csv.DictReader(io.StringIO(text_of(out)))]
        hours = 0
        for row in csv.DictReader(io.StringIO(text_of(ROSTER))):
            days, begin = row["from"].split()
            clock = lambda text: int(text[:2]) + int(text[3:]) / 60
            hours += {"mon-sat": 6, "mon-fri": 5, "sat": 1}[days] * (clock(row["to"]) - clock(begin))
        found = page.tables["cases"][2]
        self.assertEqual(found[:3], ["the roster", f"{hours:g}", f"{20 * hours:,.2f}"])
        self.assertEqual(found[4], f"{100 * sum(it <= 20 for it in waits) / len(waits):.1f} %")
        own = float(page.tables["cases"][1][1])
        self.assertEqual(found[3], f"{'+' if hours >= own else '−'}{20 * abs(hours - own):,.2f}")

    def test_what_ifs(self):
        """The same calls give the proposal again; one person fewer, and longer calls, what the pool gives that is staffed so."""
        cases = [word for case in ("load=100%", "handling=0s", "agents=-1", "handling=25s", "agents=+1") for word in ("--what-if", case)]
        page = self.page("--date", "2026-03-24", *cases)
        _, own, load, same, fewer, longer, more = page.tables["cases"]
        for row in load, same:
            self.assertEqual((row[1], row[3], row[4]), (own[1], own[3], own[3]))
        lines = text_of(RECORDED).splitlines()
        tuesday = self.file("t.csv", "".join(f"{line}\n" for line in lines[:1] + [it for it in lines[1:] if 86400 <= int(it.split(",")[1]) < 172800]))
        fields = [line.split(",") for line in text_of(tuesday).splitlines()[1:]]
        self.assertIn("0", {row[2] for row in fields})
        # Calls of 0 ticks stay so: nobody served them.
        made = [",".join([*row[:2], str(int(row[2]) + 25) if row[2] != "0" else "0", *row[3:]]) for row in fields]
        later = self.file("l.csv", "".join(f"{line}\n" for line in [lines[0], *made]))
        rows = {row["from"]: int(row["agents"]) for row in self.staff("--date", "2026-03-24")}
        self.assertEqual(page.sections["The goal"], "80 of 100 callers are to be answered within 20 seconds.")
        self.assertEqual(own[1], f"{sum(rows.values()) / 2:g}")

        def share(path, more):
            steps = []
            for number in range(48):
                time = f"{number // 2:02}:{30 * (number % 2):02}"
                steps.append(f"{time}={max(0, rows[time] + more) if rows.get(time) else 0}")
            # Those who wait at the end of the day are served by nobody; the table counts them as not in time.
            words = "pool", MODEL, path, "--node", "desk", "--agents", ",".join(steps), "--choose", "first", "--patience", "9h"
            status, out, _ = planner(*words)
            self.assertEqual(status, 0)
            found = list(csv.DictReader(io.StringIO(out)))
            return sum(round(float(row["within"] or 0) * int(row["offered"])) for row in found) / sum(int(row["offered"]) for row in found)

        self.assertEqual(fewer[3], f"{100 * share(tuesday, -1):.1f} %")
        self.assertEqual(fewer[1], f"{sum(it - 1 for it in rows.values() if it) / 2:g}")
        self.assertEqual(more[1], f"{sum(it + 1 for it in rows.values() if it) / 2:g}")
        self.assertEqual(longer[4], f"{100 * share(later, 0):.1f} %")
        need = sum(int(row["agents"]) for row in self.staff("--date", "2026-03-24", trace=later, idles=(1, 111))) / 2
        self.assertEqual(longer[1], f"{need:g}")
        self.assertEqual(longer[0], "each call takes 25 seconds longer, and the goal is kept")

    def test_times_with_tenths(self):
        """Of a goal, and of a mean wait, below a minute; in ticks of 100 ms."""
        path, model = self.folder / "d.html", self.file("m.txt", "model 1\n# a tick is 100ms\nsource a\nserver desk d from a\n")
        trace = self.file("t.csv", "source,time,d,wait\na,0,100,24\na,50,100,25\n")
        for goal, says in ("80/1.5s", "1.5 seconds"), ("80/12.5s", "12.5 seconds"), ("80/2s", "2 seconds"):
            words = "decision", model, trace, "--node", "desk", "--goal", goal, "--wait", "wait", "--what-if", "agents=+1", "--out", path
            self.assertEqual(planner(*words)[0], 0)
            sections = Page(path).sections
            self.assertEqual(sections["The goal"], f"80 of 100 callers are to be answered within {says}.")
            self.assertIn("waited 2.5 seconds on average, and 90 of 100 of them at most 2.5 seconds.", sections["What was"])

    def test_calls_of_0_ticks_stay_so(self):
        self.assertEqual(Calls([0, 9, 20], [0, 9, 20]).longer(5).services, [0, 14, 25])
        self.assertEqual(Calls([0, 9, 20], [0, 9, 20]).longer(-10).services, [0, 0, 10])

    def test_a_queue_that_goes_first(self):
        """The hours are those of staff with the same priorities, which another order or none doesn't have; the page says who goes first."""
        draw, path = random.Random(8), self.folder / "d.html"
        calls = [(draw.randrange(28800, 43200), "a", 60) for _ in range(400)] + [(draw.randrange(28800, 43200), "b", 900) for _ in range(60)]
        model = self.file("m.txt", "model 1\n# a tick is 1s, time 0 is 2026-03-02T00:00\nsource a\nsource b\nserver desk d from a b\n")
        trace = self.file("t.csv", "source,time,d\n" + "".join(f"{it},{time},{d}\n" for time, it, d in sorted(calls)))
        found = {}
        for first in [], ["--first", "a"], ["--first", "b"]:
            words = model, trace, "--node", "desk", "--goal", "60/2min", *first
            rows = csv.DictReader(io.StringIO(planner("staff", *words)[1]))
            found[" ".join(first)] = hours = sum(int(row["agents"]) for row in rows) / 2
            said = planner("decision", *words, "--out", path)[2]
            self.assertIn(f"{hours:g} hours per week", said)
            # A trace of one day has no day for copies: an error only if it was asked for.
            self.assertIn("mpplan: the case of 10 % more calls is left out: --shift 86400: within the trace there is no other time", said)
            self.assertEqual(planner("decision", *words, "--out", path, "--what-if", "load=110%")[0], 1)
            self.assertEqual([f"Calls to {name} are answered first." in text_of(path) for name in "ab"], [name in first for name in "ab"])
        self.assertEqual(len(set(found.values())), 3, found)

    def test_more_calls(self):
        """A tenth more, as mpplan scale makes them."""
        page = self.page("--what-if", "load=110%")
        more = self.folder / "more.csv"
        planner("scale", RECORDED, "--by", "110%", "--shift", "1d", "--model", MODEL, "--out", more)
        need = sum(int(row["agents"]) for row in self.staff(trace=more, idles=(28, 784))) / 2
        self.assertEqual(page.tables["cases"][2][:2], ["10 % more calls, and the goal is kept", f"{need:g}"])

    def test_its_words(self):
        """Clock times, minutes and people, and nothing that only we know."""
        more = "--missing", "12 rows: no time", "--assume", "Nobody is ill.", "--patience", "4min"
        page = self.page("--roster", ROSTER, *WAITS, "--cost", "35/h", *more)
        text = text_in(next(elements(page.tree, "main")))
        self.assertNotRegex(text, r"(?i)\b(ticks?|queues?|nodes?|servers?|pools?|percentile|p90|occupancy|service level|interval)\b")
        for word in "Monday, 23 March 2026 to Saturday, 28 March 2026: 713 calls.", "08:30", "Nobody is ill.", "Callers who wait give up after 4min.":
            self.assertIn(word, text)
        # The page says of the calls without work what the warning says.
        idles = "The work of 24 calls that took no time: if these callers hung up, more people are needed than this page says."
        self.assertEqual(page.sections["What was left out"], f"{idles}12 rows: no time")
        heads = "The goal", "What was", "What is proposed", "Who is needed when", "What if", "What this assumes", "What was left out"
        self.assertEqual(tuple(page.sections), heads)
        charts = [it for it in elements(page.tree, "svg")]
        says = "Monday: people needed and in the roster by time of day. Step through it with the arrow keys."
        self.assertEqual([it[1]["aria-label"] for it in charts][1], says)
        self.assertEqual(len(charts), 7)
        titles = [text_in(it) for it in elements(charts[1], "title")]
        self.assertIn("Monday 08:00: 1 person needed, the roster has 1 person", titles)

    def test_some_days(self):
        page = self.page("--weekday", "tuesday", said=None)
        self.assertEqual(set(page.tables), {"cases", "Tuesday"})
        self.assertRegex(page.sections["What was left out"], r"^\d+ calls on other days\.The work of 1 call .*Whether rows were left out")
        page = self.page("--date", "2026-03-24")
        self.assertIn("Tuesday, 24 March 2026", page.tables)
        self.assertIn("hours per day", page.tables["cases"][0])

    def test_what_is_rejected(self):
        words = "decision", MODEL, RECORDED, "--node", "desk", "--out", self.folder / "d.html"
        for case in "load=0%", "load=110%,120%", "agents=1", "agents=0", "talk=5s", "load":
            status, _, said = planner(*words, "--what-if", case)
            self.assertEqual(status, 1, case)
            self.assertIn("--what-if", said)
        self.refuses("--cost 35: expected a price per hour, such as 35/h or '35 EUR/h'", *words, "--cost", "35")
        self.refuses("--abandoned needs --wait", *words, "--abandoned", "gone")
        self.refuses("there are no calls at desk on the chosen days", *words, "--date", "2026-01-01")
        self.refuses("give --roster or --agents, not both", *words, "--agents", 2, "--roster", ROSTER)
        self.assertEqual(list(self.folder.iterdir()), [])

    @unittest.skipUnless(CHROMIUM, "Chromium isn't installed")
    def test_one_printed_page(self):
        self.page("--roster", ROSTER, *WAITS, "--cost", "35 EUR/h", "--shrinkage", "30%")
        made = self.folder / "d.pdf"
        words = [CHROMIUM, "--headless=new", "--no-sandbox", "--disable-gpu", f"--user-data-dir={self.folder / 'user'}", f"--print-to-pdf={made}"]
        subprocess.run([*words, pathlib.Path(self.folder, "d.html").as_uri()], check=True, capture_output=True, timeout=LONGEST)
        self.assertEqual(len(re.findall(rb"/Type\s*/Page\b", made.read_bytes())), 1)


class Small(Test):
    def test_costs(self):
        for text, cost in ("35/h", (35.0, "")), ("35.5 EUR/h", (35.5, "EUR")), ("35,5€/h", (35.5, "€")), (" 1 / h", (1.0, "")):
            self.assertEqual(cost_of(text), cost)

    def test_names_of_cases(self):
        names = {"load=112%": "12 % more calls", "load=90%": "10 % fewer calls", "handling=-1min": "each call takes 1 minute less"}
        for text, name in {**names, "agents=+2": "2 people more at any time"}.items():
            self.assertEqual(_Case(text).name, name)

    def test_texts_are_no_markup(self):
        made = Decision("<b>&", "<i>", "day", (0.8, 20), None, Case("<u>", 0, None), [Case("<s>", 1, 0.5)], [], (1.0, "<p>"), 0.0, ["<em>"], ["<q>"])
        text = decision_page(made)
        for mark in "<b>", "<i>", "<u>", "<s>", "<em>", "<q>", "1.00 <p>":
            self.assertNotIn(mark, text)
        self.assertIn("Nobody called.", text)


if __name__ == "__main__":
    unittest.main()
