"""The tables of reports: service, sojourns, table and compare, and run; with figures from the lines of the reports, parsed independently of the
package."""

import csv
import io
import re
import subprocess
import sys
import unittest

from commands import InFolder, planner
from ground import DESK, EXAMPLES, MODEL, ROOT, TRACE, nodes_of, reports, text_of, waits_of, words_of

import mpsim
from mpsim.tables.comparison import compare
from mpsim.tables.service import figures, service
from mpsim.tables.sojourns import sojourns
from mpsim.times.calendar import with_settings
from mpsim.times.texts import SECOND

CALLS = EXAMPLES / "callcentre"
JOBS, REPORT, SWEEP = CALLS / "jobs.txt", CALLS / "report.txt", EXAMPLES / "sweep" / "report.txt"
NO_TICK = "the length of a tick is unknown: give --tick and --start, or {} whose first lines mpplan prepare wrote"
TOGETHER = "mpplan: figures of several sources together (phone, web) at {}; --by source gives each\n"
NO_JOBS = f"{REPORT}: the report has no job lines: run mpsim with --jobs"


def rows_of(text):
    return list(csv.reader(io.StringIO(text)))


def records_of(text):
    return list(csv.DictReader(io.StringIO(text)))


class Service(InFolder):
    def test_by_hand(self):
        """At the desk the waits are 0, 0, 3, 5, 7, 7 and 8; of six at the expert three are lost, and the others wait 0, 4 and 5."""
        self.assertEqual(sorted(waits_of(text_of(JOBS), "desk")), [0, 0, 3, 5, 7, 7, 8])
        want = "node,came,departed,lost,held,mean_wait,p95,max,within_5_of_all,within_5_of_departed\n"
        want += "desk,7,7,0,0,4.286,8,8,0.571429,0.571429\nexpert,6,3,3,0,3.0,5,5,0.5,1.0\n"
        words = "--node", "desk", "--node", "expert", "--within", 5, "--percentile", 95
        self.assertEqual(self.tells("service", JOBS, *words, error=TOGETHER.format("desk, expert")), want)
        self.assertEqual(self.tells("service", MODEL, TRACE, *words, error=TOGETHER.format("desk, expert")), want)
        told = rows_of(self.tells("service", JOBS, error=TOGETHER.format("greet, expert, desk, wrap")))
        self.assertEqual([item[0] for item in told[1:]], ["greet", "expert", "desk", "wrap"])
        self.assertEqual(told[0][-2:], ["within_20_of_all", "within_20_of_departed"])
        words = "--node", "desk", "--within", 4, "--within", 3, "--percentile", 99.9
        told = rows_of(self.tells("service", JOBS, *words, error=TOGETHER.format("desk")))
        self.assertEqual((told[0][6], told[1][6:]), ("p99.9", ["8", "8"] + 4 * ["0.428571"]))

    def test_each_source(self):
        """The desk's calls by hand: each source has the waits of its own jobs, and all together are as without sources."""
        text = text_of(JOBS)
        lines = [line.split() for line in text.splitlines() if line.startswith("job ")]
        sources = {job[1]: job[2] for job in lines if job[2] in ("phone", "web")}
        words = "service", JOBS, "--node", "desk", "--within", 5, "--percentile", 90
        (plain,) = records_of(self.tells(*words, error=TOGETHER.format("desk")))
        found = records_of(self.tells(*words, "--by", "source"))
        self.assertEqual([(row["node"], row.pop("source")) for row in found], [("desk", name) for name in ("all", "phone", "web")])
        self.assertEqual(found[0], plain)
        for row, name in zip(found[1:], ("phone", "web")):
            waits = [int(job[6]) for job in lines if job[2] == "desk" and sources[job[1]] == name]
            self.assertEqual((int(row["came"]), float(row["within_5_of_all"])), (len(waits), round(sum(it <= 5 for it in waits) / len(waits), 6)))
            (hour,) = records_of(self.tells("hours", JOBS, "--node", "desk", "--tick", "1h", "--by", "day", "--within", 5, "--source", name))[:1]
            self.assertIn("within_5_of_all", hour)
        words = "hours", JOBS, "--node", "desk", "--tick", "1s", "--percentile", 90
        both = [records_of(self.tells(*words, "--source", name)) for name in ("phone", "web")]
        every = records_of(self.tells(*words, error=TOGETHER.format("desk").replace("--by source gives each", "--source NAME gives one")))
        self.assertEqual(sum(int(row["came"]) for rows in both for row in rows), sum(int(row["came"]) for row in every))
        self.assertEqual(records_of(self.tells(*words, "--source", "web", "--source", "phone")), every)
        self.refuses(f"{JOBS}: no source 'fax'; it has phone, web", *words, "--source", "fax")

    def test_times_in_place_of_ticks(self):
        """Half seconds: 2.4 s are four whole ticks. The tick comes from --tick or from the model; a time and its ticks have one column."""
        bare = text_of(MODEL)
        model = self.file("m.txt", with_settings(bare, SECOND // 2, None, None))
        error = TOGETHER.format("desk")
        want = self.tells("service", JOBS, "--node", "desk", "--within", 4, error=error)
        self.assertIn("within_4_of_all", want)
        for words in (JOBS, "--tick", "500ms"), (model, TRACE), (MODEL, TRACE, "--tick", "500ms"):
            for times in ("--within", "2s"), ("--within", "2.4s"), ("--within", "4", "--within", "2s"):
                self.assertEqual(self.tells("service", *words, "--node", "desk", *times, error=error), want)
        one = error.replace("--by source gives each", "--source NAME gives one")
        hours = "hours", JOBS, "--node", "desk", "--tick", "500ms"
        self.assertEqual(self.tells(*hours, "--within", "2s", error=one), self.tells(*hours, "--within", 4, error=one))
        sojourns = "sojourns", model, TRACE
        self.assertEqual(self.tells(*sojourns, "--within", "10s"), self.tells(*sojourns, "--within", 20))
        self.assertEqual(self.tells("sojourns", JOBS, "--tick", "1min", "--within", "1h"), self.tells("sojourns", JOBS, "--within", 60))
        pages = [self.folder / name for name in ("one.html", "other.html")]
        for path, within in zip(pages, ("2s", "4")):
            self.assertEqual(planner("page", JOBS, "--model", model, "--title", "x", "--within", within, "--out", path)[0], 0)
        self.assertEqual(*map(text_of, pages))
        why = "the length of a tick is unknown: give a number of ticks, --tick, or a model whose first lines mpplan prepare wrote"
        for words in ("service", JOBS), ("sojourns", JOBS), ("page", JOBS, "--out", pages[0]), ("sweep", MODEL, TRACE):
            self.refuses(f"--within 2s: {why}", *words, "--within", "2s")

    def test_a_figure_that_is_asked_twice(self):
        """It is reported once, at its first place."""
        twice = "--within", 5, "--percentile", 90, "--within", 0, "--within", "05", "--percentile", 50, "--percentile", "90.0"
        told = rows_of(self.tells("service", JOBS, "--node", "desk", *twice, error=TOGETHER.format("desk")))[0]
        shares = [f"within_{item}_of_{whom}" for item in (5, 0) for whom in ("all", "departed")]
        self.assertEqual(told[6:], ["p90", "p50", "max", *shares])
        told = rows_of(self.tells("sojourns", JOBS, "--by", "all", *twice))[0]
        self.assertEqual(told, ["jobs", "lost", "mean_sojourn", "p90", "p50", "max", "within_5", "within_0"])
        # The name has all digits.
        for words, at in (("service", JOBS, "--node", "desk"), 6), (("sojourns", JOBS, "--by", "all"), 3):
            error = TOGETHER.format("desk") if words[0] == "service" else ""
            told = rows_of(self.tells(*words, "--percentile", "99.99995", "--percentile", "100.0", error=error))[0]
            self.assertEqual(told[at : at + 2], ["p99.99995", "p100"])

    def test_beside_each_stored_report(self):
        """Counts and percentiles as in the lines of the nodes, shares as in the library."""
        count = 0
        for path in reports():
            report, text = mpsim.Report.read(path), text_of(path)
            if not report.has_visits:
                continue
            _, *told = service(report.visits.values(), [0, 7], [50, 90, 99])
            for row, node in zip(told, nodes_of(text)):
                waits = waits_of(text, node["name"])
                self.assertEqual([str(item) for item in row[:5]], [node[it] if it in node else "0" for it in ("name", "in", "out", "lost", "held")])
                if waits:
                    self.assertEqual((row[5], row[9]), (round(int(node["wait"]) / len(waits), 3), int(node["max"])))
                if waits and "p50" in node:
                    self.assertEqual([str(item) for item in row[6:9]], [node[item] for item in ("p50", "p90", "p99")])
                for at, within in (10, 0), (12, 7):
                    served = sum(wait <= within for wait in waits)
                    self.assertEqual(row[at], round(served / row[1], 6) if row[1] else None)
                    self.assertEqual(row[at + 1], round(served / len(waits), 6) if waits else None)
                    share = report.visits[node["name"]].share_within(within)
                    self.assertEqual(row[at], share if share is None else round(share, 6))
                count += 1
        self.assertGreater(count, 60)

    def test_nobody(self):
        self.assertEqual(figures([], [3], [50]), [0, 0, 0, 0, None, None, None, None, None])
        self.assertEqual(figures([-1, -2], [3], [50]), [2, 0, 1, 1, None, None, None, 0.0, None])
        model, trace = self.file("m.txt", DESK), self.file("t.csv", "source,time,d\n")
        self.assertEqual(self.tells("service", model, trace).splitlines()[1], "desk,0,0,0,0" + 8 * ",")
        report = self.file("r.txt", str(mpsim.run(model, trace)))
        self.assertEqual(self.tells("service", report).splitlines()[1], "desk,0,0,0,0" + 8 * ",")

    def test_refusals(self):
        self.refuses(NO_JOBS, "service", REPORT)
        self.refuses(f"{JOBS}: no node 'deck'; it has phone, web, greet, menu, expert, desk, wrap", "service", JOBS, "--node", "deck")
        self.refuses("a percentile is from 0 to 100, not 101.0", "service", JOBS, "--percentile", 101)
        pool, sweep, page = ("--node", "desk", "--agents", 2), (MODEL, TRACE), (JOBS, "--out", self.folder / "page.html")
        expected = "expected a number of ticks, 0 or more, or a time such as 20s or 1min"
        for words in ("service", JOBS), ("hours", JOBS), ("pool", MODEL, TRACE, *pool), ("sojourns", JOBS), ("sweep", *sweep), ("page", *page):
            for text, why in ("-1", f"-1: {expected}"), ("1.5", f"1.5: {expected}"), ("5x", f"5x: {expected}"):
                self.refuses(f"argument --within: {why} (see mpplan {words[0]} --help)", *words, f"--within={text}", status=2)
        self.refuses("/absent: cannot read the model", "service", "/absent", "/absent", status=6)
        self.assertEqual(planner("service", "/absent"), (1, "", "mpplan: /absent: No such file or directory\n"))


class Table(InFolder):
    def test_nodes_and_exits_of_each_stored_report(self):
        for path in reports():
            text, told = text_of(path), records_of(self.tells("table", path))
            wanted = [{name: "" if value == "-" else value for name, value in node.items()} for node in nodes_of(text)]
            self.assertEqual([item["node"] for item in told], [item["name"] for item in wanted])
            for got, want in zip(told, wanted):
                self.assertEqual({name: got[name] for name in want if name != "name"}, {name: it for name, it in want.items() if name != "name"})
            exits = rows_of(self.tells("table", path, "--of", "exits"))
            self.assertEqual(exits[1:], [[*word[1].split("."), word[2], word[4]] for word in words_of(text, "exit")])
        self.assertEqual(self.tells("table", SWEEP, "--of", "exits", "--node", "callback").count(",agents,"), 0)
        self.assertEqual(self.tells("table", CALLS / "report.txt", "--of", "exits", "--node", "desk"), "node,output,jobs,sojourn\n")

    def test_visits(self):
        """The rows of `expert`, also if a job is lost; and a held job."""
        want = "job,node,arrive,wait,depart,end\n2,expert,2,0,8,left\n3,expert,3,5,13,left\n"
        want += "5,expert,6,,,lost\n6,expert,7,,,lost\n8,expert,9,4,15,left\n10,expert,10,,,lost\n"
        self.assertEqual(self.tells("table", JOBS, "--of", "visits", "--node", "expert"), want)
        self.assertEqual(self.tells("table", MODEL, TRACE, "--of", "visits", "--node", "expert"), want)
        self.assertEqual(self.tells("table", JOBS, "--of", "visits").count("\n"), 1 + len(words_of(text_of(JOBS), "job")))
        self.assertIn("\n2,j,2,,,held\n", self.tells("table", EXAMPLES / "cases" / "part-held" / "jobs.txt", "--of", "visits"))

    def test_a_sweep(self):
        """Each row has the fields of its line, and the label of its scenario; a refused scenario has one row."""
        head, *rows = rows_of(self.tells("table", SWEEP, "--node", "callback", "--labels", *range(8, 16)))
        self.assertEqual(head[:8], ["scenario", "status", "span", "node", "kind", "in", "out", "lost"])
        spans = [word[3] for word in words_of(text_of(SWEEP), "jobs")]
        wanted = [node for node in nodes_of(text_of(SWEEP)) if node["name"] == "callback"]
        firsts = [[str(at), "0", span, "callback", "server", it["in"]] for at, span, it in zip(range(8, 16), spans, wanted)]
        self.assertEqual([row[:6] for row in rows], firsts)
        self.assertEqual([dict(zip(head, row))["p90"] for row in rows], [item["p90"] for item in wanted])
        refused = self.file("s.txt", text_of(SWEEP) + "scenario 9 status 3\nmpsim: model line 3: word 1 not allowed\n")
        rows = rows_of(self.tells("table", refused))
        self.assertEqual((len(rows), rows[-1]), (26, ["9", "3", *[""] * 16, "mpsim: model line 3: word 1 not allowed"]))
        self.assertEqual({len(row) for row in rows}, {19})
        rows = rows_of(self.tells("table", refused, "--of", "exits"))
        self.assertEqual([row[3:6] for row in rows[1:3]], [["agents", "0", "885"], ["callback", "0", "253"]])
        self.refuses("2 labels for 8 scenarios", "table", SWEEP, "--labels", "a", "b")
        self.refuses("no node 'desk'; the report has calls, agents, callback", "table", SWEEP, "--node", "desk")

    def test_texts_that_are_not_reports(self):
        text = text_of(JOBS)
        for name, altered, told in (
            ("cut", text[:-20], r"report line \d+: .* is cut"),
            ("altered", text.replace("wait 5", "wait 6", 1), r"report line \d+: .* contradicts the report"),
            ("version", text.replace("report 2", "report 3", 1), r"report line 1: 'mpsim report 3' begins a report of an unknown form"),
            ("empty", "", r"report line 1: '' is not a line of a report"),
            ("trace", text_of(TRACE), r"report line 1: 'source,time,.*' is not a line of a report"),
            ("sweep", text_of(SWEEP)[:-100], r"report line \d+: "),
            ("bytes", "\udcff\n", r"report line 1: "),
        ):
            with self.subTest(name):
                path = self.file(f"{name}.txt", altered)
                status, out, line = planner("table", path)
                self.assertEqual((status, out, line.count("\n")), (1, "", 1))
                self.assertRegex(line, f"^mpplan: {path}: {told}")
        self.refuses(NO_JOBS.replace(f"{REPORT}: ", ""), "table", REPORT, "--of", "visits")
        self.refuses("--labels needs a sweep, but this is a single report", "table", REPORT, "--labels", "a")
        self.refuses(f"{self.folder}/absent: No such file or directory", "table", self.folder / "absent")

    def test_outputs_that_fail(self):
        """A full disk gives one line; a reader that has gone gives none."""
        words = ["sh", "-c", '"$@"', "sh", sys.executable, "-B", ROOT / "mpplan", "table", MODEL, TRACE, "--of", "visits"]
        words[2] = '"$@" >/dev/full'
        ran = subprocess.run(words, stdout=subprocess.PIPE, stderr=subprocess.PIPE, text=True)
        self.assertEqual((ran.returncode, ran.stdout, ran.stderr), (1, "", "mpplan: standard output: No space left on device\n"))
        words[2] = '{ "$@"; echo $? >&2; } | head -1'
        words[8:10] = [self.file("m.txt", DESK), self.file("t.csv", "source,time,d\n" + 20000 * "door,0,0\n")]
        ran = subprocess.run(words, stdout=subprocess.PIPE, stderr=subprocess.PIPE, text=True)
        self.assertEqual((ran.stdout, ran.stderr), ("job,node,arrive,wait,depart,end\n", "141\n"))


class Compare(InFolder):
    def test_reports(self):
        other = self.file("other.txt", text_of(REPORT).replace("max 8 p50 5 p90 8", "max 8 p50 5 p90 7"))
        told = self.tells("compare", REPORT, other, "--node", "desk").splitlines()
        self.assertEqual([re.split("  +", item.strip()) for item in told], [[str(REPORT), str(other)], ["desk", "8", "7 (-1)"]])
        told = self.tells("compare", REPORT, other).splitlines()
        self.assertEqual([item.split()[0] for item in told[1:]], [node["name"] for node in nodes_of(text_of(REPORT))])
        self.assertEqual(told[3].split(), ["greet", "1", "1", "(+0)"])
        self.assertEqual({len(item) for item in told}, {len(told[0])})

    def test_a_sweep(self):
        """The others are compared with the first scenario."""
        wanted = [int(node["lost"]) for node in nodes_of(text_of(SWEEP)) if node["name"] == "agents"]
        rows = rows_of(self.tells("compare", SWEEP, "--figure", "lost", "--node", "agents", "--csv"))
        self.assertEqual(rows[0], ["node", *map(str, range(1, 9)), *(f"{number} less 1" for number in range(2, 9))])
        self.assertEqual(rows[1], ["agents", *map(str, wanted), *(str(item - wanted[0]) for item in wanted[1:])])
        shown = self.tells("compare", SWEEP, "--figure", "lost", "--node", "agents").splitlines()[1]
        self.assertEqual(shown.split()[:4], ["agents", "253", "181", "(-72)"])
        text = self.tells("compare", SWEEP, REPORT, "--figure", "mean_wait", "--node", "desk").splitlines()
        self.assertIn(f"{SWEEP} 8", text[0])
        self.assertEqual(text[1].split(), ["desk", *["-"] * 8, "4.28571"])

    def test_large_means(self):
        """They have all digits before the point, so that two that differ don't look the same."""
        runs = [mpsim.run(DESK, f"source,time,d\ndoor,0,{item}\ndoor,1,5\ndoor,2,6\n") for item in (2469134, 2469140, 246913)]
        paths = [self.file(f"{at}.txt", str(it)) for at, it in enumerate(runs)]
        shown = self.tells("compare", *paths, "--figure", "mean_wait", "--node", "desk").splitlines()[1]
        self.assertEqual(shown.split()[1:], ["1646090", "1646094", "(+4)", "164609", "(-1481481)"])

    def test_nodes_and_figures(self):
        """A node that only one of them has, and a missing figure."""
        texts = [f"model 1\nsource door\nserver {name} ={demand} from door\n" for name, demand in (("a", 4), ("b", 3), ("a", 1))]
        runs = [mpsim.run(text, [("door", 0), ("door", 1)]) for text in texts]
        self.assertEqual(compare(runs, "wait"), [("door", [0, 0, 0]), ("a", [3, None, 0]), ("b", [None, 2, None])])
        self.assertEqual(compare(runs, "share_lost", ["a"]), [("a", [0.0, None, 0.0])])
        self.assertEqual(dict(compare(runs, "util"))["door"], [None, None, None])
        for name in "count", "line", "name", "p95", "in_":
            self.assertRaises(AttributeError, compare, runs, name)
        self.assertEqual(planner("compare", REPORT, "--figure", "p95")[0], 2)
        self.refuses("no report has a node 'x'; they have phone, web, greet, menu, expert, desk, wrap", "compare", REPORT, "--node", "x")
        refused = self.file("s.txt", "scenario 1 status 3\nmpsim: model line 1: expected model 1 or model 2\n")
        self.refuses(f"{refused}: every scenario was rejected", "compare", refused)
        # A refused one is left out, and a line says so: differences are from the first of the others.
        others = re.sub(r"^scenario (\d+)", lambda found: f"scenario {int(found[1]) + 1}", text_of(SWEEP), flags=re.M)
        some = self.file("some.txt", text_of(refused) + others)
        status, out, err = planner("compare", some, "--csv")
        self.assertEqual((status, out.split("\n")[0].split(",")[:2]), (0, ["node", "2"]))
        self.assertEqual(err, "mpplan: 1 is left out, because it was rejected: mpsim: model line 1: expected model 1 or model 2\n")


class Run(InFolder):
    def test_reports(self):
        self.assertEqual(self.tells("run", MODEL, TRACE), text_of(REPORT))
        self.assertEqual(self.tells("run", MODEL, TRACE, "--jobs"), text_of(JOBS))
        page = self.folder / "page.html"
        self.assertEqual(self.tells("run", MODEL, TRACE, "--page", page, "--tick", "1s"), text_of(REPORT))
        self.assertIn("desk", text_of(page))

    def test_times_that_look_like_clocks(self):
        model = self.file("m.txt", "model 1\nsource a\n")
        for name, times, looks in (
            ("dates", [20260302080017, 20260302080102], "dates with a time, such as 20260302080017"),
            ("clocks", [90000 + 100 * number + number for number in range(60)], "times of day with seconds, such as 95959"),
            ("ticks", range(0, 90000, 1000), None),
            ("one", [20260399], None),
        ):
            trace = self.file(f"{name}.csv", "source,time\n" + "".join(f"a,{time}\n" for time in times))
            said = f"its times look like {looks}, but are read as ticks: mpplan prepare converts them"
            told = self.tells("run", model, trace, error=f"mpplan: warning: {trace}: {said}\n" if looks else "")
            self.assertIn(f"span {max(times)}\n", told)

    def test_refusals(self):
        """An error of a program keeps its status, and is one line with the file, the record and its column."""
        trace = self.file("t.csv", "source,time,d\ndoor,0,1\ndoor,1,210.0\n")
        why = f"{trace}: trace record 2: field 3 is not a number in range (column d): door,1,210.0"
        self.refuses(why, "run", self.file("m.txt", DESK), trace, status=4)
        self.refuses("/absent: cannot read the model", "run", "/absent", trace, status=6)
        bad = self.file("b.txt", "model 1\nsource Door\n")
        self.refuses(f"{bad}: model line 2: word 2 not allowed: source Door", "run", bad, trace, status=3)
        late = self.file("l.txt", DESK.replace("model 1\n", "model 1\nbound 3\n"))
        trace = self.file("u.csv", "source,time,d\ndoor,0,1\ndoor,1,4\n")
        self.refuses("node desk position 1 passes the bound at time 5", "run", late, trace, status=5)

    def test_words_of_a_page(self):
        """They are checked before anything is written, for a picture of the network too; without a page those of `run` have no use."""
        page, picture, day = self.folder / "page.html", self.folder / "network.svg", ("--start", "2026-03-02T08:00")
        for words in ("--tick", "1s"), day, ("--zone", "Europe/Berlin"):
            self.refuses(f"{words[0]} requires --page", "run", MODEL, TRACE, *words)
        calls = [(("run", MODEL, TRACE, "--page", page), NO_TICK.format("a model"))]
        calls += [(("page", JOBS, "--model", MODEL, "--out", item), NO_TICK.format("a --model")) for item in (page, picture)]
        for call, no_tick in calls:
            for words, line in (
                (day, no_tick),
                (("--start", "banana"), no_tick),
                (("--zone", "Europe/Berlin"), no_tick),
                (("--tick", "1s", "--start", "08:00"), "--start 08:00: not an ISO 8601 time"),
                (("--tick", "1s", "--zone", "X/Y"), "this machine has no time zone 'X/Y'; their names look like Europe/Berlin"),
            ):
                self.refuses(line, *call, *words)
        self.assertEqual(list(self.folder.iterdir()), [])


if __name__ == "__main__":
    unittest.main()
