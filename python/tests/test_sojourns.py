"""The table of times in the network, with figures from the lines of the reports, parsed independently of the package."""

import json
import random
import subprocess
import unittest
from collections import Counter, defaultdict

from commands import InFolder
from ground import DESK, MODEL, TRACE, nodes_of, reports, text_of, words_of
from test_tables import JOBS, NO_JOBS, REPORT, records_of, rows_of

import mpsim
from mpsim.programs import find
from mpsim.tables.sojourns import sojourns
from mpsim.tables.sojourns import table as sojourn_table
from mpsim.traces.groups import groups_in


class Sojourns(InFolder):
    def test_they_sum_up_to_the_lines_exit(self):
        """For each stored report without forks, by node, with lost jobs separate."""
        count = 0
        for path in reports():
            report, text = mpsim.Report.read(path), text_of(path)
            kinds = {node["name"]: node["kind"] for node in nodes_of(text)}
            if not report.has_visits or {"fork", "join"} & set(kinds.values()):
                continue
            got, want = defaultdict(Counter), defaultdict(Counter)
            for sojourn in sojourns(report):
                got[sojourn.left_at, sojourn.lost].update(jobs=1, time=sojourn.sojourn)
            for _, name, jobs, _, time in words_of(text, "exit"):
                node, output = name.split(".")
                want[node, kinds[node] in ("loss", "trunk") and output == "1"].update(jobs=int(jobs), time=int(time))
            self.assertEqual({key: it for key, it in got.items() if it["jobs"]}, {key: it for key, it in want.items() if it["jobs"]}, path)
            for item in sojourns(report):
                first = next(words for words in words_of(text, "job") if words[1] == str(item.job))
                self.assertEqual((first[2], int(first[4])), (item.source, item.came))
            count += 1
        self.assertGreater(count, 15)

    def test_by_hand(self):
        """Ten calls, of 8, 9, 10, 10, 11, 12, 12, 13, 14 and 14 ticks, as in the last lines of each job in jobs.txt."""
        came = {word[1]: int(word[4]) for word in words_of(text_of(JOBS), "job") if word[2] in ("phone", "web")}
        times = sorted(int(word[8]) - came[word[1]] for word in words_of(text_of(JOBS), "job") if word[2] == "wrap")
        self.assertEqual(times, [8, 9, 10, 10, 11, 12, 12, 13, 14, 14])
        told = self.tells("sojourns", JOBS, "--by", "all", "--within", 10, "--within", 9)
        self.assertEqual(told, "jobs,lost,mean_sojourn,p50,p90,p95,p99,max,within_10,within_9\n10,0,11.3,11,14,14,14,14,0.4,0.2\n")
        told = rows_of(self.tells("sojourns", MODEL, TRACE, "--by", "source", "--percentile", 60))
        self.assertEqual(
            [item[:4] for item in told], [["source", "jobs", "lost", "mean_sojourn"], ["phone", "5", "0", "11.2"], ["web", "5", "0", "11.4"]]
        )
        each = records_of(self.tells("sojourns", JOBS, "--each"))
        self.assertEqual(([item["job"] for item in each], sum(int(item["sojourn"]) for item in each)), ([str(item) for item in range(1, 11)], 113))
        self.assertEqual([list(item.values()) for item in each[:1]], [["1", "phone", "0", "wrap", "left", str(8)]])

    def test_parts_lost_and_held_ones(self):
        """Of two jobs one part of the second is lost, so its other part is held: it has no sojourn. The first leaves at 3, through the join."""
        text = "model 2\nsource src\nfork f 2 from src\nloss a 1 =3 from f\nserver b =1 from f.1\njoin j from a b\n"
        report = mpsim.run(text, [("src", 0), ("src", 1)], jobs=True)
        self.assertEqual([tuple(sojourn) for sojourn in sojourns(report)], [(1, "src", 0, "j", False, 3)])
        # Without the join the last part counts: for the second job that of b, which leaves at 2, a tick after the lost one.
        report = mpsim.run(text.replace("join j from a b\n", ""), [("src", 0), ("src", 1)], jobs=True)
        self.assertEqual([tuple(sojourn) for sojourn in sojourns(report)], [(1, "src", 0, "a", False, 3), (2, "src", 1, "b", False, 1)])
        model = "model 1\nsource web\nsource phone\nloss desk 1 =4 from phone web\ndelay out =1 from desk\n"
        report = mpsim.run(model, [("phone", 0), ("web", 1), ("phone", 2), ("phone", 9)], jobs=True)
        rows = list(sojourn_table(report, percents=[50]))
        lost, left = ["desk", "lost", 1, 0.0, 0, 0], ["out", "left", 2, 5.0, 5, 5]
        self.assertEqual(rows[1:], [["web", *lost], ["phone", *lost], ["phone", *left]])
        rows = list(sojourn_table(report, "end", [0, 5], [50]))
        self.assertEqual(rows[1:], [["desk", "lost", 2, 0.0, 0, 0, 1.0, 1.0], [*left, 0.0, 1.0]])

    def test_by_flow(self):
        """Random flows of packets, by a column of the trace and by source, from the job lines: those lost at a link, and the others' times."""
        draw = random.Random(12)
        model = self.file(
            "m.txt", 'model 1\n# flow: 0 is "voice", 2 is "mail", 2 is "web"\nsource a\nsource b\nloss one 2 d from a b\nloss two 2 =4 from one\n'
        )
        for values in ["0", "2", "10", "9"], ["x", "7", "", "=1"]:
            time, flows, lines = 0, [], ["source,time,d,flow"]
            for _ in range(60):
                time += draw.randrange(5)
                flows.append(draw.choice(values))
                lines.append(f"{draw.choice('ab')},{time},{draw.randrange(7)},{flows[-1]}")
            path = self.file("t.csv", "\n".join([*lines, ""]))
            last, came = {}, {}
            for words in words_of(subprocess.run([find("mpsim"), model, path, "--jobs"], stdout=subprocess.PIPE, text=True).stdout, "job"):
                came.setdefault(words[1], (words[2], int(words[4])))
                last[words[1]] = int(words[8]) - came[words[1]][1] if words[5] == "wait" else None
            of_flow = {str(record): {"0": "voice", "2": "mail / web", "=1": "'=1"}.get(flow, flow) for record, flow in enumerate(flows, 1)}
            of_source = {job: source for job, (source, _) in came.items()}
            order = ["voice", "mail / web", "9", "10"] if "0" in values else ["7", "", "'=1", "x"]
            for by, groups, names in (("column:flow", of_flow, order), ("source", of_source, ["a", "b"])):
                told = rows_of(self.tells("sojourns", model, path, "--by", by, "--within", 6, "--percentile", 50, "--percentile", 90))
                self.assertEqual(told[0], [by.partition(":")[2] or by, "jobs", "lost", "mean_sojourn", "p50", "p90", "max", "within_6"])
                self.assertEqual([row[0] for row in told[1:]], names)
                for name, *row in told[1:]:
                    mine = [last[job] for job in groups if groups[job] == name]
                    times = sorted(item for item in mine if item is not None)
                    wanted = [len(mine), len(mine) - len(times), round(sum(times) / len(times), 3), times[-(-len(times) // 2) - 1]]
                    wanted += [times[-(-90 * len(times) // 100) - 1], times[-1], round(sum(time <= 6 for time in times) / len(mine), 6)]
                    self.assertEqual(row, [str(item) for item in wanted], name)
        self.assertGreater(sum(item is None for item in last.values()), 5)
        self.assertEqual(len(json.loads(self.tells("sojourns", model, path, "--by", "column:flow", "--format", "json"))), 4)

    def test_groups_that_are_refused(self):
        model, path = self.file("m.txt", DESK), self.file("t.csv", "source,time,d,flow\ndoor,1,2,a\n")
        self.refuses(f"{path}: no column 'kind'; it has d, flow", "sojourns", model, path, "--by", "column:kind")
        self.refuses("--by column:kind needs a model and a trace", "sojourns", JOBS, "--by", "column:kind")
        self.refuses("--by column:flow can't be combined with --each", "sojourns", model, path, "--by", "column:flow", "--each")
        why = "argument --by: flow: expected both, source, end, all or column:NAME (see mpplan sojourns --help)"
        self.refuses(why, "sojourns", model, path, "--by", "flow", status=2)
        with self.assertRaisesRegex(ValueError, "^the column 'flow' has 1 values, but 2 jobs were run"):
            list(sojourn_table(mpsim.run(DESK, [("door", 0, 1), ("door", 1, 1)], jobs=True), groups_in(path, "flow")))
        # A job with a held part isn't counted, and doesn't move the groups of those after it.
        model = self.file("m.txt", "model 2\nsource src\nfork f 2 from src\nloss a 1 =3 from f\nserver b =1 from f.1\njoin j from a b\n")
        path = self.file("t.csv", "source,time,flow\nsrc,0,a\nsrc,1,b\nsrc,9,c\n")
        rows = rows_of(self.tells("sojourns", model, path, "--by", "column:flow"))[1:]
        self.assertEqual([row[:3] for row in rows], [["a", "1", "0"], ["c", "1", "0"]])
        # A group of which all are lost has no sojourns.
        model = self.file("m.txt", "model 1\nsource door\nloss one 1 d from door\n")
        path = self.file("t.csv", "source,time,d,flow\ndoor,1,2,a\ndoor,1,2,b\n")
        self.assertEqual(
            self.tells("sojourns", model, path, "--by", "column:flow", "--percentile", 9, "--within", 3).splitlines()[1:],
            ["a,1,0,2.0,2,2,1.0", "b,1,1,,,,0.0"],
        )

    def test_refusals(self):
        self.refuses(NO_JOBS, "sojourns", REPORT)
        told = self.tells("sojourns", self.file("m.txt", DESK), self.file("t.csv", "source,time,d\n"))
        self.assertEqual(told, "source,left_at,how,jobs,mean_sojourn,p50,p90,p95,p99,max\n")


if __name__ == "__main__":
    unittest.main()
