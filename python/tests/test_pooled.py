"""A pool of agents as a whole: in tables, sweeps and days, and in the network and the charts of a page. Expected figures come from a queue written by
hand, and from the text of reports."""

import csv
import html
import io
import json
import re
import unittest

from commands import planner
from ground import nodes_of, text_of, waits_of, words_of
from looking import Tree, elements
from looking import text_of as text_in
from test_pool import WithPool

import mpsim

LACKS = "a pool's max, p50, p90 and p99 need job lines: "
BY_MPSIM, BY_SWEEP = LACKS + "run mpsim with --jobs", LACKS + "give mpplan sweep --within"


class Whole(WithPool):
    def line_of(self, jobs, waits):
        """Returns the figures of a pool in a table, from in to util, with and without those that need job lines."""
        text = text_of(jobs)
        lines = [line.split() for line in text.splitlines() if line.startswith("job ") and line.split()[2] == "phone"]
        talk = sum(int(line.split(",")[2]) for line in text_of(self.folder / "net.csv").splitlines()[1:])
        self.assertEqual((len(lines), len(waits)), (90, 90))
        span, waited = next(int(word[3]) for word in words_of(text, "jobs")), sorted(waits)
        # Of 90 waits the 45th, the 81st and the 90th.
        tail = [waited[89], waited[44], waited[80], waited[89]]
        ends = [sum(waits), *tail, talk, sum(waits) + talk, "", f"{10000 * talk // (2 * span) / 10000:.4f}"]
        self.assertTrue(0 < waited[44] < waited[80] < waited[89])
        return [",".join(map(str, ["desk", "pool", 90, 90, 0, 0, ends[0], *some, *ends[5:]])) for some in (tail, [""] * 4)]

    def plain_rows(self, jobs, names):
        """Returns the rows of some nodes as in the lines of a report."""
        nodes = {node["name"]: node for node in nodes_of(text_of(jobs))}
        return [",".join("" if node == "-" else node for node in nodes[name].values()) for name in names]

    def test_the_table_has_a_pool_as_a_whole(self):
        """In place of its queue and its trunk group, or of the nodes around its agents; all other rows are the lines of the report."""
        for by, where, agents in ("trunk", "desk_queue", []), ("agents", "desk_1 to desk_2", ["desk_1", "desk_2"]):
            model, trace, jobs, waits = self.made(by)
            told = f"mpplan: desk is a pool: its waits are those of {where}\n"
            both = f"{told}mpplan: {BY_MPSIM}\n"
            (whole, bare), short = self.line_of(jobs, waits), self.file("short.txt", text_of(jobs).partition("\njob ")[0] + "\n")
            for words, error, row in ((jobs,), told, whole), ((short,), both, bare), ((model, trace), both, bare):
                rows = self.tells("table", *words, error=error).splitlines()[1:]
                self.assertEqual(rows, [*self.plain_rows(jobs, ["phone"]), row, *self.plain_rows(jobs, [*agents, "wrap"])])
                self.assertEqual(self.tells("table", *words, "--node", "desk", error=error).splitlines()[1:], [row])
            # Its queue, by its own name, is the line of the report, and nothing is printed; nor for exits, which are those of the report.
            rows = self.tells("table", jobs, "--node", "desk_queue", "--node", "wrap").splitlines()[1:]
            self.assertEqual(rows, self.plain_rows(jobs, ["desk_queue", "wrap"]))
            exits = [",".join([*word[1].split("."), word[2], word[4]]) for word in words_of(text_of(jobs), "exit")]
            self.assertEqual(self.tells("table", jobs, "--of", "exits").splitlines()[1:], exits)
            names = ", ".join(node["name"] for node in nodes_of(text_of(jobs)))
            self.refuses(f"no node 'x'; the report has {names}", "table", jobs, "--node", "x")
            # A visit to the pool lasts from the arrival at the queue to the end of the service.
            calls = [tuple(map(int, line.split(",")[1:3])) for line in text_of(self.folder / "net.csv").splitlines()[1:]]
            visits = [f"{at},desk,{time},{wait},{time + wait + talk},left" for at, ((time, talk), wait) in enumerate(zip(calls, waits), 1)]
            self.assertEqual(self.tells("table", jobs, "--of", "visits", "--node", "desk", error=told).splitlines()[1:], visits)
            rows = self.tells("table", model, trace, "--of", "visits", error=told).splitlines()[1:]
            names = list(dict.fromkeys(row.split(",")[1] for row in rows))
            self.assertEqual((rows[90:180], names), (visits, ["phone", "desk", *agents, "wrap"]))
            # A sweep, of two reports.
            text = text_of(jobs).partition("\njob ")[0] + "\n"
            sweep = self.file("sweep.txt", f"scenario 1 status 0\n{text}scenario 2 status 0\n{text}")
            rows = self.tells("table", sweep, "--node", "desk", error=both).splitlines()[1:]
            span = next(word[3] for word in words_of(text, "jobs"))
            self.assertEqual(rows, [f"{at},0,{span},{bare}," for at in (1, 2)])

    def test_a_node_that_is_named_alike_keeps_its_row(self):
        """The pool replaces the nodes that it was made of, with two agents, nine and sixteen, but no other delay."""
        calls = self.file("c.csv", "source,time,talk\n" + "".join(f"phone,{at},9\n" for at in range(40)))
        for agents, ends in (2, []), (9, ["desk_end1"]), (16, ["desk_end1", "desk_end2"]):
            own = ["desk_end", "desk_end_2", "desk_ending", *["desk_end1"][len(ends) :]]
            lines = [f"delay {name} =1 from {before}\n" for name, before in zip(own, ["desk", *own])]
            model = self.file("c.txt", "model 1\nsource phone\nserver desk talk from phone\n" + "".join(lines))
            trace, pool = self.folder / "p.csv", self.folder / "p.txt"
            self.tells("pool", model, calls, "--node", "desk", "--agents", agents, "--by", "agents", "--out", trace, "--out-model", pool)
            report = mpsim.run(pool, trace)
            gone = {"desk_queue", *ends}
            self.assertEqual([node.name for node in report.nodes if node.name in gone], ["desk_queue", *ends])
            rows = planner("table", pool, trace)[1].splitlines()[1:]
            names = [node.name for node in report.nodes if node.name not in {*gone, "desk"}]
            self.assertEqual(sorted(row.split(",")[0] for row in rows), sorted([*names, "desk"]))

    def test_other_servers_are_not_a_pool(self):
        """Of three servers after a split of another name, none has the waits of all."""
        model = self.file("own.txt", "model 1\nsource a\nsplit who 2 turn from a\nserver ct_1 d from who\nserver ct_2 d from who.1\n")
        trace = self.file("own.csv", "source,time,d\na,0,4\na,1,4\na,2,4\n")
        servers = "it lacks the node ct_queue, which mpplan pool would have put upstream of the servers ct_1 to ct_2"
        for command in "service", "hours":
            words = command, model, trace, "--pool", "ct", *(["--tick", "1s"] if command == "hours" else [])
            self.refuses(f"the report has no pool 'ct': {servers}", *words)

    def test_a_sweep_has_a_pool_as_a_whole(self):
        """With the service levels by its waits; without job lines only its mean wait is known. With a directory it is the same."""
        for by, where in ("trunk", "desk_queue"), ("agents", "desk_1 to desk_2"):
            model, trace, jobs, waits = self.made(by)
            why = "was made for a pool at desk: its waits hold only for this trace and this number of agents; scale or edit first, then pool"
            told = f"mpplan: warning: {trace} {why}\nmpplan: desk is a pool: its waits are those of {where}\n"
            lacks = f"mpplan: {BY_SWEEP}"
            whole, bare = self.line_of(jobs, waits)
            head = f"{by},{by},0,{next(word[3] for word in words_of(text_of(jobs), 'jobs'))}"
            ticks = sorted(waits)[50]
            share = round(sum(wait <= ticks for wait in waits) / 90, 6)
            self.assertTrue(51 / 90 <= share < 1 and ticks in waits)
            got = self.tells("sweep", model, trace, "--within", ticks, "--node", "desk", error=told).splitlines()
            self.assertEqual(got[0].split(",")[-3:], [f"within_{ticks}_of_all", f"within_{ticks}_of_departed", "refusal"])
            self.assertEqual(got[1:], [f"{head},{whole},{share},{share},"])
            # Each row with its own shares: no job waits at the source.
            rows = [line.split(",") for line in self.tells("sweep", model, trace, "--within", ticks, error=told).splitlines()[1:]]
            self.assertEqual([(row[4], row[-3]) for row in rows][:2], [("phone", "1.0"), ("desk", str(share))])
            self.assertEqual(len({len(row) for row in rows}), 1)
            wrap = waits_of(text_of(jobs), "wrap")
            self.assertEqual((rows[-1][4], float(rows[-1][-3])), ("wrap", round(sum(item <= ticks for item in wrap) / 90, 6)))
            got = self.tells("sweep", model, trace, "--node", "desk", error=f"{told}{lacks}\n").splitlines()
            self.assertEqual(got[1:], [f"{head},{bare},"])
            folder, said = self.folder / f"many-{by}", "mpplan: 1 scenarios in 1 shards, 1 to run\n"
            parts = told.partition("mpplan: desk")
            error = parts[0] + said + parts[1] + parts[2] + lacks + ", without --folder\n"
            again = self.tells("sweep", model, trace, "--node", "desk", "--folder", folder, error=error)
            self.assertEqual(again.splitlines(), got)
            self.assertEqual(self.tells("sweep", "--folder", folder, "--table", "--node", "wrap").count("\n"), 2)

    def test_a_sweep_over_agents(self):
        """Each number of agents has the waits of its own pool, in rows and in shares, and not those in the trace."""
        model, trace, jobs, waits = self.made()
        text = text_of(model)
        model.write_text(text.replace("trunk desk 2", "trunk desk {agents}"))
        told = "mpplan: the waits at desk are worked out again for each number of agents\n"
        pool = "mpplan: desk is a pool: its waits are those of desk_queue\n"
        for within in 3, sorted(waits)[50]:
            got = self.tells("sweep", model, trace, "--set", "agents=1..4", "--within", within, "--node", "desk", error=told + pool)
            rows = list(csv.DictReader(io.StringIO(got)))
            words = "pool", self.folder / "net.txt", self.folder / "net.csv", "--node", "desk", "--agents", "1..4", "--within", within
            want = list(csv.DictReader(io.StringIO(self.tells(*words))))
            shares = [(row["agents"], row["kind"], row["p90"], row["max"], row[f"within_{within}_of_all"]) for row in rows]
            self.assertEqual(shares, [(row["agents"], "pool", row["p90"], row["max"], row[f"within_{within}_of_all"]) for row in want])
            self.assertGreater(len({row["wait"] for row in rows}), 2)
        self.assertEqual(rows[1]["wait"], str(sum(waits)))
        why = f"{trace} holds the waits at desk for one number of agents, and the models have several"
        again = "without --folder they are worked out again for each"
        self.refuses(f"{why}: {again}", "sweep", model, trace, "--set", "agents=1,2", "--folder", self.folder / "many")

    def test_a_delay_of_another_length(self):
        """It isn't the queue of a pool, as its model shows: its rows are the report's lines."""
        other = self.file("other.txt", "\ufeffmodel 2\r\nsource door\r\ndelay desk_queue =3 from door\r\ntrunk desk 9 d from desk_queue\r\n")
        calls, folder = self.file("other.csv", "source,time,d\ndoor,0,4\n"), self.folder / "folder"
        plain = self.tells("sweep", other, calls)
        self.assertEqual([line.split(",")[4:6] for line in plain.splitlines()[1:]], [["door", "source"], ["desk_queue", "delay"], ["desk", "trunk"]])
        self.assertEqual(planner("sweep", other, calls, "--folder", folder)[1:], (plain, "mpplan: 1 scenarios in 1 shards, 1 to run\n"))

    def test_days_have_a_pool_as_a_whole(self):
        """With percentiles for each day, whose calls are those of a queue that is empty when it begins."""
        model, trace, jobs, waits = self.made()
        told = "mpplan: desk is a pool: its waits are those of desk_queue\n"
        whole, _ = self.line_of(jobs, waits)
        span = next(word[3] for word in words_of(text_of(jobs), "jobs"))
        got = self.tells("days", model, trace, "--every", 1000, "--node", "desk", error=told)
        self.assertEqual(got.splitlines()[1:], [f"0..999,0,{span},{whole},"])

    def data_of(self, path):
        """Returns the data of a page's script."""
        return json.loads(text_of(path).split('id="data">')[1].split("</script>")[0])

    def test_the_pictures_of_a_pool(self):
        """Those under the name of the pool show the waits in its queue: over time by arrival at it, and the share by wait."""
        for by in "trunk", "agents":
            model, trace, jobs, waits = self.made(by)
            page = self.folder / "page.html"
            planner("page", jobs, "--model", model, "--out", page)
            found = self.data_of(page)["runs"][0]["pictures"]
            self.assertEqual(list(found), [*(["desk_queue"] if by == "trunk" else ["desk_1", "desk_2"]), "desk", "wrap"])
            self.assertEqual([item for item in found if "waits" in found[item]], list(found)[by == "trunk" :])
            calls, talks = zip(*[map(int, line.split(",")[1:3]) for line in text_of(self.folder / "net.csv").splitlines()[1:]])
            # From the arrival at the queue to the end of the service.
            told, span = found["desk"]["number"], next(int(word[3]) for word in words_of(text_of(jobs), "jobs"))
            stays = [(time, time + wait + talk) for time, wait, talk in zip(calls, waits, talks)]
            there = [sum(begin <= tick < end for begin, end in stays) for tick in range(span)]
            pieces = [there[at : at + told["width"]] for at in range(0, span, told["width"])]
            self.assertEqual((told["mean"], told["max"]), ([round(sum(piece) / len(piece), 3) for piece in pieces], list(map(max, pieces))))
            told = found["desk"]["time"]
            for at, came in enumerate(told["came"]):
                mine = sorted(wait for time, wait in zip(calls, waits) if time // told["width"] == at)
                want = [mine[(len(mine) * item + 99) // 100 - 1] if mine else None for item in (50, 90, 100)]
                self.assertEqual((came, told["lost"][at], [told[item][at] for item in ("p50", "p90", "max")]), (len(mine), 0, want))
            self.assertEqual(sum(told["came"]), 90)
            told = found["desk"]["waits"]
            self.assertEqual((told["came"], told["wait"]), (90, sorted(set(waits))))
            self.assertEqual(told["count"], [sum(item <= wait for item in waits) for wait in sorted(set(waits))])

    def test_the_network_has_the_figures_of_a_pool(self):
        """In the box of its name; that of its queue shows the arrivals. Without job lines it is the mean wait, and a line says why."""
        model, trace, jobs, waits = self.made()
        page, p90, mean = self.folder / "page.html", sorted(waits)[80], round(sum(waits) / 90, 3)
        load = float(self.line_of(jobs, waits)[0].split(",")[-1])
        short = self.file("short.txt", text_of(jobs).partition("\njob ")[0] + "\n")
        told = "desk is a pool: its waits are those of desk_queue"
        for report, figures, lines in (jobs, f"p90 {p90:,}", [told]), (short, f"mean wait {mean:,}", [told, BY_MPSIM]):
            self.tells("page", report, "--model", model, "--out", page, error="".join(f"mpplan: {line}\n" for line in lines))
            self.assertEqual([html.unescape(found) for found in re.findall("<p>(.* pool.*)</p>", text_of(page))], lines)
            tree = Tree(text_of(page)).root
            boxes = [element for element in elements(tree, "g") if "data-node" in element[1]]
            boxes = {box[1]["data-node"]: [text_in(one) for one in elements(box, "text")] for box in boxes}
            self.assertEqual(boxes["desk"], ["desk", "trunk 2 talk", figures, f"{int(100 * load + 0.5)} %"])
            self.assertEqual(boxes["desk_queue"], ["desk_queue", "delay desk_wait", "90 in"])
            rows = {element[1]["data-node"]: [text_in(one) for one in element[2]] for element in elements(tree, "tr") if "data-node" in element[1]}
            tail = [f"{sorted(waits)[item]:,}" for item in (44, 80, 89, 89)] if report == jobs else ["–"] * 4
            self.assertEqual(rows["desk"][1:12], ["pool", "90", "90", "0", "0", "0", f"{mean:,}", *tail])
            self.assertEqual(list(rows), ["phone", "desk_queue", "desk", "wrap"])
            self.assertEqual(rows["desk_queue"][1:8], ["delay", "90", "90", "0", "0", "0", "0"])
            self.assertEqual(self.data_of(page)["node"], "desk")
            svg = self.folder / "net.svg"
            self.tells("page", report, "--model", model, "--out", svg)
            self.assertIn(f">{figures}<", text_of(svg))
            shown = mpsim.Report.read(report, model)._repr_html_()
            self.assertIn(f">{figures}<", shown)
            self.assertIn('<tr data-node="desk"><th scope="row">desk</th><td>pool</td>', shown)
        # With a server per agent whose outputs no node reads, no node has the name of the pool: its row and its charts exist all the same.
        model = self.file("net.txt", "model 1\nsource phone\nserver desk talk from phone\n")
        out, pool, jobs = (self.folder / item for item in ("o.csv", "o.txt", "o.jobs"))
        self.tells("pool", model, self.folder / "net.csv", "--node", "desk", "--agents", 2, "--by", "agents", "--out", out, "--out-model", pool)
        jobs.write_text("".join(mpsim.run(pool, out, jobs=True).lines()))
        self.tells("page", jobs, "--model", pool, "--out", page, error="mpplan: desk is a pool: its waits are those of desk_1 to desk_2\n")
        data = self.data_of(page)
        self.assertEqual(list(data["runs"][0]["kinds"].items())[:3], [("phone", "source"), ("desk", "pool"), ("desk_queue", "split")])
        self.assertEqual(data["runs"][0]["pictures"]["desk"]["waits"]["wait"], sorted(set(waits)))


if __name__ == "__main__":
    unittest.main()
