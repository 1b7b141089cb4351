"""The page, read as text: it shows what the report's text says; it is small, loads nothing, and is written completely or not at all."""

import base64
import hashlib
import json
import pathlib
import random
import re
import resource
import signal
import subprocess
import sys
import tempfile
import unittest

from ground import CASES, EXAMPLES, MODEL, SOURCES, Test, heeds_signals, nodes_of, text_of, words_of
from looking import Tree, elements
from looking import text_of as text_in

import mpsim
from mpsim.node_visits import HELD, LOST, NodeVisits, Visits
from mpsim.page import page, piece
from mpsim.page.colours import COLOURS, DARK, LIGHT, style
from mpsim.page.pictures import distribution, nice, number_over_time, over_time

JOBS = EXAMPLES / "callcentre" / "jobs.txt"


def number(text):
    """Returns a figure of the page."""
    return None if text in ("", "–") else float(text.replace(",", ""))


def figures_of(text):
    """Returns what a page shows by node, from the report's text alone."""
    span = int(re.search(r" span (\d+)\n", text)[1])
    found = {}
    for words in nodes_of(text):
        it = {word: None if value == "-" else float(value) for word, value in words.items() if word not in ("name", "kind")}
        figures = {word: it.get(word) for word in ("in", "out", "lost", "held", "p50", "p90", "p99", "max", "util", "peak")}
        figures["share lost"] = round(it["lost"] / it["in"], 4) if it["in"] else None
        figures["mean wait"] = round(it["wait"] / it["out"], 3) if it["out"] else None
        figures["in node"] = round(it["area"] / span, 3) if span else None
        found[words["name"]] = figures
    return found


def named(tree, kind):
    """Returns the elements of this class."""
    return [element for element in elements(tree) if kind in element[1].get("class", "").split()]


def rows_of(table):
    return [[text_in(cell) for cell in elements(row) if cell[0] in ("th", "td")] for row in elements(table, "tr")]


def with_models():
    """Returns the paths of stored reports next to a model, except those from a refusal."""
    found = [path for top in (EXAMPLES, CASES) for path in sorted(top.glob("*/report.txt")) if (path.parent / "model.txt").is_file()]
    found = [item for item in found if text_of(item).startswith("mpsim report ")]
    assert len(found) > 60, len(found)
    return found


def many(nodes, each, longest, seed=2):
    """Returns a report of this many servers in series, with random visits."""
    draw, visits, lines = random.Random(seed), Visits(), []
    names = ["s", *(f"n{number}" for number in range(nodes))]
    for name in names:
        it = visits[name] = NodeVisits(name)
        it.job.extend(range(1, each + 1))
        it.arrive.extend(at * longest // each for at in range(each))
        it.raw_wait.extend([draw.randrange(longest) if draw.random() < 0.9 else LOST for _ in range(4096)] * (each // 4096))
        it.raw_depart.extend(min(arrive + max(wait, 0), longest) for arrive, wait in zip(it.arrive, it.raw_wait))
        kind = "source" if name == "s" else "server"
        lines.append(mpsim.Node(name, kind, each, each, 0, 0, longest, longest, longest, longest, longest, longest, longest, 9, 0.5))
    report = mpsim.Report(2, each, longest, lines, [mpsim.Exit(names[-1], 0, each, longest)], visits)
    report.model = "model 1\nsource s\n" + "".join(f"server {it} =1 from {before}\n" for before, it in zip(names, names[1:]))
    return report


class Figures(Test):
    def test_tables_of_each_stored_report(self):
        for path in with_models():
            with self.subTest(path.parent.name):
                report = mpsim.Report.read(path, path.parent / "model.txt")
                text = text_of(path)
                nodes, exits = (rows_of(element) for element in elements(Tree(page([report])).root, "table"))
                want = figures_of(text)
                self.assertEqual([row[:2] for row in nodes[1:]], [words[1:3] for words in words_of(text, "node")])
                for name, _, *values in nodes[1:]:
                    self.assertEqual(dict(zip(nodes[0][2:], map(number, values))), want[name])
                mean = lambda jobs, sojourn: round(int(sojourn) / int(jobs), 3) if int(jobs) else None
                want = [(words[1], float(words[2]), mean(words[2], words[4])) for words in words_of(text, "exit")]
                self.assertEqual([(row[0], number(row[1]), number(row[2])) for row in exits[1:]], want)
                self.assertEqual(nodes[0][:2] + exits[0], ["node", "kind", "exit", "jobs", "mean sojourn"])

    def test_line_on_the_run(self):
        tree = Tree(page([mpsim.Report.read(JOBS)])).root
        found = [element for element in elements(tree, "p") if element[1].get("id") == "facts"]
        self.assertEqual([text_in(item) for item in found], ["10 jobs, span 23 ticks, mean time in the network 11.3 ticks"])
        nobody = mpsim.Report.read(CASES / "no-records" / "report.txt") if (CASES / "no-records").exists() else mpsim.run("model 1\nsource s\n", [])
        self.assertIn('<p id="facts">0 jobs, span 0 ticks</p>', page([nobody]))

    def test_share_within(self):
        report = mpsim.Report.read(JOBS)
        nodes, _ = (rows_of(element) for element in elements(Tree(page([report], within=4)).root, "table"))
        # At the expert the waits are 0, 5 and 4, and three are lost; at the desk 0, 0, 3, 5, 7, 7 and 8.
        found = {row[0]: row[2] for row in nodes}
        self.assertEqual((found["node"], found["expert"], found["desk"], found["greet"]), ("within 4", "0.3333", "0.4286", "1"))
        # If jobs never wait or get lost, there is none.
        self.assertEqual([found[item] for item in ("phone", "web", "menu", "wrap")], ["–"] * 4)
        with self.assertRaisesRegex(ValueError, "needs job lines"):
            page([mpsim.Report.read(EXAMPLES / "callcentre" / "report.txt")], within=4)

    def test_counts_are_exact_where_they_are_kept(self):
        draw = random.Random(3)
        for count in 1, 2, 9, 1000, 30000:
            visits = NodeVisits("n")
            visits.raw_wait.extend([int(draw.paretovariate(1.1)) for _ in range(count)] + [LOST] * 3)
            visits.job.extend(range(len(visits.raw_wait)))
            told = distribution(visits, 100)
            waits = sorted(item for item in visits.raw_wait if item >= 0)
            for wait, below in zip(told["wait"], told["count"]):
                self.assertEqual(below, sum(item <= wait for item in waits))
            self.assertEqual((told["came"], told["wait"][0], told["wait"][-1], told["count"][-1]), (count + 3, waits[0], waits[-1], count))
            self.assertEqual(len(set(told["wait"])), len(told["wait"]))
            for percent in 50, 90, 95, 99:
                self.assertIn(waits[(percent * count + 99) // 100 - 1], told["wait"])
            self.assertTrue(len(set(waits)) > 100 or told["wait"] == sorted(set(waits)) or count > 100)

    def test_pieces_of_time_have_each_visit_once(self):
        """Including times on the borders of intervals."""
        draw = random.Random(4)
        for span, pieces, step_of_times in (999, 10, 1), (50000, 50, 100), (7, 10, 1), (0, 10, 1):
            visits = NodeVisits("n")
            visits.arrive.extend(sorted(draw.randrange(span + 1) // step_of_times * step_of_times for _ in range(700)))
            visits.arrive.append(span)
            visits.raw_wait.extend(draw.choice([LOST, -2, draw.randrange(100)]) for _ in visits.arrive)
            visits.job.extend(range(len(visits.raw_wait)))
            told = over_time(visits, span, pieces)
            self.assertEqual(sum(told["came"]), 701)
            self.assertEqual({len(told[item]) for item in ("came", "lost", "p50", "p90", "max")}, {span // told["width"] + 1})
            for at, came in enumerate(told["came"]):
                mine = [wait for arrive, wait in zip(visits.arrive, visits.raw_wait) if arrive // told["width"] == at]
                waits = sorted(item for item in mine if item >= 0)
                want = [waits[(len(waits) * item + 99) // 100 - 1] if waits else None for item in (50, 90, 100)]
                self.assertEqual((came, told["lost"][at]), (len(mine), len(mine) - len(waits)))
                self.assertEqual([told[item][at] for item in ("p50", "p90", "max")], want)

    def test_number_in_a_node(self):
        """Compared with a count tick by tick, of visits that are lost, held, over at once, and that meet at the borders of intervals."""
        draw = random.Random(6)
        for span, width, count in (100, 7, 60), (100, 10, 200), (60, 60, 9), (59, 60, 9), (40, 1, 50), (90, 30, 0):
            visits = NodeVisits("n")
            for arrive in sorted(draw.randrange(span + 1) // 2 * 2 for _ in range(count)):
                wait = draw.choice([LOST, HELD, 0, 1, 2])
                visits.arrive.append(arrive)
                visits.raw_wait.append(wait)
                visits.raw_depart.append(wait if wait < 0 else min(arrive + draw.choice([0, 1, 2, 5, 30]), span))
            there = []
            for tick in range(span):
                stays = zip(visits.arrive, visits.raw_wait, visits.raw_depart)
                there.append(sum(it != LOST and arrive <= tick and (it == HELD or tick < depart) for arrive, it, depart in stays))
            pieces = [there[at : at + width] for at in range(0, span, width)]
            want = {"width": width, "mean": [round(sum(piece) / len(piece), 3) for piece in pieces], "max": [max(piece) for piece in pieces]}
            self.assertEqual(number_over_time(visits, span, width), want)

    def test_number_in_each_node_of_a_report(self):
        """Over the run it adds up to the area of its line, and if each visit takes time, the maximum is the peak."""
        seen = set()
        for path in (*EXAMPLES.glob("*/jobs.txt"), *CASES.glob("*/jobs.txt")):
            text = text_of(path)
            if not text.startswith("mpsim report "):
                continue
            span = int(re.search(r" span (\d+)\n", text)[1])
            pictures = json.loads(page([mpsim.Report.read(path)]).split('id="data">')[1].split("</script>")[0])["runs"][0]["pictures"]
            jobs = words_of(text, "job")
            for node in nodes_of(text) if span else ():
                mine = [job for job in jobs if job[2] == node["name"]]
                is_drawn = bool(mine) and node["kind"] not in ("source", "split", "fork")
                self.assertEqual("number" in pictures.get(node["name"], {}), is_drawn, (path, node["name"]))
                self.assertEqual("time" in pictures.get(node["name"], {}), is_drawn and node["kind"] != "delay")
                if is_drawn:
                    told, seen = pictures[node["name"]]["number"], {*seen, node["kind"]}
                    lengths = [min(told["width"], span - at) for at in range(0, span, told["width"])]
                    self.assertEqual(len(told["mean"]), len(lengths))
                    area = sum(mean * length for mean, length in zip(told["mean"], lengths))
                    self.assertAlmostEqual(area, int(node["area"]), delta=0.0005 * span + 1e-6)
                    if all(item[4] != item[-1] for item in mine):
                        self.assertEqual(max(told["max"]), int(node["peak"]), (path, node["name"]))
        self.assertGreaterEqual(seen, {"server", "delay", "loss", "tandem", "join"})

    def test_widths_that_people_like(self):
        self.assertEqual([nice(item) for item in (1, 3, 10, 11, 50, 51, 200001)], [1, 5, 10, 20, 50, 100, 500000])
        # Minutes, hours and days of seconds; the same with ticks of a tenth and of seven seconds, which need not divide them.
        self.assertEqual([nice(it, 1) for it in (3, 31, 61, 3601, 43201, 86401, 200000, 500000)], [5, 60, 120, 7200, 86400, 172800, 432000, 864000])
        self.assertEqual([nice(item, 0.1) for item in (1, 31, 301, 600)], [10, 50, 600, 600])
        self.assertEqual([nice(item, 7) for item in (1, 9)], [2, 18])


class Text(Test):
    def test_a_million_visits_are_less_than_150_kilobytes(self):
        for nodes, each in (1, 1 << 20), (7, 1 << 17):
            self.assertLess(len(page([many(nodes, each, 86400 * 7)]).encode()), 150_000)

    def test_the_largest_network_is_less_than_half_a_megabyte(self):
        """With a million visits, and times near the maximum."""
        self.assertLess(len(page([many(63, 16384, 1 << 60)]).encode()), 500_000)

    def test_nothing_leaves_its_element(self):
        report = mpsim.Report.read(JOBS, MODEL)
        plain = Tree(page([report, report], ["a", "b"], title="c")).root
        labels, title = ["</script><b>&amp;", "\"'&<!--"], "<i>$data</title>"
        tree = Tree(page([report, report], labels, title=title)).root
        self.assertEqual([element[0] for element in elements(tree)], [element[0] for element in elements(plain)])
        run = next(element for element in elements(tree, "select") if element[1]["id"] == "run")
        self.assertEqual([text_in(element) for element in elements(run, "option")], labels)
        self.assertEqual([text_in(next(elements(tree, item))) for item in ("title", "h1")], [title] * 2)
        data = json.loads(text_in(next(element for element in elements(tree, "script") if element[1].get("id") == "data")))
        self.assertEqual([item["label"] for item in data["runs"]], labels)
        # A file name that isn't UTF-8 is shown as well as possible.
        name = b"\xff.txt".decode(errors="surrogateescape")
        self.assertIn("<option>\ufffd.txt</option>", page([report] * 2, [name, "b"], title=name))

    def test_it_asks_for_nothing(self):
        text = page([mpsim.Report.read(JOBS, MODEL)] * 2)
        # Only the name of SVG looks like an address; the checksum of the script may do so by chance.
        plain = re.sub(r"^ *//.*$|sha256-[\w+/=]+", "", text, flags=re.MULTILINE)
        self.assertEqual(re.findall(r"\w+:?//[^\s']*", plain), ["http://www.w3.org/2000/svg"])
        for word in "url(", "@import", "fetch(", "XMLHttpRequest", "WebSocket", "import(", "sendBeacon", "EventSource", "eval(":
            self.assertNotIn(word, text)
        for element in elements(Tree(text).root):
            self.assertEqual(set(element[1]) & {"src", "href", "srcset", "action", "xlink:href", "data", "poster", "ping"}, set())
            self.assertEqual([item for item in element[1] if item.startswith("on")], [])

    def test_its_policy(self):
        """No network access, and only its own script."""
        tree = Tree(page([mpsim.Report.read(JOBS, MODEL)])).root
        policy = next(element[1]["content"] for element in elements(tree, "meta") if element[1].get("http-equiv") == "Content-Security-Policy")
        script = next(text_in(element) for element in elements(tree, "script") if "type" not in element[1])
        digest = base64.b64encode(hashlib.sha256(script.encode()).digest()).decode()
        told = dict(part.strip().split(" ", 1) for part in policy.split(";"))
        want = {"style-src": "'unsafe-inline'", "script-src": f"'sha256-{digest}'"}
        self.assertEqual(told, {"default-src": "'none'", **want, "base-uri": "'none'", "form-action": "'none'"})

    def test_no_report(self):
        with self.assertRaisesRegex(ValueError, "every model was rejected"):
            mpsim.sweep([], {1: "model 1\n", 2: "model 1\n"}).save("never")
        self.assertFalse(pathlib.Path("never").exists())

    def test_piece_of_a_notebook(self):
        """The network and the tables of the page, without a script, and without names that a notebook may have twice or keys that do nothing."""
        report = mpsim.Report.read(JOBS, MODEL)
        tree = Tree(report._repr_html_()).root
        self.assertEqual(list(elements(tree, "script")) + list(elements(tree, "button")), [])
        for element in elements(tree):
            self.assertEqual(set(element[1]) & {"id", "tabindex", "aria-pressed", "aria-sort"}, set())
        whole = Tree(page([report])).root
        self.assertEqual([rows_of(element) for element in elements(tree, "table")], [rows_of(element) for element in elements(whole, "table")])
        self.assertEqual([text_in(element) for element in elements(tree, "svg")], [text_in(element) for element in elements(whole, "svg")])
        self.assertLess(len(piece(report)), 15000)
        self.assertEqual(list(elements(Tree(piece(mpsim.Report.read(JOBS))).root, "svg")), [])


def lightness(colour):
    """Returns the relative luminance defined by WCAG."""
    parts = (int(colour[at : at + 2], 16) / 255 for at in (1, 3, 5))
    red, green, blue = (part / 12.92 if part <= 0.04045 else ((part + 0.055) / 1.055) ** 2.4 for part in parts)
    return 0.2126 * red + 0.7152 * green + 0.0722 * blue


def contrast(one, other):
    low, high = sorted(map(lightness, (one, other)))
    return (high + 0.05) / (low + 0.05)


class Colours(Test):
    def values(self):
        """Returns the colours for light and dark mode, from the rules of the page."""
        rules = dict(re.findall(r"([^{}]+)\{((?:--[\w-]+:[^;{}]+;)+color-scheme:\w+)\}", page([mpsim.Report.read(JOBS)])))
        rules = {name.strip().rsplit("\n", 1)[-1]: dict(part.split(":") for part in text.split(";")) for name, text in rules.items()}
        self.assertEqual((rules[LIGHT]["color-scheme"], rules[DARK]["color-scheme"]), ("light", "dark"))
        return [{name[2:]: it for name, it in rules[which].items()} for which in (LIGHT, DARK)]

    def test_letters_can_be_read(self):
        """On each load; and charts stand out from their background."""
        for values in self.values():
            for at in range(6):
                self.assertGreaterEqual(contrast(values[f"on{at}"], values[f"load{at}"]), 4.5, at)
            for ground in "paper", "row", "load0":
                self.assertGreaterEqual(contrast(values["ink"], values[ground]), 7, ground)
            for name in "soft", "p50", "p90", "max", "lost":
                self.assertGreaterEqual(contrast(values[name], values["paper"]), 4.5, name)
            for name in "came", "focus", "marked":
                self.assertGreaterEqual(contrast(values[name], values["paper"]), 3, name)
            # Lost jobs are visible within the arrivals.
            self.assertGreaterEqual(contrast(values["lost"], values["came"]), 1.7)

    def test_loads_differ_in_lightness(self):
        """Without colour vision too: each step is darker than the one before, or lighter in dark mode."""
        for values, is_dark in zip(self.values(), (False, True)):
            steps = [lightness(values[f"load{at}"]) for at in range(1, 6)]
            self.assertEqual(steps, sorted(steps, reverse=not is_dark))
            for one, other in zip(range(1, 5), range(2, 6)):
                self.assertGreaterEqual(contrast(values[f"load{one}"], values[f"load{other}"]), 1.2)

    def test_each_colour_is_one(self):
        text = page([mpsim.Report.read(JOBS, MODEL)] * 2)
        self.assertEqual(set(re.findall(r"var\(--([\w-]+)\)", text)), set(COLOURS))
        # No rule has a colour of its own, except those of the table of colours.
        self.assertEqual(set(re.findall(r"#[0-9a-f]{3,8}\b", text.replace(style(), ""))) - {"#data"}, set())


class Files(Test):
    def setUp(self):
        super().setUp()
        held = tempfile.TemporaryDirectory()
        self.addCleanup(held.cleanup)
        self.folder = pathlib.Path(held.name)

    def planner(self, *words, **more):
        words = [sys.executable, "-B", "-m", "mpsim", *map(str, words)]
        return subprocess.Popen(words, cwd=SOURCES, stdout=subprocess.PIPE, stderr=subprocess.PIPE, text=True, **more)

    def told(self, *words, **more):
        with self.planner(*words, **more) as process:
            out, line = process.communicate()
        return process.returncode, out, line

    def test_page_of_a_report(self):
        out = self.folder / "a page.html"
        self.assertEqual(self.told("page", JOBS, "--model", MODEL, "--out", out), (0, "", ""))
        self.assertEqual(out.read_text(), page([mpsim.Report.read(JOBS, MODEL)], ["jobs"], title="jobs"))
        # Two with the same name get their paths.
        sweep, other = EXAMPLES / "sweep" / "report.txt", EXAMPLES / "callcentre" / "report.txt"
        for paths, names in ((JOBS, sweep), ["jobs", "report"]), ((JOBS, sweep, other), list(map(str, [JOBS, sweep, other]))):
            self.assertEqual(self.told("page", *paths, "--out", out), (0, "", ""))
            run = next(element for element in elements(Tree(out.read_text()).root, "select") if element[1]["id"] == "run")
            labels = [names[0], *(f"{names[1]} {number}" for number in range(1, 9)), *names[2:]]
            self.assertEqual([text_in(element) for element in elements(run, "option")], labels)
        self.assertEqual([path.name for path in self.folder.iterdir()], ["a page.html"])

    def test_arguments_that_are_rejected(self):
        out, other, absent = self.folder / "page.html", EXAMPLES / "desk" / "model.txt", self.folder / "absent"
        for words, line in (
            ((JOBS, "--model", other), f"{other}: the model isn't that of the report: its nodes differ"),
            ((absent,), f"{absent}: No such file or directory"),
            ((EXAMPLES / "callcentre" / "report.txt", "--within", "20"), "the share within a time needs job lines: use jobs=True or --jobs"),
        ):
            with self.subTest(line):
                self.assertEqual(self.told("page", *words, "--out", out), (1, "", f"mpplan: {line}\n"))
        self.assertEqual(list(self.folder.iterdir()), [])

    def test_a_report_that_is_cut(self):
        cut, out = self.folder / "cut.txt", self.folder / "page.html"
        text = text_of(JOBS)
        for length, line in (len(text) - 9, 63), (text.index("exit "), 10), (20, 2):
            cut.write_text(text[:length])
            status, _, told = self.told("page", cut, "--out", out)
            self.assertEqual(status, 1)
            self.assertRegex(told, rf"^mpplan: .*report line {line}: .*\n$")
            self.assertFalse(out.exists())

    def test_no_room(self):
        """A disk that takes no more than 8 kB of a file, and a device that is full: one line; an existing file stays, and nothing else is left."""
        out = self.folder / "page.html"
        out.write_text("before")

        def narrow():
            resource.setrlimit(resource.RLIMIT_FSIZE, (8192, 8192))
            signal.signal(signal.SIGXFSZ, signal.SIG_IGN)

        self.assertEqual(self.told("page", JOBS, "--out", out, preexec_fn=narrow), (1, "", f"mpplan: {out}: File too large\n"))
        self.assertEqual([(path.name, path.read_text()) for path in self.folder.iterdir()], [("page.html", "before")])
        self.assertEqual(self.told("page", JOBS, "--out", "/dev/full"), (1, "", "mpplan: /dev/full: No space left on device\n"))
        with self.assertRaises(OSError):
            mpsim.Report.read(JOBS).save("/dev/full")

    def test_ctrl_c(self):
        """While it reads: one line, and no file."""
        pipe, out = self.folder / "pipe", self.folder / "page.html"
        subprocess.run(["mkfifo", pipe], check=True)
        with self.planner("page", pipe, "--out", out, preexec_fn=heeds_signals) as process:
            with open(pipe, "w") as file:
                file.write("mpsim report 2\n")
                file.flush()
                process.send_signal(signal.SIGINT)
                self.assertEqual((process.communicate()[1], process.returncode), ("mpplan: stopped\n", 130))
        self.assertEqual(list(self.folder.iterdir()), [pipe])


if __name__ == "__main__":
    unittest.main()
