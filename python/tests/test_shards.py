"""mpplan sweep: one table, equal to single runs, however it is run; and what remains if a part of it fails.

GNU parallel and Slurm are replaced by scripts on the PATH that run what they are given: `parallel` each line that it reads, from the last to the
first, and `sbatch` the script for each task of its array. How the real ones handle a machine that disappears isn't tested here.
"""

import csv
import functools
import io
import json
import os
import pathlib
import re
import resource
import shlex
import signal
import socket
import subprocess
import sys
import tempfile
import unittest

from ground import SOURCES, Test, children_of, heeds_signals, nodes_of, stand_in, text_of, wait_for, waits_of
from looking import Tree, elements
from looking import text_of as text_in

from mpsim import programs
from mpsim.sweeps.shards import Folder

TEXT = "model 2\nsource calls\ntrunk lines {lines} {column} from calls\n"
MPSWEEP = shlex.quote(programs.find("mpsweep"))
NUMBERS = ["in", "out", "lost", "held", "wait", "max", "p50", "p90", "p99", "busy", "area", "peak", "util"]
PARALLEL = 'echo "$@" >>"$LOG"; tac | while read -r line; do sh -c "$line" </dev/null; done; exit 0'
SBATCH = """echo "$@" >>"$LOG"
for word; do case $word in --array=1-*) last=${word#--array=1-} ;; esac; script=$word; done
task=$last
while [ "$task" -ge 1 ]; do SLURM_ARRAY_TASK_ID=$task sh "$script"; task=$((task - 1)); done"""


@functools.lru_cache(maxsize=None)
def mpsim_told(model, trace):
    """Returns the status, the text and the error line of a single run of two texts, by the program itself. Many tests share the results."""
    with tempfile.TemporaryDirectory() as folder:
        files = [pathlib.Path(folder, name) for name in ("model.txt", "trace.csv")]
        for file, text in zip(files, (model, trace)):
            file.write_text(text)
        ran = subprocess.run([programs.find("mpsim"), *files, "--jobs"], stdout=subprocess.PIPE, stderr=subprocess.PIPE, text=True)
    return ran.returncode, ran.stdout, ran.stderr.rstrip("\n")


def single_runs(models, trace, name="trace"):
    """Returns the rows of a table, from single runs: `models` are pairs of the first columns and a text."""
    rows = []
    for head, model in models:
        status, text, line = mpsim_told(model, text_of(trace))
        if status:
            rows.append([name, *head, str(status), "", "", "", *[""] * len(NUMBERS), line])
            continue
        span = re.search(r" span (\d+)", text)[1]
        for node in nodes_of(text):
            numbers = [node[word] for word in NUMBERS[:-1]] + ["" if node["util"] == "-" else node["util"]]
            rows.append([name, *head, "0", span, node["name"], node["kind"], *numbers, ""])
    return rows


def table_of(rows, names):
    """Returns the text of a table."""
    out = io.StringIO()
    csv.writer(out, lineterminator="\n").writerows([["trace", "model", *names, "status", "span", "node", "kind", *NUMBERS, "refusal"], *rows])
    return out.getvalue()


class InFolder(Test):
    """A directory with a model, a trace, and stand-ins."""

    def setUp(self):
        super().setUp()
        held = tempfile.TemporaryDirectory()
        self.addCleanup(held.cleanup)
        self.folder = pathlib.Path(held.name)
        self.model, self.trace, self.at = self.folder / "m.txt", self.folder / "trace.csv", self.folder / "a sweep"
        self.model.write_text(TEXT)
        self.trace.write_text("source,time,a,b\n" + "".join(f"calls,{number},30,{7 + number % 5}\n" for number in range(300)))
        self.path = self.folder / "path"
        self.path.mkdir()
        self.log = self.folder / "log"
        for name, script in ("parallel", PARALLEL), ("sbatch", SBATCH), ("scontrol", "echo 'MaxArraySize            = 3'"):
            stand_in(self.path, name, script)

    def begun(self, *words, **more):
        settings = {**os.environ, "PATH": f"{self.path}:{os.environ['PATH']}", "LOG": str(self.log), "PYTHONPATH": str(SOURCES)}
        settings.update(more.pop("settings", {}))
        words = [sys.executable, "-B", "-m", "mpsim", "sweep", *map(str, words)]
        return subprocess.Popen(words, stdout=subprocess.PIPE, stderr=subprocess.PIPE, text=True, env=settings, cwd=self.folder, **more)

    def told(self, *words, **more):
        """Returns the status, the output and the lines on stderr of a call."""
        with self.begun(*words, **more) as process:
            out, line = process.communicate()
        return process.returncode, out, line.splitlines()

    def variants(self, count=200, column="a"):
        """Returns arguments for this many variants, and the table that single runs of them give."""
        models = [(["m", str(number)], TEXT.format(lines=number, column=column)) for number in range(count)]
        text = self.folder / "m.txt"
        text.write_text(TEXT.replace("{column}", column))
        return [self.model, self.trace, "--set", f"lines=0..{count - 1}"], table_of(single_runs(models, self.trace), ["lines"])


class InMemory(InFolder):
    def test_table(self):
        words, want = self.variants(70)
        self.assertEqual(self.told(*words), (11, want, []))
        self.assertEqual(self.told(*words, "--node", "lines")[1].count(",calls,"), 0)
        self.assertEqual(sorted(path.name for path in self.folder.iterdir()), ["m.txt", "path", "trace.csv"])

    def test_each_model_trace_and_value(self):
        """Trace by trace, model by model, value by value, the last name varying fastest; files by a pattern."""
        other, tuesday = self.folder / "other.txt", self.folder / "tuesday.csv"
        other.write_text(TEXT.replace("30", "3").replace("calls\n", "calls\r\n", 1))
        tuesday.write_text(text_of(self.trace).replace(",30,", ",11,"))
        models = [
            ([name, str(lines), column], file.read_text().format(lines=lines, column=column))
            for name, file in (("m", self.model), ("other", other))
            for lines in (2, 5, 8)
            for column in "ab"
        ]
        rows = single_runs(models, self.trace) + single_runs(models, tuesday, "tuesday")
        words = "--model", "m.txt", "oth*.txt", "--trace", self.trace, "--trace", tuesday, "--set", "lines=2..8..3", "--set", "column=a,b"
        self.assertEqual(self.told(*words), (0, table_of(rows, ["lines", "column"]), []))

    def test_page(self):
        words, _ = self.variants(9)
        page = self.folder / "page.html"
        status, out, _ = self.told(*words, "--page", page)
        self.assertEqual(status, 11)
        tree = Tree(page.read_text()).root
        run = next(element for element in elements(tree, "select") if element[1]["id"] == "run")
        # The model without lines is refused.
        self.assertEqual([text_in(element) for element in elements(run, "option")], [str(number) for number in range(1, 9)])
        rows = list(csv.DictReader(io.StringIO(out)))
        data = json.loads(text_in(next(element for element in elements(tree, "script") if element[1].get("id") == "data")))
        lost = [item["nodes"]["lines"][data["columns"].index("lost")] for item in data["runs"]]
        self.assertEqual(lost, [int(row["lost"]) for row in rows if row["node"] == "lines"])

    def test_share_within(self):
        model = "model 1\nsource calls\nloss desk {places} b from calls\n"
        self.model.write_text(model)
        status, out, _ = self.told(self.model, self.trace, "--set", "places=0..5", "--within", "20")
        self.assertEqual(status, 11)
        rows = [item for item in csv.DictReader(io.StringIO(out)) if item["node"] in ("", "desk")]
        self.assertEqual((rows[0]["within_20_of_all"], rows[0]["refusal"]), ("", "mpsim: model line 3: word 3 not allowed"))
        for places, row in enumerate(rows[1:], 1):
            text = mpsim_told(model.format(places=places), text_of(self.trace))[1]
            waits = waits_of(text, "desk")
            served = sum(wait <= 20 for wait in waits)
            shares = float(row["within_20_of_all"]), float(row["within_20_of_departed"])
            self.assertEqual(shares, (round(served / 300, 6), round(served / len(waits), 6)))

    def test_arguments_that_are_rejected(self):
        self.told(self.model, self.trace, "--set", "lines=1", "--set", "column=a", "--folder", self.at)
        for words, line in (
            ([self.model], "a sweep needs a model and a trace"),
            ([self.model, self.trace, "--set", "lines=1..3"], "model m: a name in braces has no value from --set (KeyError: 'column')"),
            ([self.model, self.trace], "model m: {lines} has no value: give --set lines=FROM..TO or --set lines=VALUE,VALUE"),
            ([self.model, self.trace, "--folder", "x"], "model m: {lines} has no value: give --set"),
            ([self.model, self.trace, "--set", "agents=1..3"], "--set agents: no model contains {agents}"),
            ([self.model, self.trace, "--set", "lines=3..1"], "--set lines=3..1: the range 3..1 is empty"),
            ([self.model, self.trace, "--set", "lines=1", "--set", "lines=2"], "--set lines is given twice"),
            ([self.model, self.trace, "--set", "util=1"], "--set util=1: util is already a column of the table"),
            ([self.model, "absent*.csv", "--set", "lines=1"], "absent*.csv: no such file"),
            ([self.model, self.trace, "--set", "lines=1", "--resume"], "--parallel, --slurm, --resume, --table and --shard require --folder"),
            ([self.model, self.trace, "--set", "lines=1", "--folder", "x", "--within", "3"], "--page and --within can't be used"),
            ([self.model, "/dev/null", "--set", "lines=1", "--set", "column=a", "--folder", "x"], "/dev/null: each shard reads the trace, so"),
            ([self.model, "--folder", self.at, "--resume"], f"{self.at} already has its models, values and traces: give none with"),
            (["--folder", self.at, "--resume", "--parallel", "--slurm"], "--parallel and --slurm exclude each other: give one of them"),
            (["--folder", self.at, "--shard", "2"], f"--shard 2: {self.at} has shards 1 to 1"),
            (["--folder", "nowhere", "--table"], "nowhere/plan.json: No such file or directory"),
            ([self.model, self.trace, "--set", "lines=1", "--set", "column=a", "--folder", self.at], f"{self.at} already has a sweep: give --resume"),
        ):
            with self.subTest(line):
                status, out, lines = self.told(*words)
                self.assertEqual((status, out, len(lines)), (1, "", 1), lines)
                self.assertTrue(lines[0].startswith(f"mpplan: {line}"), lines)
        self.assertFalse((self.folder / "x").exists())

    def test_nodes_that_are_not_there(self):
        """Nothing is run, and nothing is written: each model is checked, even if a node's name contains a value."""
        other, ran, stand_ins = self.folder / "other.txt", self.folder / "ran", self.folder / "programs"
        front = "model 1\nsource calls\nsplit desk_queue 2 turn from calls\n"
        other.write_text("\ufeff # source zz\r\n" + front.replace("\n", "\r\n") + " server s{lines} {column} from desk_queue")
        stand_ins.mkdir()
        stand_in(stand_ins, "mpsweep", f"touch {shlex.quote(str(ran))}")
        values = "--set", "column=a", "--set", "lines=1..3"
        for node, models, line in (
            ("zz", [self.model], "model m: no node 'zz'; it has calls, lines"),
            ("lines", [self.model, self.trace, "--model", other], "model other: no node 'lines'; it has calls, desk_queue, s1"),
            ("zz", [other], "model other: no node 'zz'; it has calls, desk_queue, s1"),
            ("s1", [other], "model other: no node 's1'; it has calls, desk_queue, s2"),
        ):
            words = [*models, *[self.trace] * (len(models) == 1), *values, "--node", "calls", "--node", node]
            for more in [], ["--folder", self.at]:
                told = self.told(*words, *more, settings={"MPSIM_PROGRAMS": str(stand_ins)})
                self.assertEqual(told, (1, "", [f"mpplan: {line}"]))
        self.assertFalse(ran.exists() or self.at.exists())
        # A pool has a name that no node may have.
        other.write_text(front + "server desk_1 a from desk_queue\nserver desk_2 a from desk_queue.1\n")
        told = self.told(other, self.trace, "--node", "desk")
        self.assertEqual((told[0], told[1].splitlines()[1].split(",")[4:6]), (0, ["desk", "pool"]), told)
        self.told(other, self.trace, "--folder", self.at)
        for way in "--table", "--resume":
            self.assertEqual(self.told("--folder", self.at, way, "--node", "zz")[:2], (1, ""))


class Shards(InFolder):
    def test_one_table_however_it_is_run(self):
        words, want = self.variants()
        count = [f"mpplan: 200 scenarios in 4 shards, {number} to run" for number in range(5)]
        self.assertEqual(self.told(*words, "--folder", self.at), (11, want, [count[4]]))
        for folder, more, log in (
            ("p", ["--parallel=--jobs 2"], "--no-notice --halt never --termseq TERM,60000,KILL,25 --jobs 2\n"),
            ("s", ["--slurm"], "--wait --job-name=mpsim --array=1-2 --output={0}/slurm.out --open-mode=append {0}/array.sh\n"),
        ):
            self.log.write_text("")
            self.assertEqual(self.told(*words, "--folder", folder, *more), (11, want, [count[4]]))
            self.assertEqual(self.log.read_text(), log.format(self.folder / folder))
        for folder in self.at, "p", "s":
            self.assertEqual(self.told("--folder", folder, "--table"), (11, want, []))
            self.assertEqual(self.told("--folder", folder, "--resume"), (11, want, [count[0]]))
        self.assertEqual([path for path in self.folder.rglob("*") if path.suffix in (".part", ".failed")], [])

    def test_a_shard_that_is_killed(self):
        """With everything that it started, in each way: the table lacks it and says so; resumed, it is that of 200 single runs."""
        words, want = self.variants()
        killed, folder = self.folder / "killed", self.folder / "programs"
        folder.mkdir()
        # The first call of mpsweep kills its caller: that of shard 4, and of shard 3, which is the first of its task.
        once = shlex.quote(str(killed))
        stand_in(folder, "mpsweep", f'[ -e {once} ] || {{ touch {once}; kill -9 $PPID; }}\nexec {MPSWEEP} "$@"')
        for way, shard in (["--parallel"], 4), (["--slurm"], 3):
            at = self.folder / way[0]
            status, out, lines = self.told(*words, "--folder", at, *way, settings={"MPSIM_PROGRAMS": str(folder)})
            lines = [line for line in lines if line.startswith("mpplan: ")]
            self.assertTrue(killed.exists())
            self.assertEqual(status, 1)
            self.assertEqual(
                lines[1:3],
                [
                    f"mpplan: shard {shard}: it left nothing: not started, or killed, or its disk was full, or its machine disappeared",
                    f"mpplan: 1 of 4 shards are missing from the table: mpplan sweep --folder {shlex.quote(str(at))} --resume runs them",
                ],
            )
            of_shard = {str(number) for number in range(64 * shard - 64, 64 * shard)}
            rest = [line for line in want.splitlines(keepends=True) if line.split(",")[2] not in of_shard]
            self.assertEqual(out, "".join(rest))
            self.assertEqual(self.told("--folder", at, "--resume", *way), (11, want, ["mpplan: 200 scenarios in 4 shards, 1 to run"]))
            self.assertEqual([path for path in at.rglob("*") if path.suffix in (".part", ".failed")], [])
            killed.unlink()

    def test_stopped(self):
        """With Ctrl-C, and as Slurm stops a task: one line, and nothing is left of the running shard."""
        words, want = self.variants(70)
        folder = self.folder / "programs"
        folder.mkdir()
        # Its caller must have started before it is stopped.
        stand_in(folder, "mpsweep", f"echo scenario 1 status 0; sleep 1; echo >{shlex.quote(str(self.folder))}/runs; exec sleep 60")
        settings = {"MPSIM_PROGRAMS": str(folder)}
        for number, status, last in (signal.SIGINT, 130, ["mpplan: stopped"]), (signal.SIGTERM, 143, []):
            for way in ["--folder", self.at], ["--folder", self.at, "--shard", "1"]:
                first = [] if "--shard" in way else ["mpplan: 70 scenarios in 2 shards, 2 to run"]
                begin = [] if "--shard" in way else words if not self.at.exists() else ["--resume"]
                with self.begun(*begin, *way, settings=settings, preexec_fn=heeds_signals) as process:
                    wait_for((self.folder / "runs").exists)
                    inner = children_of(process.pid)
                    process.send_signal(number)
                    out, line = process.communicate()
                self.assertEqual((process.returncode, out, line.splitlines()), (status, "", first + last))
                self.assertTrue(inner)
                self.assertEqual([item for item in inner if os.path.exists(f"/proc/{item}")], [])
                self.assertEqual([path.name for path in self.at.rglob("*") if path.is_file()], ["plan.json"])
                (self.folder / "runs").unlink()
        self.assertEqual(self.told("--folder", self.at, "--resume")[:2], (11, want))

    def test_a_shard_that_fails(self):
        """Its trace has changed, or the program is missing: that is reported, and the others are run."""
        words, want = self.variants(130)
        self.assertEqual(self.told(*words, "--folder", self.at)[:2], (11, want))
        folder = Folder.read(str(self.at))
        for shard in 1, 3:
            os.unlink(folder.file(shard))
        with open(self.trace, "a") as file:
            file.write("calls,999,1,1\n")
        for way in [], ["--parallel"]:
            status, out, lines = self.told("--folder", self.at, "--resume", *way)
            self.assertEqual(status, 1)
            self.assertIn(
                f"mpplan: shards 1, 3: {socket.gethostname()}: {self.trace}: the file has changed since the sweep began",
                "; ".join([re.sub("shard 1: ", "shards 1, 3: ", line) for line in lines if "shard 3:" not in line]),
            )
        self.trace.write_text(text_of(self.trace).replace("calls,999,1,1\n", ""))
        for settings, why in (({"MPSIM_PROGRAMS": "/nowhere"}, "no program mpsweep in /nowhere; set MPSIM_PROGRAMS to a directory that has it"),):
            status, _, lines = self.told("--folder", self.at, "--resume", settings=settings)
            self.assertEqual((status, lines[1:3]), (1, [f"mpplan: shard {item}: {why}" for item in (1, 3)]))
            self.assertIn(f"mpplan: shards 1, 3: {socket.gethostname()}: {why}", lines)
        self.assertEqual(self.told("--folder", self.at, "--resume")[:2], (11, want))
        self.assertEqual([path for path in self.at.rglob("*.failed")], [])

    def test_no_engine(self):
        words, _ = self.variants(3)
        for way, name in ("--parallel", "parallel"), ("--slurm", "sbatch"):
            status, _, lines = self.told(*words, "--folder", self.folder / name, way, settings={"PATH": "/nowhere"})
            self.assertEqual((status, len(lines)), (1, 2))
            self.assertTrue(lines[1].startswith(f"mpplan: the command {name} isn't on the PATH: {way} requires "), lines)

    def test_damaged_files(self):
        """Emptied, filled with zeros, cut, one digit changed, a scenario removed, another shard's: each is reported, left out, and run again."""
        words, want = self.variants(390)
        self.assertEqual(self.told(*words, "--folder", self.at)[:2], (11, want))
        folder = Folder.read(str(self.at))
        texts = {number: pathlib.Path(folder.file(number)).read_bytes() for number in range(1, 8)}
        damaged = {
            1: b"",
            2: bytes(len(texts[2])),
            3: texts[3][:-9],
            4: texts[4].replace(b"busy 9", b"busy 8", 1),
            5: texts[5][: texts[5].rindex(b"scenario 64")] + texts[5][texts[5].rindex(b"#") :],
            6: texts[5],
        }
        for shard, text in damaged.items():
            self.assertNotEqual(text, texts[shard])
            pathlib.Path(folder.file(shard)).write_bytes(text)
        status, out, lines = self.told("--folder", self.at, "--table")
        self.assertEqual((status, lines[0]), (1, "mpplan: shards 1-6: damaged"))
        self.assertEqual(out, "".join(line for line in want.splitlines(keepends=True) if line.split(",")[2] not in {str(it) for it in range(384)}))
        status, out, lines = self.told("--folder", self.at, "--resume")
        self.assertEqual((status, out, sum(line.endswith("it is run again") for line in lines)), (11, want, 6))

    def test_a_damaged_plan(self):
        """It is rejected, and so are shards made with another plan."""
        words, want = self.variants(70)
        self.told(*words, "--folder", self.at)
        plan = self.at / "plan.json"
        text = plan.read_text()
        for other in "", "[]", "{}", text[:-3], text.replace("69", "68", 1), text.replace('"sum": "', '"sum": "0', 1):
            with self.subTest(other[:20]):
                self.assertNotEqual(other, text)
                plan.write_text(other)
                told = self.told("--folder", self.at, "--resume")
                self.assertEqual(told, (1, "", [f"mpplan: {self.at}/plan.json: not the plan of a sweep, or damaged"]))
        plan.write_text(text)
        self.told(self.model, self.trace, "--set", "lines=1..70", "--folder", "other")
        plan.write_text((self.folder / "other" / "plan.json").read_text())
        self.assertEqual(self.told("--folder", self.at, "--table")[2][0], "mpplan: shards 1-2: damaged")

    def test_no_room(self):
        """A disk that takes no more than 8 kB of a file: named files are complete, and nothing else is left."""
        words, want = self.variants(130)

        def narrow():
            resource.setrlimit(resource.RLIMIT_FSIZE, (8192, 8192))
            signal.signal(signal.SIGXFSZ, signal.SIG_IGN)

        with self.begun(*words, "--folder", self.at, preexec_fn=narrow) as process:
            lines = process.communicate()[1].splitlines()
        self.assertEqual(process.returncode, 1)
        self.assertIn("File too large", lines[1])
        self.assertEqual([path for path in self.at.rglob("*.part")], [])
        self.assertEqual(self.told("--folder", self.at, "--resume")[:2], (11, want))

    def test_files_that_killed_runs_left(self):
        """Those of this machine are removed when the sweep continues; those of another machine may still be in use."""
        words, want = self.variants(3)
        self.told(*words, "--folder", self.at)
        here, there = (self.at / "0000" / f"0000001.txt.{item}.part" for item in (f"{socket.gethostname()}.4194999", "elsewhere.4194999"))
        alive = self.at / "0000" / f"0000001.txt.{socket.gethostname()}.{os.getpid()}.part"
        for each in here, there, alive:
            each.write_text("scenario")
        self.assertEqual(self.told("--folder", self.at, "--resume")[:2], (11, want))
        self.assertEqual([item.exists() for item in (here, there, alive)], [False, True, True])

    def test_tasks_of_an_array(self):
        """Of five shards in two tasks each is run once; one that is done isn't run again."""
        words, want = self.variants(300)
        self.told(*words, "--folder", self.at, "--slurm")
        script = text_of(self.at, "array.sh")
        self.assertEqual(re.findall(r"^(\d+)\) set -- (.*) ;;$", script, flags=re.MULTILINE), [("1", "1 2 3"), ("2", "4 5")])
        before = os.stat(Folder.read(str(self.at)).file(4)).st_mtime_ns
        os.unlink(Folder.read(str(self.at)).file(5))
        subprocess.run(["sh", self.at / "array.sh"], check=True, env={**os.environ, "SLURM_ARRAY_TASK_ID": "2"})
        self.assertEqual(os.stat(Folder.read(str(self.at)).file(4)).st_mtime_ns, before)
        self.assertEqual(self.told("--folder", self.at, "--table")[:2], (11, want))


if __name__ == "__main__":
    unittest.main()
