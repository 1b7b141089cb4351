"""Runs of the programs: what is passed to them, what comes back, how they end, and that nothing is left behind."""

import collections
import errno
import os
import pathlib
import resource
import shlex
import signal
import subprocess
import sys
import tempfile
import time
import unittest
import unittest.mock

from ground import DESK, EXAMPLES, LONGEST, MODEL, SOURCES, TRACE, Test, children_of, folders, heeds_signals, programs_in, stand_in, text_of, wait_for

import mpsim
from mpsim import programs

STORED = EXAMPLES / "callcentre" / "report.txt"
REPORT = text_of(STORED)
# The same file and mpsim, in shell scripts.
STORED = shlex.quote(str(STORED))
MPSIM = shlex.quote(programs.find("mpsim"))
MANY = [("door", number, 1) for number in range(100000)]


def opened(pipe):
    """Opens a named pipe for writing, without buffering. Returns None if nobody reads it yet."""
    try:
        return open(os.open(pipe, os.O_WRONLY | os.O_NONBLOCK), "wb", 0)
    except OSError as error:
        if error.errno != errno.ENXIO:
            raise
        return None


class Examples(Test):
    def test_each_example_and_case(self):
        """The report, byte for byte, or the error line and the status."""
        for folder in folders():
            with self.subTest(folder):
                model, trace = folder / "model.txt", folder / "trace.csv"
                if (folder / "report.txt").is_file():
                    text = text_of(folder, "report.txt")
                    self.assertEqual("".join(mpsim.run(model, trace, form=int(text.split()[2])).lines()), text)
                    if (folder / "jobs.txt").is_file():
                        text = text_of(folder, "jobs.txt")
                        report = mpsim.run(str(model), str(trace), jobs=True, form=int(text.split()[2]), workers=2, block=3)
                        self.assertEqual("".join(report.lines()), text)
                else:
                    with self.assertRaises(mpsim.Error) as caught:
                        mpsim.run(model, trace)
                    self.assertEqual(caught.exception.told + "\n", text_of(folder, "line.txt"))
                    self.assertEqual(caught.exception.status, int(text_of(folder, "status")))

    def test_a_made_input(self):
        self.assertEqual(str(mpsim.made(7, form=1)), text_of(EXAMPLES, "made-7.txt"))

    def test_edits(self):
        late = EXAMPLES / "edits" / "late-caller"
        wanted = text_of(late, "report.txt")
        change = mpsim.Set(10, "web", 20, (1, 1, 4, 1, 2))
        for edits in late / "edits.txt", text_of(late, "edits.txt"), [change], iter([change]), text_of(late, "edits.txt").encode():
            report = mpsim.edit(MODEL, TRACE, edits)
            self.assertEqual("".join(report.lines()), wanted)
        self.assertEqual(mpsim.edit(MODEL, TRACE, []).nodes, mpsim.run(MODEL, TRACE).nodes)
        added = mpsim.edit(DESK, [("door", 0, 4)], [mpsim.Add("door", 1, (2,)), mpsim.Set(2, "door", 3, (9,))])
        self.assertEqual((added.jobs, added["desk"].wait, added["desk"].busy), (2, 1, 13))
        self.assertEqual(mpsim.edit(MODEL, TRACE, "").nodes, mpsim.run(MODEL, TRACE).nodes)
        for edits in [mpsim.Set(10.0, "web", 20.0, (1.0, 1, 4, 1, 2))], ["set 10 web 20 1 1 4 1 2"]:
            self.assertEqual("".join(mpsim.edit(MODEL, TRACE, edits).lines()), wanted)

    def test_invalid_edits(self):
        for edits, word in [
            (change := mpsim.Set(10, "web", 20, (1, 1, 4, 1, 2)), "a list of Set and Add, not Set"),
            ([change._replace(values="11412")], "not str: Set("),
            ([mpsim.Add("web", 20, {"g": 1})], "not dict: Add("),
            ([mpsim.Add("web", 20, 1)], "not int: Add("),
            ([("web", 20)], "an edit is a Set, an Add or a line, not tuple"),
            (3, "not int"),
        ]:
            with self.subTest(word), self.assertRaisesRegex(TypeError, word.replace("(", r"\(")):
                mpsim.edit(MODEL, TRACE, edits)

    def test_visits_as_they_come(self):
        with mpsim.visits(MODEL, TRACE, workers=1, block=2) as reading:
            self.assertEqual([node.line() for node in reading.nodes], [line for line in REPORT.splitlines() if line.startswith("node ")])
            told = [item for piece in reading.pieces() for item in piece]
        self.assertEqual(told, list(mpsim.run(MODEL, TRACE, jobs=True).visits.each()))


class Inputs(Test):
    def test_forms_of_a_model(self):
        model = mpsim.Model(bound=1000)
        greet = model.server("greet", "g", model.source("phone"), model.source("web"))
        menu = model.split("menu", greet, cut=("kind", 1))
        expert = model.loss("expert", 2, "e", menu[1])
        model.delay("wrap", 2, model.tandem("desk", "a", (1, "b"), menu, expert[1]), expert)
        for form in model, str(model), MODEL, str(MODEL), text_of(MODEL), text_of(MODEL).encode():
            with self.subTest(type(form)):
                self.assertEqual(str(mpsim.run(form, TRACE)), REPORT)

    def test_forms_of_a_trace(self):
        rows = [("door", 0, 4), ("door", 1, 1)]
        row = collections.namedtuple("row", "source time d")
        forms = {
            "text": "source,time,d\ndoor,0,4\ndoor,1,1\n",
            "bytes": b"source,time,d\ndoor,0,4\ndoor,1,1\n",
            "rows": rows,
            "lists": [list(row) for row in rows],
            "header": [("source", "time", "d"), *rows],
            "named": [row(*item) for item in rows],
            "dicts": [{"d": d, "source": source, "time": at} for source, at, d in rows],
            "iterator": iter(rows),
            "floats": [("door", 0.0, 4.0), ("door", 1.0, 1.0)],
        }
        for name, trace in forms.items():
            with self.subTest(name):
                self.assertEqual(mpsim.run(DESK, trace)["desk"].wait, 3)

    def test_order_of_the_columns(self):
        """Rows without a header have the columns in the order in which the model first names them."""
        for kind in "tandem n {} / 1 {}", "forkjoin n {} | {}":
            lines = kind.format("b", "a"), "from s\nsplit t 2 mod c from n\nsplit u cut d 5 from t\nloss v 1 b from u\n"
            model = "model 1\n# loss x 1 c\nsource s\n" + " ".join(lines)
            named = mpsim.run(model, "source,time,a,b,c,d\ns,0,1,20,300,4000\ns,0,1,20,301,0\n")
            self.assertEqual(str(mpsim.run(model, [("s", 0, 20, 1, 300, 4000), ("s", 0, 20, 1, 301, 0)])), str(named))
        self.assertEqual(mpsim.run("model 2\nsource s\ntrunk t 3 b from s\n", [("s", 0, 7)])["t"].busy, 7)

    def test_nobody(self):
        report = mpsim.run(DESK, [], jobs=True)
        self.assertEqual((report["desk"].in_, report.visits.count(), list(report.visits)), (0, 0, ["door", "desk"]))
        self.assertEqual((report["desk"].mean_wait, report.mean_sojourn, report.visits["desk"].share_within(0)), (None, None, None))
        self.assertFalse(mpsim.run(DESK, []).has_visits)

    def test_invalid_rows(self):
        dicts = [{"source": "door", "time": 0, "d": 1}, {"source": "door", "time": 0}]
        for trace in ["door,0,4", "door,1,1"], 7, None, [("door", 0, 4), "door"], dicts:
            with self.subTest(trace), self.assertRaises((TypeError, ValueError)) as caught:
                mpsim.run(DESK, trace)
            self.assertNotIsInstance(caught.exception, mpsim.Error)

    def test_rows_that_fail(self):
        with self.assertRaises(ZeroDivisionError):
            mpsim.run(DESK, (("door", 1 // item, 1) for item in (1, 0)))

    def test_a_trace_for_which_there_is_no_room(self):
        limits = resource.getrlimit(resource.RLIMIT_FSIZE)
        resource.setrlimit(resource.RLIMIT_FSIZE, (100000, limits[1]))
        try:
            with self.assertRaises(OSError):
                mpsim.run(DESK, MANY)
        finally:
            resource.setrlimit(resource.RLIMIT_FSIZE, limits)

    def test_names_with_a_dash_and_blanks(self):
        with tempfile.TemporaryDirectory() as folder:
            for name in "-model", "a model":
                os.symlink(MODEL, os.path.join(folder, name))
            before = os.getcwd()
            os.chdir(folder)
            try:
                for name in "-model", "a model":
                    self.assertEqual(str(mpsim.run(name, TRACE)), REPORT)
            finally:
                os.chdir(before)

    def test_files_that_are_read_once(self):
        """A named pipe, and the name that a shell makes for <(command)."""
        with tempfile.TemporaryDirectory() as folder:
            pipe = os.path.join(folder, "pipe")
            os.mkfifo(pipe)
            with subprocess.Popen(["cp", TRACE, pipe]):
                self.assertEqual(str(mpsim.run(MODEL, pipe)), REPORT)
        with subprocess.Popen(["cat", TRACE], stdout=subprocess.PIPE) as command:
            self.assertEqual(str(mpsim.run(MODEL, f"/dev/fd/{command.stdout.fileno()}")), REPORT)

    def test_a_frame(self):
        """A frame is anything with columns whose values are lists; a missing value turns whole numbers into floats."""

        class Frame(dict):
            columns = property(list)

        class Values(list):
            tolist = list.copy

        frame = Frame(d=Values([4.0, 1.0]), time=Values([0, 1]), source=Values(["door", "door"]))
        self.assertEqual(mpsim.run(DESK, frame)["desk"].wait, 3)
        for value in float("nan"), None, 1.5, "2026-03-02":
            frame["d"][1] = value
            with self.subTest(value), self.assertRaises(mpsim.TraceError) as caught:
                mpsim.run(DESK, frame)
            error = caught.exception
            self.assertEqual((error.record, error.field, error.column), (2, 3, "d"))
            self.assertEqual(error.source, f"door,1,{'' if value is None else value}")
        with self.assertRaises(ValueError):
            mpsim.run(DESK, Frame(d=Values([1])))

    def test_a_frame_of_pandas(self):
        try:
            import pandas
        except ImportError:
            self.skipTest("pandas isn't there")
        frame = pandas.DataFrame({"d": [4, 1], "time": [0, 1], "source": ["door", "door"]})
        self.assertEqual(mpsim.run(DESK, frame)["desk"].wait, 3)
        self.assertEqual(mpsim.run(DESK, frame.astype({"d": float, "source": "category"}))["desk"].wait, 3)
        frame.loc[1, "d"] = None
        with self.assertRaises(mpsim.TraceError) as caught:
            mpsim.run(DESK, frame)
        self.assertEqual((caught.exception.record, caught.exception.column), (2, "d"))


class Ends(Test):
    """How an unfinished run ends. Each test checks that nothing is left."""

    def setUp(self):
        folder = tempfile.TemporaryDirectory()
        self.addCleanup(folder.cleanup)
        self.folder = folder.name
        super().setUp()

    def ends(self, kind, script, call=lambda: mpsim.run(MODEL, TRACE)):
        stand_in(self.folder, "mpsim", script)
        with programs_in(self.folder), self.assertRaises(kind) as caught:
            call()
        return caught.exception

    def test_a_reader_that_fails(self):
        with self.assertRaises(ZeroDivisionError):
            with mpsim.visits(DESK, MANY) as reading:
                next(reading.pieces())
                raise ZeroDivisionError

    def test_a_reader_that_has_enough(self):
        with mpsim.visits(DESK, MANY, timeout=LONGEST) as reading:
            self.assertEqual(next(iter(next(reading.pieces()))).job, 1)
        with mpsim.visits(DESK, MANY, timeout=LONGEST) as reading:
            self.assertEqual(reading.jobs, len(MANY))

    def test_a_time_that_is_out(self):
        pipe = os.path.join(self.folder, "pipe")
        os.mkfifo(pipe)
        calls = {
            "run": lambda: mpsim.run(MODEL, pipe, timeout=0.2),
            "edit": lambda: mpsim.edit(MODEL, pipe, [], timeout=0.2),
            "sweep": lambda: mpsim.sweep(pipe, [MODEL], timeout=0.2),
            "jobs": lambda: mpsim.sweep(pipe, [MODEL], jobs=True, timeout=0.2),
        }
        for name, call in calls.items():
            with self.subTest(name):
                begin = time.monotonic()
                with self.assertRaises(mpsim.TimedOut) as caught:
                    call()
                self.assertLess(time.monotonic() - begin, 60)
                self.assertIsInstance(caught.exception, TimeoutError)
        self.assertEqual(str(mpsim.run(MODEL, TRACE, timeout=LONGEST)), REPORT)
        for script in "head -c 300 {}; exec sleep 60", "cat {}; exec sleep 60", "cat {}; exec sleep 60 >&-":
            error = self.ends(mpsim.TimedOut, script.format(STORED), lambda: mpsim.run(MODEL, TRACE, timeout=0.2))
            self.assertEqual(str(error), "mpsim was ended: its timeout has passed")

    def test_a_time_that_is_that_of_all_runs(self):
        script = f'sleep 0.2; exec {MPSIM} "$@"'
        self.ends(mpsim.TimedOut, script, lambda: mpsim.sweep(TRACE, [MODEL] * 30, jobs=True, timeout=1))

    def test_a_program_that_is_killed(self):
        """Even if part of the report has been written: the error says how the program ended, not where the report is cut."""
        for begin in "", f"head -c 300 {STORED}; ", f"cat {STORED}; ":
            error = self.ends(mpsim.ProgramError, begin + "kill -KILL $$")
            self.assertEqual((error.status, "SIGKILL" in str(error)), (-9, True))
        self.assertIn("x86-64-v2", str(self.ends(mpsim.ProgramError, "kill -ILL $$")))
        # A program that a shell started in the background ignores this signal: it is meant for another.
        self.ends(KeyboardInterrupt, f"head -c 300 {STORED}; exec env --default-signal=INT sh -c 'kill -INT $$'")

    def test_a_program_that_writes_no_report(self):
        self.assertEqual(self.ends(mpsim.ReportError, "true").line, 1)
        self.assertEqual(self.ends(mpsim.ReportError, "echo hello").found, "hello")
        self.ends(mpsim.ReportError, f"cat {STORED}; echo hello")
        self.ends(mpsim.ReportError, f"cat {STORED}", lambda: mpsim.run(MODEL, TRACE, jobs=True))
        self.ends(mpsim.ReportError, "echo hello; exec yes")

    def test_a_program_that_tells_much(self):
        """More than a pipe holds, on stderr, and bytes that aren't UTF-8."""
        error = self.ends(mpsim.ProgramError, "yes | head -c 300000 >&2; printf 'mpsim: \\377\\n' >&2; exit 77")
        self.assertEqual((error.status, len(error.told.encode(errors="surrogateescape")), error.told[-1:]), (77, 300008, "\udcff"))

    def test_a_program_that_is_not_there(self):
        with programs_in(self.folder), self.assertRaises(mpsim.ProgramError) as caught:
            mpsim.run(MODEL, TRACE)
        self.assertIn(f"no program mpsim in {self.folder}", str(caught.exception))
        path = stand_in(self.folder, "mpsim", "")
        path.write_bytes(b"\x7fELF and nothing else")
        with programs_in(self.folder), self.assertRaises(mpsim.ProgramError) as caught:
            mpsim.run(MODEL, TRACE)
        self.assertIn(f"{path} can't be started", str(caught.exception))

    def test_no_memory(self):
        script = f'ulimit -v 8000; unset GLIBC_TUNABLES; exec {MPSIM} "$@"'
        error = self.ends(mpsim.OutOfMemory, script, lambda: mpsim.run(DESK, MANY))
        self.assertEqual((error.told, error.status), ("mpsim: out of memory", 8))
        self.assertIsInstance(error, MemoryError)

    def test_ctrl_c(self):
        """In a notebook only the interpreter gets the signal, at a terminal the program too."""
        pipe = os.path.join(self.folder, "pipe")
        os.mkfifo(pipe)
        for whole_group in False, True:
            with self.subTest(whole_group=whole_group):
                script = f"import sys; sys.path.insert(0, {str(SOURCES)!r}); import mpsim; mpsim.run({str(MODEL)!r}, {pipe!r})"
                words = [sys.executable, "-B", "-c", script]
                process = subprocess.Popen(words, stderr=subprocess.PIPE, start_new_session=True, preexec_fn=heeds_signals)
                # The program waits for the rest of its trace, however late it has started.
                writer = wait_for(lambda: opened(pipe))
                children = children_of(process.pid)
                (os.killpg if whole_group else os.kill)(process.pid, signal.SIGINT)
                told = process.communicate(timeout=LONGEST)[1]
                writer.close()
                self.assertIn(b"KeyboardInterrupt", told.splitlines()[-1])
                self.assertEqual(len(children), 1)
                self.assertFalse(pathlib.Path(f"/proc/{children[0]}").exists())

    def test_ctrl_c_as_the_program_starts(self):
        """When the process is there, and its caller doesn't have it yet; in each way that a signal is handled."""
        pipe, real = os.path.join(self.folder, "pipe"), os.read
        os.mkfifo(pipe)

        def read(*words):
            signal.raise_signal(signal.SIGINT)
            return real(*words)

        def leave(*_):
            raise SystemExit(130)

        for kind, how in (KeyboardInterrupt, signal.default_int_handler), (SystemExit, leave):
            before = signal.signal(signal.SIGINT, how)
            try:
                with unittest.mock.patch("os.read", side_effect=read), self.assertRaises(kind):
                    mpsim.run(MODEL, pipe)
                self.assertIs(signal.getsignal(signal.SIGINT), how)
            finally:
                signal.signal(signal.SIGINT, before)

    def test_the_commands(self):
        """They become the program: its output, its status and its arguments."""
        calls = {"mpsim": [[MODEL, TRACE], ["--jobs"]], "mpsweep": [[TRACE, MODEL]], "mpedit": [[MODEL, TRACE, os.devnull], []]}
        for name, words in ((name, words) for name, some in calls.items() for words in some):
            script = f"import sys; sys.path.insert(0, {str(SOURCES)!r}); from mpsim.programs import {name}; {name}()"
            wanted = subprocess.run([programs.find(name), *words], stdout=subprocess.PIPE, stderr=subprocess.PIPE)
            ran = subprocess.run([sys.executable, "-B", "-c", script, *words], stdout=subprocess.PIPE, stderr=subprocess.PIPE)
            self.assertEqual((ran.returncode, ran.stdout, ran.stderr), (wanted.returncode, wanted.stdout, wanted.stderr))


if __name__ == "__main__":
    unittest.main()
