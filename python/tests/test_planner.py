"""The command `mpplan`: its arguments, how it ends, and what it leaves behind."""

import contextlib
import csv
import importlib.util
import io
import os
import re
import resource
import shlex
import signal
import stat
import subprocess
import sys
import unittest
import unittest.mock

from commands import InFolder, planner
from ground import DESK, EXAMPLES, LONGEST, PYTHON, ROOT, SOURCES, Test, text_of, wait_for

import mpsim
from mpsim.command.commands import COMMANDS
from mpsim.command.messages import line_of
from mpsim.command.parser import GivenOnce, parser_for
from mpsim.exports.recipes import READERS
from mpsim.files import bytes_of, text_of as model_text, written
from mpsim.progress import Progress
from mpsim.traces import Trace

EXPORT = EXAMPLES / "export" / "calls.csv"
ASKED = [EXPORT, "--date", "Datum", "--time", "Uhrzeit", "--source", "Warteschlange", "--left-out-most", "40%"]
COMMAND = [sys.executable, "-B", ROOT / "mpplan"]


class Words(Test):
    def test_each_command_has_help_with_an_example(self):
        files = (SOURCES / "mpsim" / "command").glob("*.py")
        modules = {path.stem for path in files if re.search(r"^def main\(args: Namespace\)", path.read_text(), re.M)}
        self.assertEqual(modules, set(COMMANDS))
        for name, says in COMMANDS.items():
            status, out, err = planner(name, "--help")
            self.assertEqual((status, err), (0, ""))
            self.assertIn(f"example: mpplan {name} ", out)
            self.assertIn(says[1:], " ".join(out.split()))
        status, out, _ = planner("--help")
        self.assertEqual([command for command in COMMANDS if re.search(rf"^    {command}( |$)", out, re.M)], list(COMMANDS))
        self.assertEqual(planner("--version"), (0, f"mpplan {mpsim.__version__}\n", ""))

    def test_invalid_arguments(self):
        for words, line in (
            ([], "the following arguments are required: COMMAND (see mpplan --help)"),
            (["prepare"], "the following arguments are required: export, --time (see mpplan prepare --help)"),
            (["prepare", "x", "--tim", "y"], "the following arguments are required: --time (see mpplan prepare --help)"),
            (["prepare", "x", "--time", "y", "--skip", "z"], "argument --skip: invalid int value: 'z' (see mpplan prepare --help)"),
        ):
            self.assertEqual(planner(*words), (2, "", f"mpplan: {line}\n"))
        status, out, err = planner("prepares")
        self.assertEqual((status, out, err.count("\n")), (2, "", 1))

    def test_the_command_of_a_clone(self):
        """Through a link, from any directory, and as a module."""
        with open(PYTHON / "pyproject.toml", encoding="utf-8") as file:
            self.assertIn('mpplan = "mpsim.command:main"\n', file.read())
        for command, more in (COMMAND, {}), ([sys.executable, "-B", "-m", "mpsim"], {"PYTHONPATH": str(SOURCES)}):
            ran = subprocess.run([*command, "--version"], cwd="/", env={**os.environ, **more}, capture_output=True, text=True)
            self.assertEqual((ran.returncode, ran.stdout), (0, f"mpplan {mpsim.__version__}\n"))


class LongFields(InFolder):
    def test_fields_as_long_as_a_trace_may_be(self):
        """mpsim takes them, and so does each command that reads a trace. Python's own limit is restored afterwards, and `prepare` keeps to its
        own."""
        note, model = "x" * 200000, self.file("m.txt", DESK)
        trace = self.file("t.csv", f"source,time,d,note\ndoor,0,5,b\ndoor,3,5,{note}")
        changes, out, more = self.file("c.csv", "record,source,time,d,note\n1,,+1,,\n+,door,9,1,c\n"), self.folder / "o.csv", self.folder / "p.csv"
        limit = csv.field_size_limit()
        for words in (
            ("scale", trace, "--by", 1, "--twins", "--out", out),
            ("edit", trace, changes, "--out", more),
            ("days", model, trace, "--every", 9),
            ("pool", model, trace, "--node", "desk", "--agents", 1),
            ("run", model, trace),
            ("sweep", model, trace),
        ):
            self.assertEqual(planner(*words)[0], 0, words)
            self.assertEqual(csv.field_size_limit(), limit)
        self.assertEqual((text_of(out), text_of(more)), (text_of(trace) + "\n", text_of(trace).replace("door,0", "door,1") + "\ndoor,9,1,c\n"))
        self.assertEqual(Trace.read(trace).rows[1][3], note)
        line = f"{trace}: row 3: field larger than field limit ({limit}): is a closing quote missing?"
        self.refuses(line, "prepare", trace, "--time", "time", "--format", "ticks")
        self.assertEqual(csv.field_size_limit(), limit)


class Ends(InFolder):
    """Calls in a process of their own."""

    def run_with(self, *words, **more):
        return subprocess.run([*COMMAND, *map(str, words)], cwd=self.folder, env=os.environ, text=True, **{"stderr": subprocess.PIPE, **more})

    def left(self):
        return sorted(path.name for path in self.folder.iterdir())

    def test_an_option_that_is_given_twice(self):
        """Each that has one value, of each command: otherwise the first of two values would be lost."""
        recipe = self.file("recipe.toml", "")
        if not any(map(importlib.util.find_spec, READERS)):
            recipe.write_text("{}")
        for name in COMMANDS:
            parser = parser_for(name)._subparsers._group_actions[0].choices[name]
            for action in parser._actions:
                if isinstance(action, GivenOnce) and action.option_strings:
                    # A recipe is read as soon as it is given, and words are judged.
                    plain = action.default if action.type and isinstance(action.default, str) else "1"
                    one = next(iter(action.choices), "1") if action.choices else recipe if action.dest == "recipe" else plain
                    values = [one] * (action.nargs if isinstance(action.nargs, int) else 1)
                    # It may be a Python that has no reader of recipes.
                    with unittest.mock.patch("mpsim.exports.recipes.READERS", (*READERS, "json")):
                        status, out, err = planner(name, *[action.option_strings[-1], *values] * 2)
                    self.assertEqual((status, out, err.split(" (")[0]), (2, "", f"mpplan: {action.option_strings[-1]} is given twice"))

    def test_a_link(self):
        (self.folder / "mpplan").symlink_to(ROOT / "mpplan")
        ran = subprocess.run([self.folder / "mpplan", "prepare", *ASKED], cwd="/", env=os.environ, text=True, capture_output=True)
        self.assertEqual((ran.returncode, ran.stdout.split("\n")[0]), (0, "source,time"), ran.stderr)

    def test_an_output_that_is_full(self):
        for words, more, line in (
            ([], {"stdout": open("/dev/full", "w")}, "mpplan: standard output: No space left on device"),
            (["--out", "/dev/full"], {}, "mpplan: /dev/full: No space left on device"),
        ):
            with more.get("stdout", contextlib.nullcontext()):
                ran = self.run_with("prepare", *ASKED, *words, **more)
            self.assertEqual((ran.returncode, ran.stderr.splitlines()[-1]), (1, line))

    def test_a_disk_that_is_full(self):
        """Existing files stay, and nothing else is left."""
        self.file("trace.csv", "before\n")

        def small():
            resource.setrlimit(resource.RLIMIT_FSIZE, (100, 100))

        ran = self.run_with("prepare", *ASKED, "--out", "trace.csv", "--left-out", "left.csv", preexec_fn=small)
        self.assertEqual((ran.returncode, ran.stderr.splitlines()[-1]), (1, "mpplan: left.csv: File too large"))
        self.assertEqual((self.left(), text_of(self.folder, "trace.csv")), (["trace.csv"], "before\n"))

    def test_a_temporary_directory_that_is_full(self):
        """It is named, not the export or the output; nothing is left in it."""
        (self.folder / "temporary").mkdir()
        rows = "when\n" + "2026-03-02 8:00\n" * 1000
        self.file("export.csv", rows)

        def small():
            resource.setrlimit(resource.RLIMIT_FSIZE, (100, 100))

        with unittest.mock.patch.dict(os.environ, TMPDIR=str(self.folder / "temporary")):
            for words in ["export.csv", "--split-by", "day"], ["/dev/stdin"]:
                ran = self.run_with("prepare", *words, "--time", "when", "--out", "trace.csv", input=rows, preexec_fn=small)
                self.assertEqual((ran.returncode, ran.stderr.splitlines()[-1]), (1, f"mpplan: {self.folder}/temporary: File too large"))
        self.assertEqual((self.left(), list((self.folder / "temporary").iterdir())), (["export.csv", "temporary"], []))

    def test_outputs_that_are_closed(self):
        script = 'exec "$@" >&-'
        ran = subprocess.run(["sh", "-c", script, "sh", *COMMAND, "prepare", *ASKED], env=os.environ, text=True, capture_output=True)
        self.assertEqual((ran.returncode, ran.stderr.splitlines()[-1]), (1, "mpplan: standard output: Bad file descriptor"))
        # Messages are dropped then, and don't go into the trace.
        ran = subprocess.run(["sh", "-c", 'exec "$@" 2>&-', "sh", *COMMAND, "prepare", *ASKED], env=os.environ, text=True, capture_output=True)
        self.assertEqual((ran.returncode, ran.stdout.splitlines()[:2]), (0, ["source,time", "verkauf_and_buro,5"]))

    def test_a_reader_that_has_enough(self):
        rows = "when\n" + "8:00\n" * 100000
        self.file("export.csv", rows)
        command = f"{shlex.join(map(str, COMMAND))} prepare export.csv --time when 2>err; echo $? >status"
        ran = subprocess.run(["sh", "-c", f"({command}) | head -1"], cwd=self.folder, env=os.environ, text=True, capture_output=True)
        self.assertEqual((ran.stdout, ran.stderr, text_of(self.folder, "status")), ("source,time\n", "", "141\n"))
        self.assertFalse([line for line in text_of(self.folder, "err").splitlines() if not line.startswith("mpplan: ")])

    def test_signals(self):
        """Nothing is left, and at most one line is printed, while the export comes through a pipe that stays open."""
        for number, status, told in (signal.SIGINT, 130, "mpplan: stopped\n"), (signal.SIGTERM, 143, ""), (signal.SIGHUP, 129, ""):
            with self.waiting(signal.SIG_DFL) as process:
                process.send_signal(number)
                out, err = process.communicate(timeout=LONGEST)
            self.assertEqual((process.returncode, out, err, self.left()), (status, "", told, []))

    def test_a_signal_that_is_ignored(self):
        """As under nohup."""
        with self.waiting(signal.SIG_IGN) as process:
            process.send_signal(signal.SIGHUP)
            out, _ = process.communicate(timeout=LONGEST)
        self.assertEqual((process.returncode, out, self.left()), (0, "", ["left.csv", "trace.csv"]))

    def waiting(self, how):
        """A command that has begun a file and waits for the rest of an export; signals are handled or ignored."""

        def prepared():
            for number in signal.SIGINT, signal.SIGTERM, signal.SIGHUP:
                signal.signal(number, how)

        words = [*COMMAND, "prepare", "/dev/stdin", "--time", "when", "--out", "trace.csv", "--left-out", "left.csv"]
        pipes = {"stdin": subprocess.PIPE, "stdout": subprocess.PIPE, "stderr": subprocess.PIPE}
        process = subprocess.Popen(words, cwd=self.folder, env=os.environ, text=True, preexec_fn=prepared, **pipes)
        process.stdin.write("when\n8:00\n")
        process.stdin.flush()
        wait_for(self.left)
        self.assertRegex(self.left()[0], r"^left\.csv\.\w+\.part$")
        return process

    def test_a_fault_of_a_program(self):
        model, trace = self.file("model.txt", "model 1\nsource Door\n"), self.file("trace.csv", "source,time\n")
        ran = self.run_with("run", model, trace, stdout=subprocess.PIPE)
        line = f"mpplan: {model}: model line 2: word 2 not allowed: source Door\n"
        self.assertEqual((ran.returncode, ran.stdout, ran.stderr), (3, "", line))


class Lines(Test):
    def test_lines_of_errors(self):
        for error, line in (
            (ValueError("a\nb\x1b[1m\udcff"), "a\\nb\\x1b[1m\\udcff"),
            (ValueError(), "ValueError"),
            (FileNotFoundError(2, "No such file or directory", "x\n"), "x\\n: No such file or directory"),
            (OSError(28, "No space left on device"), "standard output: No space left on device"),
            (mpsim.ModelError("model line 2: word 2 not allowed", "", 3, "m", "source Döör"), "m: model line 2: word 2 not allowed: source Döör"),
            (mpsim.ReportError(7, "x"), "report line 7: 'x' is not a line of a report"),
        ):
            self.assertEqual(line_of(error), line)


class Files(InFolder):
    def test_a_file_in_memory_that_cannot_be_made(self):
        model, trace = self.file("model.txt", DESK), self.file("trace.csv", "source,time,d\n")
        with unittest.mock.patch("os.memfd_create", side_effect=OSError(24, "Too many open files")):
            self.refuses("a file in memory: Too many open files", "run", model, trace)

    def test_a_file_that_is_written(self):
        path = self.file("a", "before\n")
        path.chmod(0o640)
        (self.folder / "link").symlink_to("a")
        with written(self.folder / "link") as file:
            file.write("after\n")
            self.assertEqual(text_of(path), "before\n")
        self.assertEqual((text_of(path), stat.S_IMODE(path.stat().st_mode), (self.folder / "link").is_symlink()), ("after\n", 0o640, True))
        before = os.umask(0o027)
        try:
            with written(self.folder / "new") as file:
                file.write("é\n")
        finally:
            os.umask(before)
        self.assertEqual((text_of(self.folder, "new"), stat.S_IMODE((self.folder / "new").stat().st_mode)), ("é\n", 0o640))

    def test_a_block_that_is_left(self):
        path = self.file("a", "before\n")
        for error in ValueError, KeyboardInterrupt, OSError:
            with self.assertRaises(error), written(path) as file:
                file.write("half")
                raise error
            self.assertEqual((text_of(path), os.listdir(self.folder)), ("before\n", ["a"]))

    def test_ctrl_c_as_a_file_is_begun(self):
        path = self.file("a", "before\n")
        for call in "fchmod", "stat":
            with unittest.mock.patch(f"mpsim.files.os.{call}", side_effect=KeyboardInterrupt), self.assertRaises(KeyboardInterrupt), written(path):
                self.fail("it was opened")
            self.assertEqual((text_of(path), os.listdir(self.folder)), ("before\n", ["a"]))

    def test_a_part_of_another(self):
        path, other = self.folder / "a", self.file("a.1.part", "another's\n")
        with unittest.mock.patch("mpsim.files.secrets.token_hex", return_value="1"), self.assertRaises(FileExistsError) as caught, written(path):
            self.fail("it was opened")
        self.assertEqual((caught.exception.filename, text_of(other)), (str(path), "another's\n"))
        other.unlink()

    def test_pipes_and_devices(self):
        pipe = self.folder / "pipe"
        os.mkfifo(pipe)
        with subprocess.Popen(["cat", pipe], stdout=subprocess.PIPE, text=True) as reader:
            with written(pipe) as file:
                file.write("through\n")
            self.assertEqual(reader.stdout.read(), "through\n")
        # A redirected output is appended to.
        path = self.file("log", "before\n")
        script = "from mpsim.files import written\nwith written('/dev/stdout') as file: file.write('after\\n')"
        with open(path, "a") as out:
            subprocess.run([sys.executable, "-B", "-c", script], env={**os.environ, "PYTHONPATH": str(SOURCES)}, stdout=out, check=True)
        self.assertEqual(text_of(path), "before\nafter\n")

    def test_memory_that_is_a_folder(self):
        path = f"/dev/shm/{self.folder.name}"
        self.addCleanup(lambda: os.unlink(path))
        for text in "before\n", "after\n":
            with written(path) as file:
                file.write(text)
        self.assertEqual(text_of(path), "after\n")

    def test_folders_that_are_not_there(self):
        path = self.folder / "absent" / "a"
        with self.assertRaises(FileNotFoundError) as caught, written(path):
            self.fail("it was opened")
        self.assertEqual(line_of(caught.exception), f"{path}: No such file or directory")

    def test_texts(self):
        self.assertEqual(model_text(self.file("m", "\ufeffmodel 1\n")), "model 1\n")
        self.assertEqual(bytes_of(self.file("m", "\ufeff")), b"\xef\xbb\xbf")


class Terminal(io.StringIO):
    def isatty(self):
        return True


class Shown(Test):
    def test_progress(self):
        out, line = Terminal(), "10 % of 1,000 rows, about 45 s left"
        with self.assertRaises(KeyboardInterrupt), Progress(1000, "rows", out) as tell:
            tell(1)
            self.assertEqual(out.getvalue(), "")
            tell.begun -= 5
            tell(100)
            tell(101)
            self.assertEqual(out.getvalue(), "\r" + line)
            raise KeyboardInterrupt
        self.assertEqual(out.getvalue(), "\r" + line + "\r" + " " * len(line) + "\r")

    def test_progress_elsewhere(self):
        out = io.StringIO()
        with Progress(1000, "rows", out) as tell:
            tell.begun -= 5
            tell(100)
        self.assertEqual(out.getvalue(), "")


if __name__ == "__main__":
    unittest.main()
