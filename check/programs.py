"""Runs the programs for the checks, and compares what they do. Every file test_*.py uses it."""
import atexit
import os
import pathlib
import pprint
import shlex
import shutil
import subprocess
import tempfile
import threading
import unittest
from typing import NamedTuple

ROOT = pathlib.Path(__file__).resolve().parent.parent
CHECKS = ROOT / "check"
EXAMPLES = ROOT / "examples"
CASES = EXAMPLES / "cases"
DESK, CALL = EXAMPLES / "desk", EXAMPLES / "callcentre"
# The model and the trace of the smallest example.
DESK_FILES = DESK / "model.txt", DESK / "trace.csv"
# What runs for the name of a program: the scripts at the root, or executables set by `use`.
SCRIPTS = {name: ROOT / name for name in ("mpsim", "mpsweep", "mpedit")}
PROGRAMS = dict(SCRIPTS)
# The limit for a run, in seconds. It only ends what hangs: on a busy machine with two processors, the compiler of the toolchain can take long.
LONGEST = 1800
# The most lines of a difference that are shown.
SHOWN = 60


class Ran(NamedTuple):
    """The result of a run: its command line, its status (negative after a signal), and what it wrote to stdout and stderr."""

    command: str
    status: int
    out: bytes
    line: bytes


def use(folder):
    """Uses the executables in a directory instead of the scripts, which build them."""
    PROGRAMS.update({name: pathlib.Path(folder).resolve() / name for name in SCRIPTS})


def executable(name):
    """Returns the program itself, without its script."""
    return ROOT / "crates" / name / "out" / name if PROGRAMS[name] == SCRIPTS[name] else PROGRAMS[name]


def run(*words, folder=ROOT, given=b"", out=None, line=None, settings=None):
    """Runs a command in a directory, with these bytes as its input. A first word of mpsim, mpsweep or mpedit means the program used for that name.
    `out` and `line` name files for stdout and stderr; `settings` are environment variables."""
    words = [PROGRAMS.get(words[0], words[0]), *words[1:]]
    command = "".join(f"{name}={value} " for name, value in (settings or {}).items() if name not in os.environ)
    command += shlex.join(os.fsencode(word).decode(errors="backslashreplace") for word in words)
    # With a colon, so that the line can be pasted into a shell.
    command = f"cd {shlex.quote(str(folder))}; {command}" + f" >{out}" * bool(out) + f" 2>{line}" * bool(line)
    outputs = [open(file, "wb") if file else subprocess.PIPE for file in (out, line)]
    try:
        ran = subprocess.run(
            [os.fsencode(word) for word in words],
            cwd=folder,
            input=given,
            stdout=outputs[0],
            stderr=outputs[1],
            env={**os.environ, **(settings or {})},
            timeout=LONGEST,
        )
    except subprocess.TimeoutExpired:
        raise AssertionError(f"{command}\nwas not done after {LONGEST} seconds") from None
    finally:
        for file in outputs:
            if file != subprocess.PIPE:
                file.close()
    return Ran(command, ran.returncode, ran.stdout or b"", ran.stderr or b"")


def bytes_of(text):
    """Returns the bytes of a text, or of the file at that path."""
    return text.read_bytes() if isinstance(text, pathlib.Path) else text.encode() if isinstance(text, str) else text


def difference(written, wanted):
    """Returns the output of `diff -u` for two texts."""
    with tempfile.TemporaryDirectory(prefix="check-") as folder:
        for name, text in ("wanted", wanted), ("written", written):
            pathlib.Path(folder, name).write_bytes(text)
        words = ["diff", "-u", "-a", "--label", "wanted", "--label", "written", "wanted", "written"]
        said = subprocess.run(words, cwd=folder, stdout=subprocess.PIPE).stdout
    lines = said.decode(errors="backslashreplace").splitlines()
    rest = len(lines) - SHOWN
    return "\n".join(lines[:SHOWN] + [f"({rest} lines more)"] * (rest > 0))


def form_of(report):
    """Returns the arguments that request a report's form: none for form 2."""
    return ["--report", "1"] if bytes_of(report).startswith(b"mpsim report 1\n") else []


def once(call):
    """Makes a call without arguments run once and return the same result to every caller."""
    lock, answers = threading.Lock(), []

    def answered():
        with lock:
            if not answers:
                answers.append(call())
        return answers[0]

    return answered


@once
def shared():
    """Returns a directory for what all tests share, which is removed when the checks end. Made before the processes that run the tests, it is theirs."""
    folder = tempfile.mkdtemp(prefix="check-")
    atexit.register(shutil.rmtree, folder, ignore_errors=True)
    return folder


class Check(unittest.TestCase):
    """A test of several cases: in each, a run or a text is compared with what is expected. `cases` counts them."""

    cases = 0

    def setUp(self):
        self.folder = pathlib.Path(tempfile.mkdtemp(prefix="check-"))
        self.addCleanup(shutil.rmtree, self.folder, ignore_errors=True)

    def file(self, name, *parts):
        """Writes a file with this text, which may be given in parts, into the test's own directory."""
        path = self.folder / name
        with open(path, "wb") as file:
            file.writelines(bytes_of(part) for part in parts)
        return path

    def fail(self, differences):
        """Fails a case. The files of the test are kept, in the directory that the command line then names."""
        if any(self.folder.iterdir()):
            kept = tempfile.mkdtemp(prefix="check-differs-")
            shutil.copytree(self.folder, kept, symlinks=True, dirs_exist_ok=True)
            differences = differences.replace(str(self.folder), kept)
        super().fail(differences)

    def same(self, what, written, wanted):
        """A case: two texts or values are equal."""
        self.cases += 1
        if written != wanted:
            texts = (bytes_of(item if isinstance(item, (bytes, str)) else pprint.pformat(item)) for item in (written, wanted))
            self.fail(f"{what}\n{difference(*texts)}")

    def holds(self, what, truth):
        """A case: a condition is true."""
        self.cases += 1
        if not truth:
            self.fail(what)

    def did(self, ran, status=0, out=b"", line=b""):
        """A case: a run ended with this status and wrote these texts, or the contents of these files, byte for byte."""
        self.cases += 1
        out, line, differences = bytes_of(out), bytes_of(line), []
        for name, written, wanted in ("output", ran.out, out), ("error output", ran.line, line):
            if written != wanted:
                differences.append(f"{name}:\n{difference(written, wanted)}")
        if differences or ran.status != status:
            self.fail("\n".join([ran.command, f"status {ran.status}" + f", wanted {status}" * (ran.status != status), *differences]))

    def writes(self, report, *words, **more):
        """mpsim with these arguments, and those for the report's form, writes this report and nothing else."""
        self.did(run("mpsim", *words, *form_of(report), **more), 0, report)

    def accepts(self, *words):
        """mpsim accepts these arguments: it writes a report of form 2."""
        ran = run("mpsim", *words)
        self.did(ran._replace(out=ran.out[: ran.out.find(b"\n") + 1]), 0, "mpsim report 2\n")
        return ran

    def refuses(self, status, line, *words, **more):
        """A program rejects these arguments, the first of which names it, with a status and an error line, and writes nothing else."""
        self.did(run(*words, **more), status, "", line + "\n")

    def mutely(self, status, out, *words):
        """If stderr is full, a program ends with this status and writes what it otherwise writes."""
        self.did(run(*words, line="/dev/full"), status, out)
