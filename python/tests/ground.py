"""Common ground of the tests: the files of the repository, reports parsed independently of the package, stand-ins for programs, and checks that
nothing is left behind."""

import contextlib
import os
import pathlib
import signal
import sys
import threading
import time
import unittest

TESTS = pathlib.Path(__file__).resolve().parent
PYTHON = TESTS.parent
SOURCES = PYTHON / "src"
ROOT = PYTHON.parent
EXAMPLES = ROOT / "examples"
CASES = EXAMPLES / "cases"
MODEL, TRACE = EXAMPLES / "callcentre" / "model.txt", EXAMPLES / "callcentre" / "trace.csv"
# The most seconds that a test waits for what must come: a busy machine takes long to start a process.
LONGEST = 600
DESK = "model 1\nsource door\nserver desk d from door\n"
sys.path.insert(0, str(SOURCES))
sys.dont_write_bytecode = True


def text_of(*parts):
    """Returns the text of a file, byte for byte."""
    return pathlib.Path(*parts).read_bytes().decode(errors="surrogateescape")


def folders():
    """Returns the directories of examples and cases with a model and a trace, except those run with other arguments."""
    found = [path for top in (EXAMPLES, CASES) for path in sorted(top.iterdir()) if (path / "model.txt").is_file() and (path / "trace.csv").is_file()]
    return [item for item in found if not (item / "words").exists()]


def reports():
    """Returns the paths of the stored reports, in both forms, with and without job lines."""
    paths = [EXAMPLES / "made-7.txt"]
    for name in "report.txt", "jobs.txt":
        paths += [*EXAMPLES.glob(f"*/{name}"), *CASES.glob(f"*/{name}")]
    found = [path for path in sorted(paths) if text_of(path).startswith("mpsim report ")]
    assert len(found) > 100, len(found)
    return found


def words_of(text, first):
    """Returns the words of the lines of a report that begin with this one."""
    return [line.split(" ") for line in text.splitlines() if line.startswith(f"{first} ")]


def nodes_of(text):
    """Returns a dict per `node` line: its name, its kind, and each number as it is written."""
    return [{"name": words[1], "kind": words[2], **dict(zip(words[3::2], words[4::2]))} for words in words_of(text, "node")]


def waits_of(text, node):
    """Returns the waits of a node's visits that departed, from the job lines."""
    return [int(words[6]) for words in words_of(text, "job") if words[2] == node and words[5] == "wait"]


def hour_of(clock):
    """Returns the name of an hour of a day (given as a datetime with a zone): with the offset if any part of it occurs twice."""
    shown = [clock.replace(minute=number, fold=0) for number in range(60)]
    is_twice = any(item.utcoffset() > item.replace(fold=1).utcoffset() for item in shown)
    return clock.strftime("%Y-%m-%d %H:00") + clock.isoformat()[-6:] * is_twice


@contextlib.contextmanager
def programs_in(folder):
    """Makes the package use the programs in a directory, within the block."""
    before = os.environ.get("MPSIM_PROGRAMS")
    os.environ["MPSIM_PROGRAMS"] = str(folder)
    try:
        yield
    finally:
        del os.environ["MPSIM_PROGRAMS"]
        if before is not None:
            os.environ["MPSIM_PROGRAMS"] = before


def stand_in(folder, name, script):
    """Puts a shell script into a directory, in place of the program of this name."""
    path = pathlib.Path(folder, name)
    path.write_text(f"#!/bin/sh\n{script}\n")
    path.chmod(0o755)
    return path


def heeds_signals():
    """Between fork and exec: lets Ctrl-C end the program even if a shell started it in the background, which ignores it."""
    signal.signal(signal.SIGINT, signal.default_int_handler)


def children_of(process):
    """Returns the numbers of the running child processes of a process."""
    found = []
    with contextlib.suppress(FileNotFoundError, ProcessLookupError):
        for task in pathlib.Path(f"/proc/{process}/task").iterdir():
            # A thread that is joined may be there for a moment longer.
            with contextlib.suppress(FileNotFoundError, ProcessLookupError):
                found += map(int, (task / "children").read_text().split())
    return found


def wait_for(there):
    """Waits until a function returns something true, and returns that. The limit is only for what never comes."""
    end = time.monotonic() + LONGEST
    while not (found := there()):
        assert time.monotonic() < end, "it doesn't come"
        time.sleep(0.01)
    return found


class Test(unittest.TestCase):
    """A test that must leave behind no open file, process or thread."""

    maxDiff = 2000

    def setUp(self):
        before = self._there()
        self.addCleanup(lambda: self.assertEqual(self._there(), before, "left behind"))

    def _there(self):
        # The directory itself is open while it is listed.
        return len(os.listdir("/proc/self/fd")), children_of(os.getpid()), threading.active_count()
