"""Workers: a text that is read in pieces, threads that finish in any order, and how many threads a run starts."""
import shutil

from inputs import lines_of, unescaped
from programs import CALL, DESK, DESK_FILES, EXAMPLES, PROGRAMS, Check, run

CALL_FILES = CALL / "model.txt", CALL / "trace.csv"
# Half of the bytes from which on a trace is cut into pieces.
HALF = 65536


def padded(marked, many):
    """Returns the bytes of a text in which each @ stands for line feeds: this many for the first, and for each further one what is left of two
    halves."""
    first, *behind = marked.split("@")
    parts = [unescaped(first)]
    for number, part in enumerate(behind):
        parts += [b"\n" * (2 * HALF - many if number else many), unescaped(part)]
    return b"".join(parts)


class Workers(Check):
    def pieces(self, marked):
        """Four workers read a text in pieces, and answer like one worker that reads it whole. Line feeds shift the cuts to other bytes each time, and
        a cut moves to the next line feed."""
        whole = run("mpsim", "--workers", "1", "--jobs", DESK / "model.txt", self.file("whole.csv", padded(marked, HALF)))
        for first in range(65480, 65561, 3):
            with self.subTest(f"{marked} with {first} line feeds"):
                ran = run("mpsim", "--workers", "4", "--jobs", DESK / "model.txt", self.file("trace.csv", padded(marked, first)))
                self.did(ran, whole.status, whole.out, whole.line)

    def test_64_threads_in_any_order(self):
        for _ in range(100):
            self.writes(CALL / "report.txt", "--workers", "64", "--block", "1", *CALL_FILES)

    def test_threads_that_start(self):
        if not shutil.which("strace") or run("strace", "-f", "-o", "/dev/null", "-e", "trace=clone,clone3", "true").status:
            self.skipTest("no strace here, so the threads of a run are not counted")
        # Few rows are left to one worker, and one worker starts no threads. Four workers read the trace of generated input 7, which is cut into three
        # pieces: the ends of two, the rows of three, and more lists of rows than workers need one, two and three threads.
        self.starts(0, 0, *CALL_FILES)
        self.starts(0, 0, "--made", "7", "--workers", "1")
        self.starts(6, 6, "--made", "7", "--workers", "4")
        # Of 64 workers only as many start as a list has pieces or a server has blocks: all lists together need fewer threads than one list would for
        # all workers.
        source = EXAMPLES / "source" / "model.txt", EXAMPLES / "source" / "trace.csv"
        self.starts(1, 62, "--jobs", "--workers", "64", "--block", "1", *source)
        self.starts(1, 62, "--jobs", "--workers", "64", "--block", "1", *DESK_FILES)
        # Without job lines nothing is computed for a source, but the pieces of a station are.
        self.starts(0, 0, "--workers", "64", "--block", "1", *source)
        self.starts(1, 62, "--workers", "64", "--block", "1", *DESK_FILES)

    def starts(self, least, most, *words):
        """A run starts at least and at most this many threads besides its own."""
        calls = self.file("calls.txt")
        ran = run("strace", "-f", "-qq", "-o", calls, "-e", "trace=clone,clone3", PROGRAMS["mpsim"], *words)
        self.assertEqual(ran.status, 0, ran.command)
        many = calls.read_text().count("CLONE_THREAD")
        self.holds(f"{ran.command}\nstarts {many} threads, wanted {least} to {most}", least <= many <= most)


for number, marked in enumerate(lines_of("trace-texts.txt"), 1):
    setattr(Workers, f"test_pieces_of_text_{number:02}", lambda self, marked=marked: self.pieces(marked))
