"""mpsweep: a sweep writes what the single runs of mpsim write, in any order of threads; its errors, and errors of devices, memory and threads."""
from inputs import line_feeds
from programs import CASES, DESK_FILES, EXAMPLES, ROOT, Check, run
from refusals import each_refused, first_refused_mutely, refusing

DAY = EXAMPLES / "sweep"
STORED = ROOT / "crates" / "mpsweep" / "stdout"
MODEL, TRACE = DESK_FILES
UNKNOWN = CASES / "unknown-kind" / "model.txt"
# The models of the examples and cases, and some traces that few of these models accept: most runs are refused, for every cause.
MODELS = [*sorted(EXAMPLES.glob("*/model.txt")), *sorted(CASES.glob("*/model.txt"))]
TRACES = [TRACE, *(CASES / name / "trace.csv" for name in ("rows-by-time", "too-many-visits", "past-the-bound"))]
# More models than workers; one is refused at once, and one is a trace.
MIXED = [MODEL, UNKNOWN, MODEL, MODEL, TRACE, MODEL]
USAGE = "mpsweep: usage: mpsweep TRACE MODEL.."


def single_runs(trace, *models):
    """Returns the status and the text of a sweep: for each model a line with its number and status, then what mpsim writes."""
    runs = [run("mpsim", model, trace) for model in models]
    parts = [f"scenario {number} status {ran.status}\n".encode() + ran.out + ran.line for number, ran in enumerate(runs, 1)]
    return 11 if any(ran.status for ran in runs) else 0, b"".join(parts)


class Sweeps(Check):
    def is_single_runs(self, trace, *models):
        self.did(run("mpsweep", trace, *models), *single_runs(trace, *models))

    def test_day_of_calls(self):
        models = sorted(file.name for file in DAY.glob("agents-*.txt"))
        self.did(run("mpsweep", "trace.csv", *models, folder=DAY), 0, DAY / "report.txt")
        self.did(run(DAY / "calls.py"), 0, DAY / "trace.csv")

    def test_each_model_over_its_own_trace(self):
        for model in MODELS:
            trace = model.parent / "trace.csv"
            if trace.is_file():
                with self.subTest(model):
                    self.is_single_runs(trace, model)

    def test_a_sweep_again_and_again(self):
        """Different workers finish last each time."""
        wanted = single_runs(TRACE, *MIXED)
        for _ in range(101):
            self.did(run("mpsweep", TRACE, *MIXED), *wanted)

    def test_words_that_are_refused(self):
        for words in [TRACE, *MODELS[-64:], MODEL], [], [TRACE], [TRACE, MODEL, "--jobs"], ["-", MODEL]:
            self.refuses(2, USAGE, "mpsweep", *words)
        self.refuses(12, "mpsweep: cannot read the words", "mpsweep", b"\xff", MODEL)

    def test_files_that_are_refused(self):
        """The error names the first of them, in the order of the arguments."""
        absent, long_model, long_trace = self.folder / "absent", self.file("long.txt", *line_feeds(65537)), self.file("long.csv", *line_feeds(134217729))
        self.refuses(3, "mpsweep: file 1 is too long", "mpsweep", long_trace, absent)
        self.refuses(3, "mpsweep: file 3 is too long", "mpsweep", TRACE, MODEL, long_model, absent)
        self.refuses(6, "mpsweep: cannot read file 1", "mpsweep", absent, long_model)
        self.refuses(6, "mpsweep: cannot read file 3", "mpsweep", TRACE, MODEL, absent, long_model)
        self.refuses(6, "mpsweep: cannot read file 2", "mpsweep", TRACE, "", MODEL)

    def test_files_of_the_greatest_length(self):
        self.is_single_runs(TRACE, self.file("blank.txt", *line_feeds(65536)), MODEL)
        self.is_single_runs(self.file("long.csv", *line_feeds(134217728)), MODEL)

    def test_trace_by_a_pipe(self):
        self.did(run("mpsweep", "/dev/stdin", MODEL, given=TRACE.read_bytes()), 0, STORED)


for trace in TRACES:
    name = f"test_64_models_over_the_trace_of_{trace.parent.name}"
    setattr(Sweeps, name, lambda self, trace=trace: self.is_single_runs(trace, *MODELS[-64:]))


class Devices(Check):
    def test_full_output(self):
        self.did(run("mpsweep", TRACE, MODEL, out="/dev/full"), 7, "", "mpsweep: cannot write the reports\n")

    def test_full_error_output(self):
        self.mutely(0, STORED, "mpsweep", TRACE, MODEL)
        self.mutely(2, "", "mpsweep", TRACE)
        self.mutely(3, "", "mpsweep", TRACE, self.file("long.txt", *line_feeds(65537)))
        self.mutely(6, "", "mpsweep", TRACE, self.folder / "absent")
        self.mutely(11, run("mpsweep", TRACE, UNKNOWN).out, "mpsweep", TRACE, UNKNOWN)
        self.mutely(12, "", "mpsweep", b"\xff")
        self.did(run("mpsweep", TRACE, MODEL, out="/dev/full", line="/dev/full"), 7)


class Memory(Check):
    """Runs for which a worker lacks memory are repeated once all have ended."""

    WORDS = "mpsweep", TRACE, MODEL, UNKNOWN, MODEL

    def test_each_allocation(self):
        wanted = single_runs(*self.WORDS[1:])
        self.did(run(*self.WORDS), *wanted)
        each_refused(self, *wanted, *self.WORDS)

    def test_first_allocation_with_a_full_error_output(self):
        first_refused_mutely(self, "mpsweep", TRACE, MODEL)

    def test_threads(self):
        """Refuses one thread after another, and all of them: the text is complete."""
        wanted = single_runs(*self.WORDS[1:])
        for threads in range(3):
            ran, refused = refusing(self, *self.WORDS, THREADS=str(threads))
            self.did(ran, *wanted)
            self.holds(f"{ran.command}\nwants no more threads", refused)
