"""Compares mpedit with stored texts and with the reference, which runs the edited rows from scratch and counts the blocks itself (edits.py)."""
import sys

from inputs import lines_of, records, two_nodes, unescaped
from programs import CALL, CASES, CHECKS, DESK_FILES, EXAMPLES, ROOT, Check, form_of, run
from refusals import each_refused, first_refused_mutely

LATE, MOVED = EXAMPLES / "edits" / "late-caller", EXAMPLES / "edits" / "shift-moved"
STORED = ROOT / "crates" / "mpedit" / "stdout"
MODEL, TRACE = DESK_FILES
ONE_SOURCE = EXAMPLES / "source" / "model.txt"
USAGE = "mpedit: usage: mpedit MODEL TRACE EDITS"


def bound_by(bound):
    """Returns the desk's model with this bound."""
    return f"model 1\nbound {bound}\nsource src\nserver desk d from src\n"


class Edits(Check):
    def as_apart(self, *words):
        """mpedit does what the reference does."""
        apart = run(sys.executable, CHECKS / "edits.py", *words)
        ran = run("mpedit", *words)
        self.did(ran, apart.status, apart.out, apart.line)
        return ran

    def refuses_edits(self, status, line, *words):
        self.refuses(status, f"mpedit: {line}", "mpedit", *words)

    def test_late_caller(self):
        words = CALL / "model.txt", CALL / "trace.csv", LATE / "edits.txt"
        self.did(run("mpedit", *words), 0, LATE / "report.txt")
        self.as_apart(*words)

    def test_shift_that_is_moved(self):
        calls = self.file("calls.csv", run("awk", "-f", MOVED / "calls.awk").out)
        edits = self.file("edits.txt", run("awk", "-F,", "-f", MOVED / "edits.awk", calls).out)
        self.did(run("mpedit", MOVED / "model.txt", calls, edits), 0, MOVED / "report.txt")
        self.as_apart(MOVED / "model.txt", calls, edits)

    def test_no_edits(self):
        """The report is that of the trace, and nothing is computed again."""
        none = self.file("none.txt")
        for model in sorted(EXAMPLES.glob("*/model.txt")):
            ran = self.as_apart(model, model.parent / "trace.csv", none)
            report, last = ran.out.rstrip(b"\n").rsplit(b"\n", 1)
            self.holds(f"{ran.command}\nends with {last}", last.startswith(b"again 0 of ") and last.endswith(b" blocks"))
            stored = model.parent / "report.txt"
            if not form_of(stored):
                self.same(f"{ran.command}\nwithout its last line", report + b"\n", stored.read_bytes())

    def test_texts_that_are_accepted(self):
        for text in lines_of("edit-texts.txt"):
            with self.subTest(text):
                ran = self.as_apart(MODEL, TRACE, self.file("edits.txt", unescaped(text)))
                self.holds(f"{ran.command}\nends with {ran.status}", ran.status == 0)

    def test_texts_that_are_refused(self):
        for line, text in lines_of("edit-faults.txt", fields=2):
            with self.subTest(text):
                edits = self.file("edits.txt", unescaped(text))
                self.refuses(10, line, "mpedit", MODEL, TRACE, edits)
                self.as_apart(MODEL, TRACE, edits)

    def test_bytes_of_edits(self):
        of_bytes = lambda many: self.file("edits.txt", "add src 3 2".ljust(many))
        ran = self.as_apart(MODEL, TRACE, of_bytes(16777216))
        self.holds(f"{ran.command}\nends with {ran.status}", ran.status == 0)
        self.refuses_edits(10, "edits: too long", MODEL, TRACE, of_bytes(16777217))

    def test_records(self):
        trace = self.file("trace.csv", records(1048575))
        ran = run("mpedit", ONE_SOURCE, trace, self.file("edits.txt", "add src 1\n"))
        self.did(ran._replace(out=ran.out[ran.out.rfind(b"\n", 0, -1) + 1 :]), 0, "again 1 of 256 blocks\n")
        edits = self.file("edits.txt", "add src 1\nset 1048576 src 0\nadd src 1\n")
        self.refuses_edits(10, "edits line 3: not allowed", ONE_SOURCE, trace, edits)

    def test_too_many_visits(self):
        """Before the edits or after them. Edits are checked before the first run."""
        edits, faulty = self.file("edits.txt", "add src 3\n"), self.file("faulty.txt", "add nobody 3\n")
        model, trace = self.file("model.txt", two_nodes("delay w =0 from f f.1 f.2 f.3")), self.file("trace.csv", records(262144))
        self.refuses_edits(9, "node w has 1048580 visits after the edits", model, trace, edits)
        trace = self.file("trace.csv", records(262145))
        self.refuses_edits(9, "node w has 1048580 visits before the edits", model, trace, edits)
        self.refuses_edits(10, "edits line 1: not allowed", model, trace, faulty)

    def test_bound_that_is_passed(self):
        edits, line = self.file("edits.txt", "add src 3 1\n"), "node desk position 3 passes the bound at time 9 after the edits"
        self.refuses_edits(5, line, self.file("model.txt", bound_by(8)), TRACE, edits)
        edits, line = self.file("edits.txt", "set 3 src 2 1\n"), "node desk position 2 passes the bound at time 8 before the edits"
        self.refuses_edits(5, line, self.file("model.txt", bound_by(7)), TRACE, edits)
        self.refuses_edits(10, "edits line 1: not allowed", self.folder / "model.txt", TRACE, self.file("faulty.txt", "add nobody 3\n"))

    def test_words_that_are_refused(self):
        edits = self.file("edits.txt", "add src 3 2\n")
        for words in [], [MODEL, TRACE], [MODEL, TRACE, edits, edits], [MODEL, TRACE, "--help"], ["-", TRACE, edits]:
            self.refuses(2, USAGE, "mpedit", *words)
        self.refuses_edits(12, "cannot read the words", MODEL, TRACE, b"\xff")

    def test_files_that_are_refused(self):
        edits, absent = self.file("edits.txt", "add src 3 2\n"), self.folder / "absent"
        self.refuses_edits(3, "model line 3: word 1 not allowed", CASES / "unknown-kind" / "model.txt", absent, absent)
        self.refuses_edits(4, "trace header: field 1 not allowed", MODEL, MODEL, absent)
        self.refuses_edits(6, "cannot read file 1", absent, TRACE, edits)
        self.refuses_edits(6, "cannot read file 2", MODEL, absent, edits)
        self.refuses_edits(6, "cannot read file 3", MODEL, TRACE, absent)


class Devices(Check):
    def setUp(self):
        super().setUp()
        self.words = "mpedit", MODEL, TRACE, self.file("edits.txt", "add src 3 2\n")

    def test_full_output(self):
        self.did(run(*self.words, out="/dev/full"), 7, "", "mpedit: cannot write the report\n")

    def test_full_error_output(self):
        edits = self.words[3]
        self.mutely(0, STORED, *self.words)
        self.mutely(2, "", "mpedit", MODEL, TRACE)
        self.mutely(3, "", "mpedit", TRACE, TRACE, edits)
        self.mutely(4, "", "mpedit", MODEL, MODEL, edits)
        self.mutely(5, "", "mpedit", self.file("model.txt", bound_by(7)), TRACE, edits)
        self.mutely(6, "", "mpedit", MODEL, TRACE, self.folder / "absent")
        self.mutely(10, "", "mpedit", MODEL, TRACE, self.file("faulty.txt", "add nobody 3\n"))
        self.mutely(12, "", "mpedit", MODEL, TRACE, b"\xff")
        self.did(run(*self.words, out="/dev/full", line="/dev/full"), 7)

    def test_edits_by_a_pipe(self):
        self.did(run("mpedit", MODEL, TRACE, "/dev/stdin", given=b"add src 3 2\n"), 0, STORED)

    def test_each_allocation(self):
        self.did(run(*self.words), 0, STORED)
        each_refused(self, 0, STORED, *self.words)

    def test_first_allocation_with_a_full_error_output(self):
        first_refused_mutely(self, *self.words)
