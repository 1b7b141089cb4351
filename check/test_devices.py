"""Errors of the devices that mpsim reads and writes, and lack of memory. Those of mpsweep and mpedit are with their other checks."""
from programs import CASES, DESK, DESK_FILES, Check, run
from refusals import each_refused, first_refused_mutely


class Devices(Check):
    def test_full_output(self):
        self.did(run("mpsim", *DESK_FILES, out="/dev/full"), 7, "", "mpsim: cannot write the report\n")

    def test_words_that_cannot_be_read(self):
        self.refuses(12, "mpsim: cannot read the words", "mpsim", b"\xff")

    def test_full_error_output(self):
        """An error of stderr changes no status: one run of each, and what it writes."""
        model, trace = DESK_FILES
        of_case = lambda name: (CASES / name / "model.txt", CASES / name / "trace.csv")
        self.mutely(0, DESK / "report.txt", "mpsim", model, trace)
        self.mutely(2, "", "mpsim", "--workers", "65", model, trace)
        self.mutely(2, "", "mpsim", "--report", "3", model, trace)
        self.mutely(3, "", "mpsim", CASES / "unknown-kind" / "model.txt", trace)
        self.mutely(4, "", "mpsim", model, model)
        self.mutely(5, "", "mpsim", *of_case("past-the-bound"))
        self.mutely(6, "", "mpsim", model, self.folder / "absent")
        self.mutely(9, "", "mpsim", *of_case("too-many-visits"))
        self.mutely(12, "", "mpsim", b"\xff")
        self.did(run("mpsim", *DESK_FILES, out="/dev/full", line="/dev/full"), 7)


class Memory(Check):
    def test_each_allocation_with_one_worker(self):
        each_refused(self, 0, DESK / "report.txt", "mpsim", *DESK_FILES, "--block", "1", "--workers", "1")

    def test_each_allocation_with_four_workers(self):
        each_refused(self, 0, DESK / "report.txt", "mpsim", *DESK_FILES, "--block", "1", "--workers", "4")

    def test_first_allocation_with_a_full_error_output(self):
        first_refused_mutely(self, "mpsim", *DESK_FILES, "--block", "1", "--workers", "1")
