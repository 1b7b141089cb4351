"""Texts of models and traces: each invalid one with the error line of its first error, each valid one with its report.

The texts are lines of files in examples/cases.
"""
from inputs import lines_of, unescaped
from programs import DESK, EXAMPLES, Check

NO_JOB = """mpsim report 1
jobs 0 span 0
node s source in 0 out 0 lost 0 wait 0 max 0 busy 0 area 0 peak 0 util -
exit s.0 0 sojourn 0
"""
ONE_JOB = """mpsim report 1
jobs 1 span 11
node src source in 1 out 1 lost 0 wait 0 max 0 busy 0 area 0 peak 0 util -
node desk server in 1 out 1 lost 0 wait 0 max 0 busy 4 area 4 peak 1 util 0.3636
exit desk.0 1 sojourn 4
"""


class Faults(Check):
    def test_first_bytes_of_a_model(self):
        """Prefixes of the desk's model, for each length in a range: the case whose report they give, or their error line."""
        model = (DESK / "model.txt").read_bytes()
        for line in lines_of("model-cuts.txt"):
            least, most, answer, *refusal = line.split(" ", 3)
            for length in range(int(least), int(most) + 1):
                with self.subTest(length):
                    cut = self.file("cut.txt", model[:length])
                    if refusal:
                        self.refuses(int(answer), refusal[0], "mpsim", cut, DESK / "trace.csv")
                    else:
                        self.writes(EXAMPLES / answer / "report.txt", cut, DESK / "trace.csv")

    def test_faults_of_a_model(self):
        """The trace isn't read."""
        for line, text in lines_of("model-faults.txt", fields=2):
            with self.subTest(text):
                self.refuses(3, line, "mpsim", self.file("model.txt", unescaped(text)), self.folder / "absent")

    def test_models_of_one_source(self):
        """Each text declares one source and no column."""
        trace = self.file("none.csv", "source,time\n")
        for text in lines_of("models-of-one-source.txt"):
            with self.subTest(text):
                self.writes(NO_JOB, self.file("model.txt", unescaped(text)), trace)

    def test_faults_of_a_trace(self):
        for line, text in lines_of("trace-faults.txt", fields=2):
            with self.subTest(text):
                self.refuses(4, line, "mpsim", DESK / "model.txt", self.file("trace.csv", unescaped(text)))

    def test_traces_of_one_job(self):
        """Each text has one job, which arrives at 7 and is served for 4."""
        for text in lines_of("traces-of-one-job.txt"):
            with self.subTest(text):
                self.writes(ONE_JOB, DESK / "model.txt", self.file("trace.csv", unescaped(text)))
