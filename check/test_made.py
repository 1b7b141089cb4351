"""Generated inputs (--made): for a number, the program writes the same as for the two texts that generator.py draws for it."""
from generator import made
from inputs import lines_of, unescaped
from programs import EXAMPLES, Check, run


class Made(Check):
    def draws(self, number, model, size, first, last):
        """The model, the number of lines and bytes of the trace, and its first three lines and its last match examples/cases."""
        texts = made(int(number))
        rows = texts[1].splitlines(True)
        sizes = f"{len(rows)} {len(texts[1])}\n"
        drawn = "".join([texts[0], sizes, *rows[:3], rows[-1]])
        self.same(f"made input {number}", drawn.encode(), unescaped(f"{model}{size}\\n{first}{last}"))
        files = self.file("model.txt", texts[0]), self.file("trace.csv", texts[1])
        report = run("mpsim", *files).out
        for words in ["--made", number], ["--made", number, "--workers", "64", "--block", "1"], ["--report", "02", "--made", number]:
            self.did(run("mpsim", *words), 0, report)
        self.did(run("mpsim", "--jobs", "--made", number.rjust(20, "0")), 0, run("mpsim", "--jobs", *files).out)

    def whatever(self, number, report):
        """The report of a number is the same for all numbers of workers and block sizes."""
        self.writes(report, "--made", number)
        for workers in 1, 2, 3, 4, 64:
            for block in 1, 5, 7, 64, 4096, 65536:
                self.writes(report, "--workers", str(workers), "--made", number, "--block", str(block))

    def test_made_7(self):
        """The report is that of an event list in another language."""
        self.whatever("7", EXAMPLES / "made-7.txt")

    def test_made_9(self):
        """The input has servers. The report is that of one worker."""
        self.whatever("9", self.accepts("--workers", "1", "--made", "9").out)


for fields in lines_of("made-inputs.txt", fields=5):
    setattr(Made, f"test_drawn_{fields[0]}", lambda self, fields=fields: self.draws(*fields))
