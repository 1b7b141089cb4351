"""The examples and the cases: directories with a model and a trace, and the expected answers.

report.txt is the expected report, in the form that its first line names, line.txt the line on stderr, and `status` the status (default 0). If there
are several calls or other arguments, each line of the file `words` is a call. jobs.txt has the report with job lines. The answer is the same for all
numbers of workers and block sizes.
"""
import shlex

from programs import CASES, EXAMPLES, Check, executable, form_of, run

# Numbers of workers and of jobs per block.
SETTINGS = [("1", "5"), ("4", "1"), ("4", "4096"), ("64", "1")]
# These contain examples of mpsweep, of mpedit, of mpplan and of the Python package, and the cases.
OTHERS = ["cases", "edits", "plant", "python", "recipes", "staffing", "sweep"]
FOLDERS = [it for it in sorted(EXAMPLES.iterdir()) if it.is_dir() and it.name not in OTHERS] + [it for it in sorted(CASES.iterdir()) if it.is_dir()]


class Examples(Check):
    def answers(self, folder):
        report, line, jobs = (folder / f"{name}.txt" for name in ("report", "line", "jobs"))
        self.assertTrue(report.is_file() or line.is_file(), f"{folder} has no answer")
        status = int((folder / "status").read_text()) if (folder / "status").is_file() else 0
        wanted = status, report if report.is_file() else b"", line if line.is_file() else b""
        form = form_of(wanted[1])
        has_words = (folder / "words").is_file()
        # The script answers --help and --version itself, so calls with other arguments run the program without it.
        for words in (folder / "words").read_text().splitlines() if has_words else ["model.txt trace.csv"]:
            self.did(run(executable("mpsim") if has_words else "mpsim", *shlex.split(words), *form, folder=folder), *wanted)
        if jobs.is_file():
            self.writes(jobs, "model.txt", "trace.csv", "--jobs", folder=folder)
        if line.is_file() and has_words:
            return
        for workers, block in SETTINGS:
            self.did(run("mpsim", "--workers", workers, "model.txt", "--block", block, "trace.csv", *form, folder=folder), *wanted)
            if jobs.is_file():
                self.writes(jobs, "--workers", workers, "model.txt", "--jobs", "--block", block, "trace.csv", folder=folder)

    def test_options_among_the_names(self):
        server = CASES / "server"
        self.did(run("mpsim", "model.txt", "--report", "1", "trace.csv", folder=server), 0, server / "report.txt")
        words = "--block 65536 model.txt --workers 064 --jobs trace.csv --report 1".split()
        self.did(run("mpsim", *words, folder=server), 0, server / "jobs.txt")

    def test_a_week_is_drawn(self):
        week = EXAMPLES / "week"
        self.did(run(week / "calls.py"), 0, week / "trace.csv")
        self.did(run(week / "recorded.py"), 0, week / "recorded.csv")


for folder in FOLDERS:
    name = folder.name if folder.parent == EXAMPLES else f"case_{folder.name}"
    setattr(Examples, f"test_{name}", lambda self, folder=folder: self.answers(folder))
