"""Runs the examples of the man pages: each command must write what is shown below it."""
import os
import shutil

from pages import manual_section
from programs import DESK_FILES, EXAMPLES, PROGRAMS, ROOT, Check, difference, run


def commands_of(program):
    """Returns the commands in the examples of a program's page, each with the lines below it."""
    found, within = [], False
    for line in manual_section(program, "EXAMPLES"):
        within = line == ".nf" or within and line != ".fi"
        if not within or line.startswith("."):
            continue
        if line.startswith("$ "):
            found.append((line[2:], []))
        elif line.startswith("    "):
            # A continued command.
            found[-1] = f"{found[-1][0]}\n{line}", []
        else:
            found[-1][1].append(line)
    return found


def is_like(written, shown):
    """Returns whether a line is as shown, where three dots at the end stand for the rest."""
    return written.startswith(shown[:-3]) if shown.endswith("...") else written == shown


class Manual(Check):
    def setUp(self):
        """Makes a directory with the files that the pages name: the desk's, a day of calls, and a model with a placeholder for the number of
        agents."""
        super().setUp()
        self.settings = {"PATH": f"{self.folder}:{os.environ['PATH']}"}
        for name, program in PROGRAMS.items():
            (self.folder / name).symlink_to(program)
        (self.folder / "mpplan").symlink_to(ROOT / "mpplan")
        for file in DESK_FILES:
            shutil.copy(file, self.folder)
        shutil.copy(EXAMPLES / "sweep" / "trace.csv", self.folder / "calls.csv")
        self.file("trace.csv.gz", run("gzip", "-c", DESK_FILES[1]).out)

    def runs_examples(self, program):
        for command, shown in commands_of(program):
            if command.startswith("cat "):
                self.file(command[4:], "".join(f"{line}\n" for line in shown))
                continue
            ran = run("sh", "-e", "-c", command, folder=self.folder, settings=self.settings)
            lines = ran.out.decode().splitlines()
            agrees = len(lines) == len(shown) and all(map(is_like, lines, shown)) if shown else True
            text = "".join(f"{line}\n" for line in shown).encode()
            self.holds(f"docs/{program}.1\n{ran.command}\nstatus {ran.status}\n{difference(ran.out, text)}", agrees and ran.status == 0 and not ran.line)

    def test_mpsim(self):
        self.runs_examples("mpsim")

    def test_mpedit(self):
        self.runs_examples("mpedit")

    def test_mpsweep(self):
        model = (EXAMPLES / "sweep" / "agents-12.txt").read_text()
        self.file("model.txt", model.replace("trunk agents 12", "trunk agents AGENTS"))
        self.runs_examples("mpsweep")

    def test_mpplan(self):
        self.runs_examples("mpplan")
