"""Checks that options and statuses agree wherever they appear: in a program's usage line, its script, its man page, its completions, docs/ERRORS.md,
docs/REPORT.md and docs/EDITS.md; and that those of `mpplan` are those of its parsers."""
import re
import shlex
import shutil
import sys

import help_texts
import mpplan_words
from help_texts import plain
from pages import manual_section
from programs import PROGRAMS, ROOT, Check, run


sys.path.insert(0, str(ROOT / "tools"))
from unproved import usage


def text_of(name):
    return (ROOT / name).read_text()


def forms_of(program):
    """Returns the forms of a program's arguments, from its usage line."""
    return run(program).line.decode().rstrip("\n").removeprefix(f"{program}: usage: ").split(" or ")


def options_of(text):
    """Returns the options that a text names, in order, each once."""
    return sorted(set(re.findall(r"--[a-z]+", text)))


def rows_of(page, heading=""):
    """Returns the cells of the first table of a page below a heading."""
    text = text_of(page)
    lines = text[text.index(f"\n{heading}\n") if heading else 0 :].splitlines()
    first = next(at for at, line in enumerate(lines) if line.startswith("| "))
    rows = []
    for line in lines[first + 2 :]:
        if not line.startswith("| "):
            break
        rows.append([cell.strip() for cell in re.split(r"(?<!\\)\|", line)[1:-1]])
    return rows


def numbers_of(text):
    return set(re.findall(r"\d+", text.replace(",", "")))


# What the commands answer without a run, if it is the only argument.
OWN = ["--help", "--version"]
# The heading in docs/ERRORS.md above the table of each program.
ERRORS = {"mpsim": "", "mpsweep": "## `mpsweep`", "mpedit": "## `mpedit`"}


class Options(Check):
    def test_usage_lines(self):
        for program in PROGRAMS:
            with self.subTest(program):
                forms = forms_of(program)
                line, status, _ = rows_of("docs/ERRORS.md", ERRORS[program])[0]
                self.same("docs/ERRORS.md", (line, status), (f"`{program}: usage: {' or '.join(forms)}`", "2"))
                head = re.findall(r"^# (?:Runs the program:|or) \./(.*)$", text_of(program), flags=re.MULTILINE)
                self.same(f"the head of the script {program}", head, forms)
                self.same(f"docs/{program}.1", help_texts.synopsis(program), forms)
                self.same(f"{program} without arguments, with nothing built", usage(program), f"usage: {' or '.join(forms)}")

    def test_names_of_options(self):
        for program in PROGRAMS:
            with self.subTest(program):
                options = options_of(" ".join(forms_of(program)))
                described = "\n".join(item for item in manual_section(program, "OPTIONS") if item.startswith(".B"))
                self.same(f"docs/{program}.1", options_of(described), sorted([*options, *OWN]))
                self.same(f"completions/_{program}", sorted(re.findall(r"^ *'(--[a-z]+)\[", text_of(f"completions/_{program}"), flags=re.MULTILINE)), options)
                self.same(f"completions/_{program}, alone", re.findall(r"'\(- \*\)(--[a-z]+)\[", text_of(f"completions/_{program}")), OWN)
                if (ROOT / "completions" / f"{program}.bash").is_file():
                    self.same(f"completions/{program}.bash", options_of(text_of(f"completions/{program}.bash")), sorted([*options, *OWN]))
        self.same("docs/REPORT.md", options_of("".join(words for words, _ in rows_of("docs/REPORT.md", "## Options"))), options_of(" ".join(forms_of("mpsim"))))

    def test_help(self):
        """It is written from the man pages; the scripts at the root print it, and the version, if nothing else is asked for."""
        version = text_of("VERSION").strip()
        for program in PROGRAMS:
            file = help_texts.file_of(program)
            self.same(f"{file}: check/help_texts.py writes it", file.read_text(), help_texts.help_of(program))
            self.did(run(ROOT / program, "--help", folder="/"), 0, file)
            self.did(run(ROOT / program, "--version", folder="/"), 0, f"{program} {version}\n")
            self.same("lines that are too long", [line for line in file.read_text().splitlines() if len(line) > 79 and not line.startswith(("  $ ", "usage: "))], [])

    def test_what_bash_completes(self):
        """All options that aren't given yet; both forms of the report; otherwise files."""
        if not shutil.which("bash"):
            self.skipTest("no bash here")
        options = options_of(" ".join(forms_of("mpsim")))
        for before, wanted in (["-"], sorted([*options, *OWN])), (["--jobs", "-"], [it for it in options if it != "--jobs"]), (["--report", ""], ["1", "2"]), (["--block", ""], []):
            words = " ".join(shlex.quote(item) for item in ["mpsim", *before])
            script = f"source completions/mpsim.bash; COMP_WORDS=({words}); COMP_CWORD={len(before)}; _mpsim; echo ${{COMPREPLY[@]}}"
            self.same(f"bash after {words}", sorted(run("bash", "-c", script).out.decode().split()), wanted)

    def test_ranges_of_numbers(self):
        """The numbers in the error line for an option's value also appear in its descriptions."""
        rows, page = rows_of("docs/REPORT.md", "## Options"), "\n".join(manual_section("mpsim", "OPTIONS"))
        described = {options_of(part)[0]: part for part in page.split(".TP")[1:]}
        for line, _, _ in rows_of("docs/ERRORS.md"):
            for option in re.findall(r"`mpsim: (--[a-z]+) takes ", line):
                numbers = numbers_of(line)
                self.holds(f"{option} in docs/mpsim.1: {described[option]}", numbers <= numbers_of(described[option]))
                row = next(f"{words} {text}" for words, text in rows if option in words)
                self.holds(f"{option} in docs/REPORT.md: {row}", numbers <= numbers_of(row))
                self.did(run("mpsim", option, "x", *["m", "t"] * (option != "--made")), 2, "", line.strip("`") + "\n")

    def test_statuses(self):
        for program in PROGRAMS:
            with self.subTest(program):
                told = {status for _, cell, _ in rows_of("docs/ERRORS.md", ERRORS[program]) for status in cell.split(", ")} | {"0"}
                page = re.findall(r"^\.B (\d+)$", "\n".join(manual_section(program, "EXIT STATUS")), flags=re.MULTILINE)
                self.same(f"docs/{program}.1", page, sorted(told, key=int))
        cells = [cell for cell, _ in rows_of("docs/EDITS.md", "## Exit statuses")]
        self.same("docs/EDITS.md", sorted(int(it) for cell in cells for it in cell.split(", ")), sorted(map(int, told)))


class Planner(Check):
    """The man page and the completions, which check/mpplan_words.py writes from the parsers; and the help."""

    def test_files(self):
        for file, made in (mpplan_words.BASH, mpplan_words.bash()), (mpplan_words.ZSH, mpplan_words.zsh()):
            self.same(f"{file}: check/mpplan_words.py writes it", file.read_text(), made)
        page = mpplan_words.MANUAL.read_text()
        self.same("docs/mpplan.1: check/mpplan_words.py writes its commands", page, mpplan_words.with_commands(page))
        self.holds("a per cent sign is doubled, as only argparse wants it", "%%" not in page + mpplan_words.ZSH.read_text().split("_arguments", 1)[1])

    def helps(self):
        """Yields the options in the help of each command, by its name."""
        for name in mpplan_words.COMMANDS:
            found = run(ROOT / "mpplan", name, "--help").out.decode()
            yield name, sorted(re.findall(r"^  (?:-h, )?(--[a-z-]+)", found, flags=re.MULTILINE))

    def completed(self, *before):
        """Returns what bash completes after these words."""
        words = " ".join(shlex.quote(item) for item in ["mpplan", *before])
        script = f"compopt() {{ :; }}; source completions/mpplan.bash; COMP_WORDS=({words}); COMP_CWORD={len(before)}; _mpplan; echo ${{COMPREPLY[@]}}"
        return sorted(run("bash", "-c", script).out.decode().split())

    def test_help(self):
        """All options of each command are in all three, and no others."""
        commands = "".join(f"{item}\n" for item in manual_section("mpplan", "COMMANDS")).split(".SS ")[1:]
        described = {command.split("\n", 1)[0]: re.findall(r"^\.TP\n\.BI? (--[a-z-]+)", command, flags=re.MULTILINE) for command in commands}
        zsh = mpplan_words.ZSH.read_text().split(";;")
        for name, options in self.helps():
            wanted = [option for option in options if option != "--help"]
            self.same(f"docs/mpplan.1, {name}", sorted(described.pop(name)), wanted)
            mine = next(item for item in zsh if f"\n    {name})\n" in item)
            self.same(f"completions/_mpplan, {name}", sorted(re.findall(r"^ *'\*?(--[a-z-]+)(?:=-)?\[", mine, flags=re.MULTILINE)), options)
            if shutil.which("bash"):
                self.same(f"completions/mpplan.bash, {name}", self.completed(name, "-"), options)
        self.same("further commands in docs/mpplan.1", described, {})

    def test_what_bash_completes(self):
        """Commands; all options that aren't given yet or may be repeated; the choices of a value; otherwise files."""
        if not shutil.which("bash"):
            self.skipTest("no bash here")
        for before, wanted in (
            ([""], sorted([*mpplan_words.COMMANDS, "--help", "--version"])),
            (["s"], ["scale", "service", "shifts", "sojourns", "staff", "sweep"]),
            (["scale", "--shift", "5", "--source", "web", "--s"], ["--source", "--start"]),
            (["hours", "--by", ""], ["day", "each", "hour", "weekday"]),
            (["scale", "--by", ""], []),
            (["service", "--by", "s"], ["source"]),
            (["nothing", "-"], []),
        ):
            self.same(f"bash after {before}", self.completed(*before), wanted)

    def test_zsh_reads_them(self):
        if not shutil.which("zsh"):
            self.skipTest("no zsh here")
        for file in mpplan_words.ZSH, *(ROOT / "completions" / f"_{program}" for program in PROGRAMS):
            self.did(run("zsh", "-n", file))

    def test_words_of_its_own(self):
        described = "\n".join(item for item in manual_section("mpplan", "OPTIONS") if item.startswith(".B"))
        self.same("docs/mpplan.1", options_of(described), sorted(mpplan_words.OWN))
        found = run(ROOT / "mpplan", "--help").out.decode()
        self.same("its help", re.findall(r"^  (?:-h, )?(--[a-z-]+)", found, flags=re.MULTILINE), list(mpplan_words.OWN))
        page = re.findall(r"^\.B (\d+)$", "\n".join(manual_section("mpplan", "EXIT STATUS")), flags=re.MULTILINE)
        self.same("statuses", page, ["0", "1", "2", "11", "13", "130", "141"])
