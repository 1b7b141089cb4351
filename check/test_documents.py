"""Checks that README and docs show what the programs do: commands are run, and the output shown below them must be in what they write.

A code block that begins with a command is run by a shell in a directory like the root. The blocks after it, up to the next command or heading, show
lines that it writes to stdout or into files. A marker on the line above says that a block can't be run (pages.py). The recipes of docs/MODEL.md have
their own check, which takes every block below their headings. The names on docs/DEFINITIONS.md must be defined in the files named with them.
"""
import os
import re
import shutil

from pages import blocks
from programs import EXAMPLES, PROGRAMS, ROOT, Check, difference, executable, run

PAGES = ["README.md", "CHANGELOG.md", "CONTRIBUTING.md", *(f"docs/{file.name}" for file in sorted((ROOT / "docs").glob("*.md")))]
# A block is a command if it begins with one of these, or with the name of a file in a directory.
COMMANDS = ["awk", "cat", "cd", "cp", "diff", "for", "gzip", "install", "man", "python3", "rt", "sed", "sh", "tar"]
# Pages that are one session: each command works on the files of the commands before it, across headings.
SESSIONS = ["docs/TUTORIAL.md", "docs/TUTORIAL_ROSTER.md"]
# Headings of docs/MODEL.md whose commands test_recipes.py runs.
RECIPES = ["Buffers of more than 4", "Making a trace"]
# On docs/DEFINITIONS.md: one or more names, followed by the file that defines them.
NAMED = re.compile(r"((?:`[\w-]+`(?:,| and| of)\s+)*`[\w-]+`)\s+\(`(crates/[\w./-]+)`\)")
# The beginning of a line that defines a name: a definition, a record's field or a case in specs and proofs, and a clause or an item in code.
DEFINES = {".antt": r" *(?:(?:(?:abbrev|unfoldable|pub|record|data) )+{0} [:({{]|{0} :)", ".rt": r" *(?:pub )?(?:ensures|enum|fn|struct|trait) {0}\b"}
# The other code blocks with texts of the examples or a program's output: the command that shows each.
SHOWN = {
    ("README.md", "Example"): ["cat callcentre/model.txt", "cat callcentre/trace.csv"],
    ("docs/MODEL.md", "The model by example"): ["cat callcentre/model.txt"],
    ("docs/MODEL.md", "The trace"): ["cat callcentre/trace.csv"],
    ("docs/EDITS.md", "Move one arrival"): ["cat edits/late-caller/edits.txt"],
    ("docs/EDITS.md", "Move a whole shift"): ["cat edits/shift-moved/edits.awk"],
    ("docs/REPORT.md", "The report"): ["../mpsim desk/model.txt desk/trace.csv"],
    ("docs/REPORT.md", "Lines per visit"): ["../mpsim desk/model.txt desk/trace.csv --jobs"],
    ("docs/REPORT.md", "Form 1"): ["../mpsim desk/model.txt desk/trace.csv --report 1"],
    ("docs/REPORT.md", "A sweep"): [
        "sed 's/model 1/model 9/' desk/model.txt >nine.txt; ../mpsweep desk/trace.csv desk/model.txt nine.txt || [ $? = 11 ]"
    ],
    ("docs/SWEEPS.md", "An example"): ["cat sweep/agents-12.txt"],
    ("docs/DEFINITIONS.md", "Case: a server"): ["../mpsim desk/model.txt desk/trace.csv"],
    ("docs/DEFINITIONS.md", "Case: a loss station"): [
        "printf 'model 1\\nsource src\\nloss l 2 =3 from src\\n' >model.txt; "
        "printf 'source,time\\nsrc,0\\nsrc,1\\nsrc,2\\nsrc,3\\n' >trace.csv; ../mpsim model.txt trace.csv"
    ],
    ("docs/DEFINITIONS.md", "Case: a trunk group"): ["cd cases/trunk; ../../../mpsim model.txt trace.csv"],
    ("docs/DEFINITIONS.md", "Case: a tandem that blocks"): ["cd cases/tandem-keeps-a-finished-job; ../../../mpsim model.txt trace.csv"],
    ("docs/DEFINITIONS.md", "Case: a fork and a join"): [
        "cd cases/parts-put-together; ../../../mpsim model.txt trace.csv",
        "cd cases/part-held; ../../../mpsim model.txt trace.csv",
    ],
    ("docs/DEFINITIONS.md", "Case: an edit"): ["echo add src 3 2 >edits.txt; ../mpedit desk/model.txt desk/trace.csv edits.txt"],
}


def is_command(block):
    first = block.text.split(None, 1)[0]
    return first in COMMANDS or re.match(r"[./\w-]*/[\w-]+", first) is not None and (ROOT / first).is_file()


def usage_of(block):
    """Returns the program whose usage a one-line block shows, or None."""
    found = re.fullmatch(r"\./(\w+) ([A-Z. ]+)\n", block.text)
    return found and found[1]


def stands_in(lines, text):
    """Returns the first of these lines that isn't in a text after those before it, or None."""
    rest = iter(text.splitlines())
    return next((line for line in lines.splitlines() if line not in rest), None)


def headings(page):
    """Returns the blocks of a page by heading."""
    found = {}
    for block in blocks(page):
        found.setdefault(block.heading, []).append(block)
    return found


class Documents(Check):
    def setUp(self):
        """Makes a directory like the root without the sources, with the files that pages name, a home, and the programs in a directory."""
        super().setUp()
        self.top, self.home = self.folder / "top", self.folder / "home"
        shutil.copytree(EXAMPLES, self.top / "examples")
        for name in "tools", "completions", "docs", "mpplan":
            (self.top / name).symlink_to(ROOT / name)
        for name, program in PROGRAMS.items():
            (self.top / name).symlink_to(program)
            (self.top / "crates" / name / "out").mkdir(parents=True)
            (self.top / "crates" / name / "out" / name).symlink_to(executable(name))
        (self.folder / "programs").mkdir()
        for name in PROGRAMS:
            (self.folder / "programs" / name).symlink_to(executable(name))
        self.settings = {"HOME": str(self.home), "PATH": f"{self.folder}:{os.environ['PATH']}", "MPSIM_PROGRAMS": str(self.folder / "programs")}

    def output_of(self, command, folder):
        """Returns what a command writes to stdout and into new files."""
        before = {file: file.stat().st_mtime_ns for file in self.top.rglob("*") if file.is_file()}
        ran = run("sh", "-e", "-c", command, folder=folder, settings=self.settings)
        if b"mpplan: a solver is required: " in ran.line:
            self.skipTest(ran.line.decode().strip())
        # The pages also show what `mpplan` prints on stderr.
        messages = b"".join(line for line in ran.line.splitlines(keepends=True) if line.startswith(b"mpplan: "))
        self.did(ran._replace(out=b"", line=ran.line.replace(messages, b"")))
        new = [file for file in sorted(self.top.rglob("*")) if file.is_file() and file.stat().st_mtime_ns != before.get(file)]
        for file in new:
            self.holds(f"{ran.command}\nwrites nothing into {file.name}", file.stat().st_size)
        return ran, b"".join([messages, ran.out, *(file.read_bytes() for file in new)]).decode()

    def shows(self, page, block, ran, text):
        """A case: the lines of a block occur in the output, in this order."""
        missing = stands_in(block.text, text)
        self.holds(f"{page} line {block.line}: {missing!r} isn't written by\n{ran.command}\n{difference(text.encode(), block.text.encode())}", not missing)

    def runs_below(self, page, heading, found):
        """Runs the commands below a heading, and compares the output with what is shown."""
        wanted, last = list(SHOWN.get((page, heading), [])), None
        for block in found:
            if block.is_marked or block.text.startswith("#!"):
                last = None
            elif usage_of(block):
                usage = run(usage_of(block)).line.decode()
                self.same(f"{page} line {block.line}", usage, block.text.replace("./", f"{usage_of(block)}: usage: "))
            elif is_command(block):
                last = self.output_of(block.text, self.top)
            elif last:
                self.shows(page, block, *last)
            elif wanted:
                self.shows(page, block, *self.output_of(wanted.pop(0), self.top / "examples"))
        self.same(f"{page}, {heading}: texts that are shown", wanted, [])

    def test_table_of_a_sweep(self):
        """Checks the numbers in the table of docs/SWEEPS.md."""
        page = (ROOT / "docs" / "SWEEPS.md").read_text()
        rows = re.findall(r"^\| (\d+) \| ([\d,]+) \| ([\d,]+) s \| ([\d,]+) s \|$", page, flags=re.MULTILINE)
        command = next(block.text for block in blocks("docs/SWEEPS.md") if "mpplan table" in block.text)
        _, text = self.output_of(command, self.top)
        table = [line.split(",") for line in text.splitlines() if ",callback," in line]
        wanted = [(row[0], *(f"{int(row[at]):,}" for at in (5, 11, 12))) for row in table]
        self.same("the table of docs/SWEEPS.md", rows, wanted)

    def test_commands_are_run(self):
        """Each block that begins with a command is run by this check or by that of the recipes, except a few marked ones."""
        marked = [block for page in PAGES for block in blocks(page) if block.is_marked]
        self.holds(f"{len(marked)} blocks are marked", len(marked) <= 3)
        commands = {block.heading for block in blocks("docs/MODEL.md") if is_command(block)}
        self.same("headings of docs/MODEL.md with commands", sorted(commands), RECIPES)
        left = [item for item in SHOWN if item[1] not in headings(item[0])]
        self.same("headings whose texts are shown, and that aren't there", left, [])

    def test_files_that_are_named(self):
        """Links in pages lead to existing files and headings, and files of the repository that they name exist."""
        anchor_of = lambda heading: re.sub(r"[^\w -]", "", heading.lower()).replace(" ", "-")
        for page in [*PAGES, *(str(file.relative_to(ROOT)) for file in sorted(ROOT.glob("crates/*/README.md")))]:
            text, folder = (ROOT / page).read_text(), (ROOT / page).parent
            for link, anchor in re.findall(r"\]\(([\w./-]*)(?:#([\w-]+))?\)", text):
                file = folder / link if link else ROOT / page
                self.holds(f"{page}: {link} isn't there", file.exists())
                if anchor:
                    names = [anchor_of(line.lstrip("#").strip()) for line in file.read_text().splitlines() if line.startswith("#")]
                    self.holds(f"{page}: {link}#{anchor} isn't there", anchor in names)
            for name in re.findall(r"`((?:\.ci|check|tools|bench|docs|examples|completions)/[\w./*-]+)[` ]", text):
                self.holds(f"{page}: {name} isn't there", any(ROOT.glob(name)))

    def test_citation(self):
        """CITATION.cff gives the version of VERSION, and the date on which CHANGELOG.md says that it was released."""
        lines = (ROOT / "CITATION.cff").read_text().splitlines()
        version = (ROOT / "VERSION").read_text().strip()
        self.holds(f"CITATION.cff lacks version {version}", f"version: {version}" in lines)
        date = re.search(rf"^## {re.escape(version)} \((\d{{4}}-\d\d-\d\d)\)$", (ROOT / "CHANGELOG.md").read_text(), flags=re.MULTILINE)[1]
        self.holds(f"CITATION.cff lacks the date {date}", f"date-released: {date}" in lines)

    def test_names_of_definitions(self):
        """Each name with a file on docs/DEFINITIONS.md is defined in that file, and no file is named without a name."""
        page = (ROOT / "docs" / "DEFINITIONS.md").read_text()
        found = NAMED.findall(page)
        self.same("files after names", len(found), page.count("(`crates/"))
        for name in re.findall(r"`(crates/[\w./-]+)`", page):
            self.holds(f"{name} isn't there", (ROOT / name).exists())
        for names, file in found:
            path = ROOT / file
            for name in re.findall(r"`([\w-]+)`", names):
                line = DEFINES[path.suffix].format(re.escape(name))
                self.holds(f"{file} doesn't define {name}", re.search(f"^{line}", path.read_text(), flags=re.MULTILINE))

    def test_no_file_is_a_link(self):
        """The repository contains no symbolic link, since the toolchain rejects a tree with one. Without git, everything is examined except build
        products."""
        listed = ["git", "ls-files", "-z", "--cached", "--others", "--exclude-standard"]
        ran = run(*listed) if (ROOT / ".git").exists() and shutil.which("git") else None
        if ran and ran.status == 0:
            found = [ROOT / os.fsdecode(part) for part in ran.out.split(b"\0") if part]
        else:
            found = [path for path in ROOT.rglob("*") if not {".git", "out", "out-incr", "__pycache__", "dist"} & {*path.relative_to(ROOT).parts}]
        self.holds(f"only {len(found)} files were looked at", len(found) > 1000)
        self.same("symbolic links", [str(item.relative_to(ROOT)) for item in found if item.is_symlink()], [])


for page in PAGES:
    for heading, found in ({"whole": blocks(page)} if page in SESSIONS else headings(page)).items():
        if (page, heading) in SHOWN or page != "docs/MODEL.md" and any(it.is_marked or is_command(it) or usage_of(it) for it in found):
            name = re.sub(r"\W+", "_", f"{page.rsplit('/')[-1][:-3]}_{heading}".lower())
            setattr(Documents, f"test_{name}", lambda self, of=(page, heading, found): self.runs_below(*of))
