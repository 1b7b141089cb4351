"""The files of a release: made twice, in two directories, they are byte-identical; their contents run without the toolchain and without a clone."""
import gzip
import hashlib
import os
import re
import shutil
import sys
import tarfile

from programs import CALL, EXAMPLES, PROGRAMS, ROOT, SCRIPTS, Check, executable, once, run

VERSION = (ROOT / "VERSION").read_text().strip()
ARCHIVE, PACKAGE = f"mpsim-{VERSION}-linux-x86_64.tar.gz", f"mpsim_{VERSION}_amd64.deb"
TREE = ARCHIVE.removesuffix(".tar.gz")
# What a release is made from.
SOURCES = [
    *("README.md", "CHANGELOG.md", "CITATION.cff", "CONTRIBUTING.md", "VERSION", "build.py", "crates.txt"),
    *("completions", "docs", "examples", "mpplan", "python", "tools"),
]
LEFT_OUT = "the wheel and the source distribution are left out: hatchling is missing"
# Nothing of this process, and no toolchain.
NOTHING = ["env", "-i", "PATH=/usr/bin:/bin"]


@once
def debian():
    """Returns whether dpkg-deb is available."""
    return shutil.which("dpkg-deb") is not None


class Release(Check):
    def clone(self, name, mask):
        """Makes a directory with what a release is made from, and the programs, with modes as under this umask and timestamps of its own."""
        top = self.folder / name
        (top / "programs").mkdir(parents=True)
        for source in SOURCES:
            ignore = shutil.ignore_patterns("__pycache__", "cases", "dist")
            if (ROOT / source).is_dir():
                shutil.copytree(ROOT / source, top / source, ignore=ignore, copy_function=shutil.copy)
            else:
                shutil.copy(ROOT / source, top / source)
        for program in SCRIPTS:
            shutil.copy(executable(program), top / "programs")
        for path in top.rglob("*"):
            path.chmod(path.stat().st_mode & ~mask)
        return top

    def made(self, name="one", mask=0o022, **settings):
        """Makes a release in a clone of its own, and returns its directory."""
        top = self.clone(name, mask)
        settings = {"MPSIM_PROGRAMS": str(top / "programs"), "TZ": "UTC", **settings}
        # The umask is set in a separate process, so that later tests have their own.
        words = ["sh", "-c", 'umask "$1"; exec "$2" "$3"', "sh", f"{mask:03o}", top / "tools" / "release", top / "to"]
        ran = run(*words, folder=self.folder, settings=settings)
        files = ran.out.decode().splitlines()
        missing = [] if any(file.endswith(".whl") for file in files) else [f"release: {LEFT_OUT}"]
        missing = ["release: the Debian package is left out: dpkg-deb is missing"] * (not debian()) + missing
        self.did(ran._replace(out=b""), 0, "", "".join(f"{item}\n" for item in missing))
        self.same("the files that are told", sorted(files), sorted(str(path) for path in (top / "to").iterdir()))
        return top / "to"

    def unpacked(self):
        """Returns the archive of a release, unpacked elsewhere."""
        with tarfile.open(self.made() / ARCHIVE) as archive:
            archive.extractall(self.folder / "else where")
        return self.folder / "else where" / TREE

    def test_the_same_bytes_from_two_folders(self):
        """Other timestamps, umasks, time zones and encodings change nothing."""
        one, two = self.made(), self.made("another one", 0o077, TZ="Asia/Tokyo", LC_ALL="C", PYTHONUTF8="0", PYTHONCOERCECLOCALE="0")
        names = sorted(path.name for path in one.iterdir())
        self.same("files", sorted(path.name for path in two.iterdir()), names)
        for name in names:
            self.same(name, hashlib.sha256((two / name).read_bytes()).hexdigest(), hashlib.sha256((one / name).read_bytes()).hexdigest())
            self.same(f"the modes of {name}", [oct((item / name).stat().st_mode & 0o777) for item in (one, two)], ["0o644"] * 2)
        summed = [line.split()[1] for line in (one / "SHA256SUMS").read_text().splitlines()]
        self.same("files with a sum", sorted([*summed, "SHA256SUMS"]), names)
        self.did(run("sha256sum", "--quiet", "-c", "SHA256SUMS", folder=one))
        with tarfile.open(one / ARCHIVE) as archive:
            self.same("owners", {(item.uid, item.gid, item.uname) for item in archive}, {(0, 0, "root")})
            self.same("modes", {oct(item.mode) for item in archive if not item.issym()}, {"0o755", "0o644"})

    def test_the_source_distribution(self):
        """It has the package as it is here; python/tests/test_wheel.py installs one."""
        made = self.made()
        if not list(made.glob("*.whl")):
            self.skipTest("hatchling isn't there")
        top, sources = f"mpsim-{VERSION}", ROOT / "python" / "src"
        with tarfile.open(made / f"{top}.tar.gz") as archive:
            files = {item.name: archive.extractfile(item).read() for item in archive}
            self.same("owners", {(item.uid, item.gid, item.uname) for item in archive}, {(0, 0, "")})
        self.same("the version", files[f"{top}/VERSION"].decode(), f"{VERSION}\n")
        found = [file for file in sources.rglob("*") if file.is_file() and file.suffix != ".pyc"]
        package = {f"{top}/src/{file.relative_to(sources)}": file.read_bytes() for file in found}
        self.same("the package", {name for name in files if name.startswith(f"{top}/src/")}, set(package))
        self.holds("its bytes", all(files[name] == text for name, text in package.items()))

    def runs(self, *words, out="", status=0, line="", settings=()):
        self.did(run(*NOTHING, *settings, *words, folder="/"), status, out, line)

    def runs_all(self, bin):
        """Each command in a directory does what its program does."""
        report, files = CALL / "report.txt", (CALL / "model.txt", CALL / "trace.csv")
        self.runs(bin / "mpsim", *files, out=report)
        self.runs(bin / "mpsweep", files[1], files[0], out="scenario 1 status 0\n" + report.read_text())
        edited = EXAMPLES / "edits" / "late-caller"
        self.runs(bin / "mpedit", *files, edited / "edits.txt", out=edited / "report.txt")
        for name in PROGRAMS:
            self.runs(bin / name, status=2, line=run(name).line)
            self.runs(bin / name, "--help", out=ROOT / "python" / "src" / "mpsim" / "help" / f"{name}.txt")
            self.runs(bin / name, "--version", out=f"{name} {VERSION}\n")
            self.runs(bin / name, "--help", "x", status=2, line=run(name).line)

    def test_the_archive_runs_anywhere(self):
        tree = self.unpacked()
        self.runs_all(tree / "bin")
        (self.folder / "linked").symlink_to(tree / "bin" / "mpsim")
        self.runs(self.folder / "linked", CALL / "model.txt", CALL / "trace.csv", out=CALL / "report.txt")
        self.did(run("sh", "-c", 'cd "$1/bin" && exec env -i PATH=.:/usr/bin mpsim --made 7 --report 1', "sh", tree), 0, EXAMPLES / "made-7.txt")

    def test_settings_of_memory(self):
        """A command runs its program with the same memory settings as the scripts of a clone, and the package; existing settings are kept."""
        tree = self.unpacked()
        program = tree / "libexec" / "mpsim" / "mpsim"
        program.unlink()
        program.write_text('#!/bin/sh\necho "$GLIBC_TUNABLES"\n')
        program.chmod(0o755)
        script = 'unset GLIBC_TUNABLES; "$@" -B -c "from mpsim.programs import surroundings as it; print(it().get(\'GLIBC_TUNABLES\', str()))"'
        words, settings = ["sh", sys.executable], {"PYTHONPATH": str(ROOT / "python" / "src")}
        output = run("sh", "-c", script, *words, settings=settings).out
        self.holds(f"settings: {output}", b"glibc.malloc.arena_max=1" in output)
        self.did(run("sh", "-c", f"ulimit -v 4000000; {script}", *words, settings=settings), 0, "glibc.malloc.arena_max=1\n")
        self.runs(tree / "bin" / "mpsim", out=output)
        self.runs(tree / "bin" / "mpsim", out="glibc.malloc.check=1\n", settings=["GLIBC_TUNABLES=glibc.malloc.check=1"])
        limited = ["sh", "-c", 'ulimit -v 60000 && exec "$@"', "sh"]
        self.runs(*limited, tree / "bin" / "mpsim", out="glibc.malloc.arena_max=1\n")
        shutil.copy(executable("mpsim"), program)
        self.runs(*limited, tree / "bin" / "mpsim", CALL / "model.txt", CALL / "trace.csv", out=CALL / "report.txt")

    def test_the_package_in_the_archive(self):
        """It finds the programs beside it, and has the version."""
        tree = self.unpacked()
        settings = {"PYTHONPATH": str(tree / "lib" / "python3" / "dist-packages"), "PATH": "/usr/bin:/bin", "MPSIM_PROGRAMS": ""}
        script = "import mpsim, os\nfrom mpsim import programs\nprint(mpsim.__version__, os.path.realpath(programs.find('mpedit')))\n"
        script += f"print(mpsim.run({str(CALL / 'model.txt')!r}, {str(CALL / 'trace.csv')!r}), end='')"
        wanted = f"{VERSION} {os.path.realpath(tree)}/libexec/mpsim/mpedit\n{(CALL / 'report.txt').read_text()}"
        self.did(run(sys.executable, "-B", "-c", script, folder="/", settings=settings), 0, wanted)

    def test_the_command_mpplan(self):
        """It does what the clone's does, with the package and the programs of the archive."""
        tree, settings = self.unpacked(), {"PYTHONDONTWRITEBYTECODE": "1", "MPSIM_PROGRAMS": ""}
        self.did(run(tree / "bin" / "mpplan", "--help", folder="/", settings=settings), 0, run(ROOT / "mpplan", "--help").out)
        self.did(run(tree / "bin" / "mpplan", "run", CALL / "model.txt", CALL / "trace.csv", folder="/", settings=settings), 0, CALL / "report.txt")

    def test_pages_in_the_archive(self):
        tree = self.unpacked()
        for name in [*PROGRAMS, "mpplan"]:
            page = gzip.decompress((tree / "share" / "man" / "man1" / f"{name}.1.gz").read_bytes()).decode()
            self.holds(f"{name}.1: {page.splitlines()[0]}", re.match(rf'\.TH {name.upper()} 1 "\w+ \d+" "mpsim {re.escape(VERSION)}" ', page))
            self.same(f"{name}.1 but for its head", page.split("\n", 1)[1], (ROOT / "docs" / f"{name}.1").read_text().split("\n", 1)[1])
        documents = tree / "share" / "doc" / "mpsim"
        pages = "README.md", "CHANGELOG.md", "CITATION.cff", "CONTRIBUTING.md", "VERSION", "docs/MODEL.md", "docs/validation.svg"
        for name in *pages, "examples/callcentre/model.txt":
            self.same(name, (documents / name).read_bytes(), (ROOT / name).read_bytes())
        for file in (ROOT / "completions").iterdir():
            there = file.name if file.name.startswith("_") else file.name.removesuffix(".bash")
            self.holds(f"{file.name} is there", sum(1 for it in tree.rglob(there) if it.is_file() and it.read_bytes() == file.read_bytes()) == 1)
        self.same("nothing that Python compiled", [str(path) for path in tree.rglob("*.pyc")], [])

    def test_the_debian_package_in_a_root_of_its_own(self):
        if not debian():
            self.skipTest("dpkg-deb isn't there")
        package, root = self.made() / PACKAGE, self.folder / "root"
        if os.getuid() == 0:
            for name in "info", "updates", "triggers", "parts":
                (root / "var" / "lib" / "dpkg" / name).mkdir(parents=True, exist_ok=True)
            (root / "var" / "lib" / "dpkg" / "status").touch()
            # It needs programs from directories that aren't on everyone's PATH.
            paths = {"PATH": f"{os.environ.get('PATH', os.defpath)}:/usr/local/sbin:/usr/sbin:/sbin"}
            ran = run("dpkg", f"--root={root}", "--force-depends", "--log=/dev/null", "--install", package, settings=paths)
            self.same(f"{ran.command}\n{ran.line.decode()}", ran.status, 0)
            shown = run("dpkg-query", f"--admindir={root}/var/lib/dpkg", "-W", "-f", "${Package} ${Version} ${Status}", "mpsim").out.decode()
            self.same("what dpkg says", shown, f"mpsim {VERSION} install ok installed")
            self.did(run("dpkg", f"--root={root}", "--verify", "mpsim"))
        else:
            self.did(run("dpkg-deb", "-x", package, root))
        self.runs_all(root / "usr" / "bin")
        needed = run("dpkg-deb", "-f", package, "Depends").out.decode()
        tag = re.search(r"manylinux_(\d+)_(\d+)", (ROOT / "python" / "hatch_build.py").read_text()).groups()
        self.same("what it depends on", needed, f"libc6 (>= {'.'.join(tag)})\n")
        listed = run("dpkg-deb", "-c", package).out.decode().splitlines()
        self.same("owners", {line.split()[1] for line in listed}, {"root/root"})

    def test_what_lintian_says(self):
        if not debian() or not shutil.which("lintian"):
            self.skipTest("lintian isn't there")
        words = ["--allow-root"] if os.getuid() == 0 else []
        ran = run("lintian", *words, "--fail-on", "error", self.made() / PACKAGE)
        errors = [line for line in ran.out.decode().splitlines() if line.startswith("E:")]
        self.same(f"{ran.command}\n{ran.line.decode()}", (ran.status, errors), (0, []))

    def test_what_is_refused(self):
        top = self.clone("top", 0o022)
        release, settings = top / "tools" / "release", {"MPSIM_PROGRAMS": str(top / "programs")}
        self.refuses(1, "release: there is no program mpsim: ./build.py mpsim builds it", release, folder=top, settings={"MPSIM_PROGRAMS": ""})
        (top / "programs" / "mpedit").unlink()
        self.did(run(release, folder=top, settings=settings), 1, "", "release: there is no program mpedit: ./build.py mpedit builds it\n")
        (top / "VERSION").write_text("9.9\n")
        self.did(run(release, folder=top, settings=settings), 1, "", "release: CHANGELOG.md has no heading with the version 9.9 and its date\n")
        self.holds("nothing is written", not (top / "dist").exists())
        self.same("words", run(release, "a", "b").status, 2)

    def test_programs_of_other_sources(self):
        """The programs of a clone must be built from its current sources."""
        top = self.clone("top", 0o022)
        (top / "crates.txt").write_text("".join(f"{name}:\n" for name in PROGRAMS))
        for name in PROGRAMS:
            for part in "src", "specs", "out":
                (top / "crates" / name / part).mkdir(parents=True)
            (top / "crates" / name / "src" / "main.rt").write_text("one\n")
            shutil.copy(top / "programs" / name, top / "crates" / name / "out")
        settings = {"MPSIM_PROGRAMS": ""}
        ran = run(top / "tools" / "release", "to", folder=top, settings=settings)
        self.same(f"{ran.command}\n{ran.line.decode()}", (ran.status, (top / "to" / ARCHIVE).is_file()), (0, True))
        (top / "crates" / "mpsweep" / "src" / "main.rt").write_text("two\n")
        line = "release: mpsweep is out of date with its sources: ./build.py mpsweep rebuilds it"
        self.refuses(1, line, top / "tools" / "release", "to", folder=top, settings=settings)
