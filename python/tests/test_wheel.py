"""The wheel: its tag fits its programs; its content; the same bytes from two directories; it installs and runs without a network. The source
distribution: the same, and the wheels that are made from it.

Without hatchling nothing is built: then its hook is called as hatchling would call it, the names of its commands are looked up, and a directory is
laid out like the wheel."""

import contextlib
import hashlib
import importlib
import io
import os
import pathlib
import re
import shutil
import subprocess
import sys
import tarfile
import tempfile
import types
import unittest
import venv
import zipfile
from unittest import mock

from ground import EXAMPLES, MODEL, PYTHON, ROOT, SOURCES, TRACE, Test, text_of

from mpsim import programs

NAMES = ["mpedit", "mpsim", "mpsweep"]


def builder():
    """Returns an interpreter that has hatchling, or None."""
    for python in sys.executable, "/usr/bin/python3":
        if os.access(python, os.X_OK) and subprocess.run([python, "-c", "import hatchling"], stderr=subprocess.DEVNULL).returncode == 0:
            return python
    return None


# What the hook says if a wheel gets no programs.
BARE = "mpsim: a wheel without programs: set MPSIM_PROGRAMS to a directory that has them to put them in\n"


def hatched(root, what, folder, **settings):
    """Builds a wheel or a source distribution ("sdist") from a directory into another one. Returns its path and what was written to stderr."""
    words = [builder(), "-m", "hatchling", "build", "-t", what, "-d", folder]
    surroundings = {**os.environ, "SOURCE_DATE_EPOCH": "1790000000", **settings}
    ran = subprocess.run(words, cwd=root, check=True, stdout=subprocess.DEVNULL, stderr=subprocess.PIPE, text=True, env=surroundings)
    (path,) = pathlib.Path(folder).iterdir()
    return path, ran.stderr


def build(folder, what="wheel"):
    """Builds the wheel or the source distribution of a copy of the package in this directory."""
    copy = pathlib.Path(folder, "python")
    shutil.copytree(PYTHON, copy, ignore=shutil.ignore_patterns("__pycache__", "dist"))
    shutil.copy(ROOT / "VERSION", folder)
    return hatched(copy, what, os.path.join(folder, "dist"))[0]


def packed():
    """Returns the names of the files of the package, as in a distribution."""
    return {f"mpsim/{it.relative_to(SOURCES / 'mpsim')}" for it in (SOURCES / "mpsim").rglob("*") if it.is_file() and it.suffix != ".pyc"}


def sum_of(path):
    return hashlib.sha256(path.read_bytes()).hexdigest()


class Home:
    """An environment of its own in a directory, with the package that a file contains."""

    def __init__(self, folder, file, *words, **settings):
        self.folder = str(folder)
        surroundings = {"PATH": f"{folder}/bin:/usr/bin:/bin", "HOME": self.folder, **settings}
        words = [os.path.join(folder, "bin", "python"), "-m", "pip", "install", "-q", "--no-index", *words, file]
        subprocess.run(words, check=True, env=surroundings, stderr=subprocess.DEVNULL)

    def ran(self, *words, **settings):
        """Runs a command, and returns the completed process with its outputs as texts."""
        surroundings = {"PATH": f"{self.folder}/bin:/usr/bin:/bin", "HOME": self.folder, **settings}
        return subprocess.run(words, capture_output=True, text=True, env=surroundings, cwd=self.folder)


class Tag(Test):
    @unittest.skipUnless(shutil.which("readelf"), "readelf isn't there")
    def test_symbols_of_the_programs(self):
        """They need only the C library, and no later version than the tag says."""
        tag = re.search(r'^TAG = "py3-none-manylinux_(\d+)_(\d+)_x86_64"$', text_of(PYTHON, "hatch_build.py"), flags=re.MULTILINE)
        needed = set()
        for name in NAMES:
            told = subprocess.run(["readelf", "-WdV", programs.find(name)], stdout=subprocess.PIPE, text=True, check=True).stdout
            self.assertEqual(re.findall(r"NEEDED.*\[(.*)\]", told), ["libc.so.6"])
            needed |= {tuple(map(int, found)) for found in re.findall(r"GLIBC_(\d+)\.(\d+)", told)}
        self.assertEqual(max(needed), tuple(map(int, tag.groups())))

    @unittest.skipUnless(shutil.which("readelf"), "readelf isn't there")
    def test_machine_of_the_programs(self):
        """That of the tag."""
        for name in NAMES:
            told = subprocess.run(["readelf", "-h", programs.find(name)], stdout=subprocess.PIPE, text=True, check=True).stdout
            self.assertRegex(told, r"Class: +ELF64\n")
            self.assertRegex(told, r"Machine: +Advanced Micro Devices X86-64\n")


class Hook(Test):
    """hatch_build.py, called as by hatchling, with a stand-in for the one class of hatchling that it uses."""

    def hooked(self, root, folder=None, target="wheel", files=()):
        """Returns what the hook adds to a build in a directory `root`, with programs in another, and with these files of hatchling's own."""
        stand_ins, interface = {}, "hatchling.builders.hooks.plugin.interface"
        for at in range(len(interface.split("."))):
            name = ".".join(interface.split(".")[: at + 1])
            stand_ins[name] = types.ModuleType(name)
        stand_ins[interface].BuildHookInterface = type("BuildHookInterface", (), {})
        surroundings = {item: os.environ[item] for item in os.environ if item != "MPSIM_PROGRAMS"}
        surroundings.update({"MPSIM_PROGRAMS": folder} if folder else {})
        with mock.patch.dict(sys.modules, stand_ins), mock.patch.dict(os.environ, surroundings, clear=True):
            names = {}
            exec(compile(text_of(PYTHON, "hatch_build.py"), "hatch_build.py", "exec"), names)
            hook, data = names["ProgramsHook"](), {"force_include": dict(files)}
            hook.root, hook.target_name = str(root), target
            hook.initialize("standard", data)
        return data

    def test_programs_go_in(self):
        """From a given directory, or as in a clone; with a platform tag."""
        with tempfile.TemporaryDirectory() as folder:
            folder = os.path.realpath(folder)
            clone = pathlib.Path(folder, "clone")
            (clone / "python").mkdir(parents=True)
            for name in NAMES:
                for place in pathlib.Path(folder, "named"), clone / "crates" / name / "out":
                    place.mkdir(parents=True, exist_ok=True)
                    shutil.copy(programs.find(name), place / name)
            tag = {"tag": "py3-none-manylinux_2_34_x86_64", "pure_python": False}
            version = {f"{clone}/python/../VERSION": "mpsim/VERSION"}
            want = {**{f"{folder}/named/{name}": f"mpsim/bin/{name}" for name in NAMES}, **version}
            self.assertEqual(self.hooked(clone / "python", f"{folder}/named"), {"force_include": want, **tag})
            want = {**{f"{clone}/crates/{name}/out/{name}": f"mpsim/bin/{name}" for name in NAMES}, **version}
            self.assertEqual(self.hooked(clone / "python"), {"force_include": want, **tag})
            own = [("/a/.gitignore", ".gitignore"), ("/b/pyproject.toml", "pyproject.toml")]
            wanted = {"/b/pyproject.toml": "pyproject.toml", f"{clone}/python/../VERSION": "VERSION"}
            self.assertEqual(self.hooked(clone / "python", target="sdist", files=own), {"force_include": wanted})
            (clone / "crates" / "mpedit" / "out" / "mpedit").chmod(0o644)
            with self.assertRaisesRegex(SystemExit, "no program .*/mpedit: build it, or set MPSIM_PROGRAMS to a directory that has it"):
                self.hooked(clone / "python")

    def test_a_source_distribution(self):
        """It has a version of its own. A wheel from it has the programs of MPSIM_PROGRAMS, or none, which is told."""
        with tempfile.TemporaryDirectory() as folder:
            root, told = pathlib.Path(folder, "mpsim-1.2"), io.StringIO()
            root.mkdir()
            (root / "VERSION").write_text("1.2\n")
            with contextlib.redirect_stderr(told):
                self.assertEqual(self.hooked(root), {"force_include": {f"{root}/VERSION": "mpsim/VERSION"}})
            self.assertEqual(told.getvalue(), BARE)
            self.assertEqual(self.hooked(root, target="sdist"), {"force_include": {f"{root}/VERSION": "VERSION"}})
            for name in NAMES:
                shutil.copy(programs.find(name), folder)
            data = self.hooked(root, folder)
            self.assertEqual((data["tag"], data["pure_python"]), ("py3-none-manylinux_2_34_x86_64", False))
            self.assertEqual(len(data["force_include"]), 4)
            with self.assertRaisesRegex(SystemExit, "no program /nowhere/mpsim: build it"):
                self.hooked(root, "/nowhere")


class Project(Test):
    """pyproject.toml."""

    TEXT = text_of(PYTHON, "pyproject.toml")

    def section(self, name):
        text = re.search(rf"^\[{re.escape(name)}\]\n(.*?)(?=^\[|\Z)", self.TEXT, flags=re.MULTILINE | re.DOTALL)[1]
        return dict(re.findall(r"^([\w-]+) = (.*)$", text, flags=re.MULTILINE))

    def test_commands(self):
        """Each is an existing function."""
        commands = {name: it.strip('"').split(":") for name, it in self.section("project.scripts").items()}
        self.assertEqual(sorted(commands), sorted([*NAMES, "mpplan"]))
        for module, function in commands.values():
            self.assertTrue(callable(getattr(importlib.import_module(module), function)))

    def test_what_is_packed(self):
        """All files of the package, whatever git ignores."""
        self.assertEqual(self.section("tool.hatch.build.targets.wheel"), {"packages": '["src/mpsim"]'})
        self.assertEqual(self.section("tool.hatch.build.targets.sdist"), {"include": '["/src/mpsim"]'})
        self.assertEqual(self.section("tool.hatch.build"), {"ignore-vcs": "true"})
        found = [path for path in (SOURCES / "mpsim").rglob("*") if path.is_file() and path.suffix != ".pyc" and path.parent.name != "bin"]
        data = sorted(item.name for item in found if item.suffix != ".py")
        pages = ["compared.html", "figures.js", "grid.js", "network.html", "page.css", "page.html", "page.js", "pictures.js", "piece.css"]
        pages += ["stations.html", "stations.js", "steps.js", "units.html", "units.js"]
        self.assertEqual(data, sorted([*pages, "sheet.css", "sheet.html", "py.typed", *(f"{name}.txt" for name in NAMES)]))


class Layout(Test):
    def test_programs_beside_the_package(self):
        """Laid out as in a wheel: the package finds its own programs, and no others."""
        with tempfile.TemporaryDirectory() as folder:
            shutil.copytree(SOURCES / "mpsim", os.path.join(folder, "mpsim"))
            shutil.copy(ROOT / "VERSION", os.path.join(folder, "mpsim"))
            os.mkdir(os.path.join(folder, "mpsim", "bin"))
            for name in NAMES:
                shutil.copy(programs.find(name), os.path.join(folder, "mpsim", "bin"))
            surroundings = {"PYTHONPATH": folder, "PATH": "/nowhere"}
            for script, wanted in (
                (f"import mpsim; print(mpsim.run({str(MODEL)!r}, {str(TRACE)!r}), end='')", text_of(EXAMPLES, "callcentre", "report.txt")),
                ("from mpsim import programs; print(programs.find('mpedit'))", f"{os.path.realpath(folder)}/mpsim/bin/mpedit\n"),
                (f"import mpsim; print(len(mpsim.run({str(MODEL)!r}, {str(TRACE)!r})._repr_html_()) > 9000)", "True\n"),
                ("import mpsim.command; mpsim.command.main(['--version'])", f"mpplan {importlib.import_module('mpsim').__version__}\n"),
            ):
                ran = subprocess.run([sys.executable, "-B", "-c", script], stdout=subprocess.PIPE, text=True, env=surroundings, cwd=folder)
                self.assertEqual((ran.returncode, ran.stdout), (0, wanted))


@unittest.skipUnless(builder(), "hatchling isn't there")
class Wheel(Test):
    @classmethod
    def setUpClass(cls):
        folder = tempfile.TemporaryDirectory()
        cls.addClassCleanup(folder.cleanup)
        cls.folder = folder.name
        cls.wheel = build(os.path.join(cls.folder, "one"))

    def test_what_is_in_it(self):
        with zipfile.ZipFile(self.wheel) as archive:
            names = sorted(item for item in archive.namelist() if item.startswith("mpsim/bin/"))
            self.assertEqual(names, [f"mpsim/bin/{name}" for name in NAMES])
            self.assertEqual({item for item in archive.namelist() if item.startswith("mpsim/")}, packed() | {"mpsim/VERSION", *names})
            for name, path in zip(NAMES, names):
                self.assertEqual(archive.getinfo(path).external_attr >> 16 & 0o777, 0o755)
                self.assertEqual(archive.read(path), pathlib.Path(programs.find(name)).read_bytes())

    def test_the_same_bytes_from_another_folder(self):
        before = os.umask(0o077)
        try:
            other = build(os.path.join(self.folder, "another name"))
        finally:
            os.umask(before)
        self.assertEqual(sum_of(self.wheel), sum_of(other))

    def test_it_installs_and_runs_without_a_network(self):
        venv.create(os.path.join(self.folder, "home"), with_pip=True)
        home = Home(os.path.join(self.folder, "home"), self.wheel)

        def told(*words):
            return home.ran(*words)

        report = text_of(EXAMPLES, "callcentre", "report.txt")
        self.assertEqual(told("mpplan", "run", MODEL, TRACE, "--page", "page.html").stdout, report)
        self.assertTrue(text_of(home.folder, "page.html").startswith("<!doctype html>"))
        self.assertEqual(told("mpsim", MODEL, TRACE).stdout, report)
        self.assertEqual(told("mpsim").returncode, 2)
        for name in NAMES:
            self.assertEqual(told(name, "--help").stdout, text_of(SOURCES, "mpsim", "help", f"{name}.txt"))
            self.assertEqual(told(name, "--version").stdout, f"{name} {importlib.import_module('mpsim').__version__}\n")
            self.assertEqual(told(name, "--help", "--version").returncode, 2)
        self.assertEqual(told("mpsweep", TRACE, MODEL).stdout, "scenario 1 status 0\n" + report)
        self.assertTrue(told("mpedit", MODEL, TRACE, os.devnull).stdout.startswith(report))
        self.assertEqual(told("mpsim", "--made", "7", "--report", "1").stdout, text_of(EXAMPLES, "made-7.txt"))
        self.assertEqual(told("python", "-c", f"import mpsim; print(mpsim.run({str(MODEL)!r}, {str(TRACE)!r}), end='')").stdout, report)


@unittest.skipUnless(builder(), "hatchling isn't there")
class Sources(Test):
    """The source distribution."""

    @classmethod
    def setUpClass(cls):
        folder = tempfile.TemporaryDirectory()
        cls.addClassCleanup(folder.cleanup)
        cls.folder = os.path.realpath(folder.name)
        cls.file = build(os.path.join(cls.folder, "one"), "sdist")
        with tarfile.open(cls.file) as archive:
            archive.extractall(cls.folder)
        cls.top = pathlib.Path(cls.folder, cls.file.name.removesuffix(".tar.gz"))
        # Unpacked, it doesn't depend on what git ignores around it.
        pathlib.Path(cls.folder, ".gitignore").write_text("*.py\n")

    def test_what_is_in_it(self):
        """The package, what makes a wheel from it, and its version."""
        version = importlib.import_module("mpsim").__version__
        self.assertEqual(self.file.name, f"mpsim-{version}.tar.gz")
        with tarfile.open(self.file) as archive:
            own = [f"{self.top.name}/{name}" for name in ("PKG-INFO", "README.md", "VERSION", "hatch_build.py", "pyproject.toml")]
            self.assertEqual({item.name for item in archive}, {*own, *(f"{self.top.name}/src/{name}" for name in packed())})
        self.assertEqual(text_of(self.top, "VERSION"), text_of(ROOT, "VERSION"))
        self.assertIn(f"\nName: mpsim\nVersion: {version}\n", text_of(self.top, "PKG-INFO"))

    def test_the_same_bytes_from_another_folder(self):
        """Also from a directory with a .gitignore, and from what was unpacked."""
        pathlib.Path(self.folder, "other name").mkdir()
        pathlib.Path(self.folder, "other name", ".gitignore").write_text("*.txt\n")
        before = os.umask(0o077)
        try:
            other = build(os.path.join(self.folder, "other name"), "sdist")
        finally:
            os.umask(before)
        again, _ = hatched(self.top, "sdist", os.path.join(self.folder, "again"))
        self.assertEqual([sum_of(other), sum_of(again)], [sum_of(self.file)] * 2)

    def test_a_wheel_with_programs(self):
        """It is that of a clone, byte for byte."""
        folder = pathlib.Path(self.folder, "programs")
        folder.mkdir()
        for name in NAMES:
            shutil.copy(programs.find(name), folder)
        wheel, says = hatched(self.top, "wheel", os.path.join(self.folder, "full"), MPSIM_PROGRAMS=str(folder))
        self.assertEqual((sum_of(wheel), says), (sum_of(build(os.path.join(self.folder, "clone"))), ""))

    def test_a_wheel_without_programs(self):
        """It installs anywhere. Programs are those of MPSIM_PROGRAMS, or on the PATH; if there are none, one line says so."""
        wheel, says = hatched(self.top, "wheel", os.path.join(self.folder, "bare"), MPSIM_PROGRAMS="")
        self.assertEqual((wheel.name, says), (f"{self.top.name}-py3-none-any.whl", BARE))
        with zipfile.ZipFile(wheel) as archive:
            self.assertEqual({item for item in archive.namelist() if item.startswith("mpsim/")}, packed() | {"mpsim/VERSION"})
        venv.create(os.path.join(self.folder, "home"), with_pip=True)
        self.installed(Home(os.path.join(self.folder, "home"), wheel))

    def test_pip_installs_the_file(self):
        """With hatchling of the interpreter, so without a network."""
        folder = os.path.join(self.folder, "pip")
        subprocess.run([builder(), "-m", "venv", "--system-site-packages", folder], check=True)
        self.installed(Home(folder, self.file, "--no-build-isolation", MPSIM_PROGRAMS=""))

    def installed(self, home):
        """The package without programs does what needs none, and finds them elsewhere."""
        version, report = importlib.import_module("mpsim").__version__, text_of(EXAMPLES, "callcentre", "report.txt")
        self.assertEqual(home.ran("mpplan", "--version").stdout, f"mpplan {version}\n")
        self.assertEqual(home.ran("mpplan", "prepare", TRACE, "--time", "time", "--format", "ticks", "--demand", "g").returncode, 0)
        none = "no program {0} in this package, in a clone around it (where ./build.py {0} builds it), or on the PATH; "
        none += "set MPSIM_PROGRAMS to a directory that has it\n"
        ran = home.ran("mpplan", "run", MODEL, TRACE)
        self.assertEqual((ran.returncode, ran.stderr, ran.stdout), (1, f"mpplan: {none.format('mpsim')}", ""))
        for name in NAMES:
            ran = home.ran(name, MODEL)
            self.assertEqual((ran.returncode, ran.stderr, ran.stdout), (1, none.format(name), ""))
            self.assertEqual(home.ran(name, "--version").stdout, f"{name} {version}\n")
        folder = os.path.dirname(programs.find("mpsim"))
        for settings in {"MPSIM_PROGRAMS": folder}, {"PATH": f"{home.folder}/bin:{folder}:/usr/bin:/bin"}:
            self.assertEqual(home.ran("mpplan", "run", MODEL, TRACE, **settings).stdout, report)
            self.assertEqual(home.ran("mpsim", MODEL, TRACE, **settings).stdout, report)


if __name__ == "__main__":
    unittest.main()
