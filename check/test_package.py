"""Checks how the modules of the Python package depend on one another: no module imports itself through others, the library never imports the
command, and what a module imports from another is there; and their types, with mypy, if it is installed."""
import os
import shutil

from package import cycles_in, imports_of, lacking_in
from programs import ROOT, Check, run

PACKAGE = ROOT / "python" / "src" / "mpsim"
COMMAND = "mpsim.command"


def is_of_command(name):
    """Returns whether a module belongs to the command: the package of its subcommands, and what `python3 -m mpsim` runs."""
    return name in (COMMAND, "mpsim.__main__") or name.startswith(f"{COMMAND}.")


class Package(Check):
    def test_no_cycle(self):
        imports = imports_of(PACKAGE)
        self.cases += len(imports)
        self.holds(f"few modules: {sorted(imports)}", len(imports) > 60)
        self.holds("no module imports another", sum(map(len, imports.values())) > 100)
        self.same("modules that import one another", cycles_in(imports), [])

    def test_the_library_never_imports_the_command(self):
        imports = imports_of(PACKAGE)
        self.holds("the command has no modules", sum(map(is_of_command, imports)) > 16)
        for name, targets in imports.items():
            if not is_of_command(name):
                self.same(f"what {name} imports of the command", sorted(filter(is_of_command, targets)), [])

    def test_what_is_imported_is_there(self):
        """Inside functions too, which no test may call."""
        self.same("names that no module has", list(lacking_in(PACKAGE)), [])
        folder = self.folder / "lacking"
        folder.mkdir()
        (folder / "one.py").write_text("def a():\n    from .two import b, c\n    from .three import d\n")
        (folder / "two.py").write_text("b = 1\n")
        self.same("planted names", list(lacking_in(folder)), ["lacking.one imports c from lacking.two", "lacking.one imports d from lacking.three"])

    def planted(self, files):
        """Returns the cycles of a package with these texts by path."""
        folder = self.folder / "planted"
        for name, text in files.items():
            path = folder / name
            path.parent.mkdir(parents=True, exist_ok=True)
            path.write_text(text)
        found = cycles_in(imports_of(folder))
        for name in files:
            (folder / name).unlink()
        return found

    def test_planted_cycles(self):
        """At the top, inside a function, through a package, through several modules, and by absolute names. Imports for types alone are none."""
        both = [["planted.one", "planted.two"]]
        for one, two, cycles in (
            ("from .two import b\n", "import os\n", []),
            ("from .two import b\n", "from .one import a\n", both),
            ("from . import two\n", "from . import one\n", both),
            ("import planted.two\n", "from planted import one\n", both),
            ("def a():\n    from .two import b\n", "class B:\n    def c(self):\n        from .one import a\n", both),
            ("from typing import TYPE_CHECKING\nif TYPE_CHECKING:\n    from .two import b\n", "from .one import a\n", []),
            ("from typing import TYPE_CHECKING\nif TYPE_CHECKING:\n    pass\nelse:\n    from .two import b\n", "from .one import a\n", both),
        ):
            self.same(f"the cycles of {one!r} and {two!r}", self.planted({"__init__.py": "", "one.py": one, "two.py": two}), cycles)
        inner = {"__init__.py": "", "inner/__init__.py": "from ..one import a\n", "inner/two.py": "", "one.py": "from .inner.two import b\n"}
        self.same("a cycle through a package", self.planted(inner), [["planted.inner", "planted.one"]])
        ring = {"__init__.py": "", "one.py": "from .two import b\n", "two.py": "from .three import c\n", "three.py": "def a():\n    from . import one\n"}
        self.same("a cycle of three", self.planted(ring), [["planted.one", "planted.three", "planted.two"]])


class Types(Check):
    def mypy(self, *words):
        """Runs mypy in the directory of the package's project, without leaving a cache there."""
        program = shutil.which("mypy")
        if program is None:
            self.skipTest("mypy is missing")
        settings = {"MYPYPATH": str(PACKAGE.parent), "MYPY_CACHE_DIR": os.devnull}
        return run(program, *words, folder=PACKAGE.parent.parent, settings=settings)

    def test_the_package(self):
        """As pyproject.toml says: strictly, for all modules."""
        ran = self.mypy()
        self.holds(f"{ran.command}\n{ran.out.decode()}{ran.line.decode()}", ran.status == 0)

    def test_a_program_that_uses_it(self):
        """An unknown name, a wrong argument and a missing figure are errors; calls that fit are not."""
        begin = 'import mpsim\nreport = mpsim.run("model.txt", "trace.csv")\n'
        for line, says in (
            ("print(report['desk'].wait + 1, mpsim.Model().source('door'), mpsim.__version__)\n", ""),
            ("mpsim.does_not_exist(3)\n", 'Module has no attribute "does_not_exist"'),
            ("mpsim.run('model.txt', 'trace.csv', jobs='yes', worker=1)\n", 'Unexpected keyword argument "worker"'),
            ("print(report.mean_sojourn + 1)\n", "Unsupported operand types"),
        ):
            ran = self.mypy("--strict", self.file("program.py", begin, line))
            out = ran.out.decode()
            self.holds(f"{line}{ran.command}\n{out}{ran.line.decode()}", (ran.status == 0) == (not says) and says in out)
