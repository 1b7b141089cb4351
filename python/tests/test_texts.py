"""The package's own documentation: the examples of each call, of docs/PYTHON.md and of docs/PLANNER.md are run; and requirements on its files."""

import ast
import doctest
import importlib.util
import inspect
import os
import re
import shutil
import tempfile
import unittest

from ground import PYTHON, ROOT, SOURCES, Test

import mpsim

MODULES = sorted(".".join(path.relative_to(SOURCES / "mpsim").with_suffix("").parts) for path in (SOURCES / "mpsim").rglob("*.py"))
PAGE = ROOT / "docs" / "PYTHON.md"
STANDARD = {"array", "bisect", "collections", "contextlib", "csv", "fractions", "importlib", "io", "itertools", "os", "re", "shutil", "signal"}
STANDARD |= {"__future__", "_typeshed", "ctypes", "resource", "types"}
STANDARD |= {"subprocess", "sys", "threading", "time", "typing"}
# Further modules used by the planner's commands and the pages.
STANDARD |= {"argparse", "base64", "codecs", "datetime", "difflib", "errno", "functools", "gc", "glob", "hashlib", "heapq", "html", "json", "locale"}
STANDARD |= {"concurrent", "decimal"}
STANDARD |= {"bz2", "gzip", "lzma", "tempfile", "zipfile", "zlib"}
STANDARD |= {"math", "operator", "random", "secrets", "shlex", "socket", "stat", "string", "unicodedata", "zoneinfo"}


def module_of(name):
    """Returns the module of a name; the files `__main__` aren't importable modules."""
    return importlib.import_module(f"mpsim.{name}".replace(".__init__", ""))


def blocks_of(page):
    """Returns the code blocks of a page, as lists of lines."""
    lines = page.read_text().splitlines()
    marks = [at for at, it in enumerate(lines) if it.startswith("```")]
    return [lines[begin + 1 : end] for begin, end in zip(marks[::2], marks[1::2])]


def is_public_call(name, it):
    """Returns whether a member of a class is a method that a caller may use."""
    return not name.startswith("_") and (inspect.isfunction(it) or isinstance(it, (classmethod, staticmethod)))


def public_in(tree):
    """Yields the public classes and functions of a module or a class, with whether they are properties."""
    for item in tree.body:
        if isinstance(item, (ast.ClassDef, ast.FunctionDef)) and not item.name.startswith("_"):
            marks = [ast.unparse(mark) for mark in item.decorator_list]
            # A setter has the docstring of its property.
            if not any(mark.endswith(".setter") for mark in marks):
                yield item, "property" in marks
            if isinstance(item, ast.ClassDef):
                yield from public_in(item)


class Examples(Test):
    def runs(self, examples):
        told = []
        result = doctest.DocTestRunner(verbose=False).run(examples, out=told.append)
        self.assertEqual(result.failed, 0, "".join(told))
        return result.attempted

    def test_each_public_name_has_an_example(self):
        """Each function and type of the package, each of its methods, and what docs/PLANNER.md lists. The exceptions are what no example can bring
        about, and data frames, since pandas may be missing."""
        finder = doctest.DocTestFinder(exclude_empty=True, recurse=False)
        names = {name: getattr(mpsim, name) for name in mpsim.__all__[1:]}
        for name, kind in [item for item in names.items() if inspect.isclass(item[1])]:
            names.update({f"{name}.{member}": it for member, it in vars(kind).items() if is_public_call(member, it)})
        page = (ROOT / "docs" / "PLANNER.md").read_text()
        for package, listed in re.findall(r"^\| `(mpsim\.\w+)` \| (.*) \|$", page, re.M):
            for module, functions in re.findall(r"`(\w+)` \(([^)]*)\)", listed):
                for name in re.findall(r"\w+", functions):
                    names[f"{package}.{module}.{name}"] = getattr(importlib.import_module(f"{package}.{module}"), name)
        self.assertGreater(len(names), 80)
        for name, it in names.items():
            with self.subTest(name):
                examples = sum(len(test.examples) for test in finder.find(getattr(it, "__func__", it), name, module=False))
                self.assertTrue(examples or name in ("WriteError", "OutOfMemory", "TimedOut") or name.endswith(".to_pandas"))

    def test_each_public_name_has_a_docstring(self):
        """In all modules. That of a function begins with a verb in the third person, unless it is a property."""
        count = 0
        for name in MODULES:
            for item, is_property in public_in(ast.parse((SOURCES / "mpsim" / f"{name.replace('.', '/')}.py").read_text())):
                count += 1
                with self.subTest(f"{name}.{item.name}"):
                    says = ast.get_docstring(item) or ""
                    self.assertTrue(says)
                    if isinstance(item, ast.FunctionDef) and not is_property:
                        self.assertRegex(says, r"^[A-Z][a-z]+s\b")
        self.assertGreater(count, 400)

    def test_examples_are_run(self):
        count = 0
        for name in MODULES:
            if name.endswith("__main__"):
                continue
            for test in doctest.DocTestFinder().find(module_of(name)):
                if test.examples:
                    with self.subTest(test.name):
                        if "solver_named" in test.docstring and not (importlib.util.find_spec("scipy") or shutil.which("glpsol")):
                            self.skipTest("neither scipy nor glpsol is installed")
                        count += self.runs(test)
        self.assertGreater(count, 50)

    def test_page(self):
        """All blocks of docs/PYTHON.md, one after another, in a directory with the examples."""
        blocks = blocks_of(PAGE)
        self.assertTrue(len(blocks) > 8 and all(block[0].startswith(">>> ") for block in blocks), blocks)
        self.assertGreater(self.runs_blocks(PAGE, blocks), 20)

    def test_planner_page(self):
        """The sessions of docs/PLANNER.md; its other blocks are commands, which `check/run documents` runs."""
        page = ROOT / "docs" / "PLANNER.md"
        blocks = [block for block in blocks_of(page) if block[0].startswith(">>> ")]
        self.assertGreater(self.runs_blocks(page, blocks), 5)

    def runs_blocks(self, page, blocks):
        before = os.getcwd()
        with tempfile.TemporaryDirectory() as folder:
            os.symlink(ROOT / "examples", os.path.join(folder, "examples"))
            os.chdir(folder)
            try:
                examples = doctest.DocTestParser().get_doctest("".join(f"{line}\n" for it in blocks for line in [*it, ""]), {}, str(page), None, 0)
                return self.runs(examples)
            finally:
                os.chdir(before)

    def test_readme(self):
        """The example of the wheel's page."""
        lines = [line[4:] for line in (PYTHON / "README.md").read_text().splitlines() if line.startswith("    ")]
        *most, last = lines
        names = {}
        exec("\n".join(most), names)
        self.assertEqual(eval(last, names), (1, 2 / 3))

    def test_page_names_each_call(self):
        text = PAGE.read_text()
        for name in mpsim.__all__[1:]:
            self.assertIn(name, text)


FRAMES, BOOKS = {"pandas", "numpy"}, {"openpyxl"}
# What modules use if it is there.
OPTIONAL = {
    "report": FRAMES,
    "node_visits": FRAMES,
    "sweeps.results": FRAMES,
    "tables.sheets": BOOKS,
    "exports.workbook": BOOKS,
    "exports.columnar": {"pyarrow", "fastparquet"},
    "tables.sojourns": FRAMES,
    "agents.solvers": {"scipy"},
}


def modules_of(tree):
    """Yields the modules that a source imports, except the package's own."""
    for item in ast.walk(tree):
        if isinstance(item, ast.Import):
            yield from (name.name.split(".")[0] for name in item.names)
        elif isinstance(item, ast.ImportFrom) and not item.level:
            yield item.module.split(".")[0]


class Sources(Test):
    def test_files(self):
        """Short enough to be read, and valid in Python 3.9."""
        for path in sorted(PYTHON.rglob("*.py")):
            with self.subTest(path.name):
                lines = path.read_text().splitlines()
                self.assertLess(len(lines), 400)
                self.assertEqual([line for line in lines if len(line) > 150], [])
                ast.parse(path.read_text(), feature_version=(3, 9))

    def test_modules(self):
        """The package uses only Python's standard library; few files look for what makes a data frame or reads a spreadsheet."""
        for name in MODULES:
            found = set(modules_of(ast.parse((SOURCES / "mpsim" / f"{name.replace('.', '/')}.py").read_text())))
            with self.subTest(name):
                self.assertEqual(found - STANDARD - OPTIONAL.get(name, set()), set())

    def test_names(self):
        self.assertEqual(set(mpsim.__all__) - set(dir(mpsim)), set())
        self.assertEqual(set(mpsim._MODULES) & set(MODULES), set())
        with self.assertRaises(AttributeError):
            mpsim.absent

    def test_names_for_editors(self):
        """Those that are imported for type checkers alone are those that are imported when they are first used, from the same modules."""
        tree = ast.parse((SOURCES / "mpsim" / "__init__.py").read_text())
        block = next(item for item in tree.body if isinstance(item, ast.If) and getattr(item.test, "id", None) == "TYPE_CHECKING")
        found = {alias.asname: (item.module, alias.name) for item in block.body for alias in item.names}
        self.assertEqual(found, {name: (module, name) for name, module in mpsim._MODULES.items()})


if __name__ == "__main__":
    unittest.main()
