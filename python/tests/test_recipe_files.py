"""Recipes: what they hold, what overrides them, what is refused, and those of examples/recipes."""

import subprocess
import sys
import unittest
import unittest.mock

from commands import InFolder, planner
from ground import EXAMPLES, Test, text_of

from mpsim.exports import recipes
from mpsim.exports.recipes import read_recipe, recipe_text

FOLDER = EXAMPLES / "recipes"
SYSTEMS = sorted(path.stem for path in FOLDER.glob("*.toml"))
EXPORT = "when;who;long\n02.03.2026 08:00;Desk A;1,5\n02.03.2026 08:01;Desk B;0,5\n02.03.2026 08:02;Desk A;2,0\n"
RECIPE = 'time = "when"\nsource = "who"\ndemand = ["long=talk:min"]\n'

LACKS = ""
try:
    recipes._reader()
except ValueError as error:
    LACKS = str(error)


@unittest.skipIf(LACKS, LACKS)
class Systems(InFolder):
    def test_traces(self):
        """One command each, without a warning."""
        self.assertEqual(SYSTEMS, ["asterisk", "avaya", "cucm", "genesys", "sap", "tshark"])
        for name in SYSTEMS:
            with self.subTest(name):
                status, out, err = planner("prepare", FOLDER / f"{name}.csv", "--recipe", FOLDER / f"{name}.toml")
                self.assertEqual((status, out), (0, text_of(FOLDER, f"{name}-trace.csv")), err)
                self.assertNotIn("warning", err)
                self.assertIn(" records, ", err)

    def test_exports_are_made(self):
        ran = subprocess.run([sys.executable, FOLDER / "make.py", self.folder], check=False)
        self.assertEqual(ran.returncode, 0)
        for name in SYSTEMS:
            self.assertEqual(text_of(self.folder, f"{name}.csv"), text_of(FOLDER, f"{name}.csv"))
            self.assertIn(len(text_of(FOLDER, f"{name}.csv").splitlines()), range(20, 100))


@unittest.skipIf(LACKS, LACKS)
class Recipes(InFolder):
    def prepared(self, recipe, *words, export=EXPORT):
        return planner("prepare", self.file("calls.csv", export), "--recipe", self.file("calls.toml", recipe), *words)

    def test_holds_options(self):
        status, out, err = self.prepared(RECIPE)
        self.assertEqual((status, out), (0, "source,time,talk\ndesk_a,0,90\ndesk_b,60,30\ndesk_a,120,120\n"), err)

    def test_overridden(self):
        """By options before and after it, by their defaults too, and lists as a whole."""
        recipe = f'{RECIPE}begin = "first"\nfrom = "2026-03-02T08:01"\n'
        self.assertEqual(self.prepared(recipe)[1], "source,time,talk\ndesk_b,0,30\ndesk_a,60,120\n")
        self.assertEqual(self.prepared(recipe, "--begin", "hour")[1], "source,time,talk\ndesk_b,60,30\ndesk_a,120,120\n")
        self.assertEqual(self.prepared(recipe, "--demand", "long=service:s")[1].split("\n")[0], "source,time,service")
        path = self.file("calls.csv", EXPORT)
        told = planner("prepare", "--tick", "1min", path, "--recipe", self.file("a.toml", f'{RECIPE}tick = "1s"\n'))
        self.assertEqual(told[1].split("\n")[3], "desk_a,2,2")

    def test_all_kinds_of_values(self):
        recipe = f'{RECIPE}skip = 1\nfar = true\nduplicates = "drop"\ndecimal = ","\nwhere = "who=Desk A"\nleft-out-most = "20%"\n'
        self.assertEqual(self.prepared(recipe, export=f"Calls\n{EXPORT}")[1], "source,time,talk\ndesk_a,0,90\ndesk_a,120,120\n")
        days = "year,month,day,at\n2026,3,2,8:00\n2026,3,2,8:01\n"
        recipe = 'time = "at"\nday = ["year", "month", "day"]\nfar = false\n'
        self.assertEqual(self.prepared(recipe, export=days)[1], "source,time\njobs,0\njobs,60\n")

    def test_a_model_beside_the_recipe(self):
        """Its path is relative to the recipe."""
        (self.folder / "month").mkdir()
        self.file("month/model.txt", "model 1\nsource desk_b\nsource desk_a\nserver d talk from desk_a desk_b\n")
        told = planner("prepare", self.file("calls.csv", EXPORT), "--recipe", self.file("month/a.toml", f'{RECIPE}model = "model.txt"\n'))
        self.assertEqual(told[0], 0, told[2])

    def test_refused(self):
        path = self.folder / "calls.toml"
        for recipe, why in (
            ('tme = "when"', "'tme': unknown option, did you mean time?"),
            ('demands = "x"', "'demands': unknown option, did you mean demand?"),
            ('xyzzy = "x"', "'xyzzy': unknown option"),
            ('out = "x"', "'out': is given on the command line"),
            ("time = 3", "time = '3': expected a text in quotes"),
            ('skip = "3"', "skip = '3': expected a whole number"),
            ("skip = true", "skip = 'True': expected a whole number"),
            ('far = "yes"', "far = 'yes': expected true or false"),
            ("demand = [1]", "demand = '[1]': expected a text in quotes, or a list of texts"),
            ('day = ["a", "b"]', "day = \"['a', 'b']\": expected a list of 3 texts"),
            ('twice = "third"', "twice = 'third': expected one of first, second, order"),
        ):
            status, out, err = self.prepared(recipe)
            self.assertEqual((status, out, err), (1, "", f"mpplan: {path}: {why}\n"))
        status, _, err = self.prepared("time = when\n")
        self.assertEqual(status, 1)
        self.assertRegex(err, rf"^mpplan: {path}: .*\n$")

    def test_time_is_still_required(self):
        status, _, err = self.prepared('source = "who"\n')
        self.assertEqual((status, err), (2, "mpplan: the following arguments are required: --time (see mpplan prepare --help)\n"))

    def test_without_a_reader(self):
        with unittest.mock.patch.object(recipes, "READERS", ("absent_reader",)):
            self.assertEqual(self.prepared(RECIPE)[2].count("requires Python 3.11, or the Python package tomli"), 1)


@unittest.skipIf(LACKS, LACKS)
class Texts(Test):
    def test_read_back(self):
        options = {"time": 'a"b\\c\n\t\x7fé☎', "demand": ["x=y", "'"], "skip": 3, "far": True}
        with unittest.mock.patch("builtins.open", unittest.mock.mock_open(read_data=recipe_text(options, "two\nlines"))):
            self.assertEqual(read_recipe("a.toml"), options)


if __name__ == "__main__":
    unittest.main()
