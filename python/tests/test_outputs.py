"""A command of `mpplan` never overwrites its inputs, whatever the file is called: each option that names an output, with each input."""

import os
import unittest

from commands import InFolder, planner
from ground import text_of

import mpsim
from mpsim.command.commands import COMMANDS
from mpsim.command.parser import parser_for
from mpsim.files import judge_outputs

MODEL, TRACE = "model 1\nsource door\nserver desk talk from door\n", "source,time,talk\ndoor,0,5\ndoor,3,5\n"
INPUTS = {
    "model": MODEL,
    "agents": MODEL.replace("desk talk", "desk ={n}"),
    "trace": TRACE,
    "export": "when,who,long\n8:00,door,5\n",
    "changes": "record,time\n1,+1\n",
    "roster": "agent,queues,from,to\nA,,0,9\n",
}
# The arguments of a call, in which OUT is an output, and what each input is called.
CALLS = (
    ("prepare export --time when --demand long=talk --source who --model model --out OUT", {"export": "export", "model": "model"}),
    ("prepare export --time when --demand long=talk --source who --model model --left-out OUT", {"export": "export", "model": "model"}),
    ("prepare export --time when --demand long=talk --source who --model model --first-lines OUT", {"export": "export", "model": "model"}),
    ("prepare export --time when --demand long=talk --source who --model model --out-model OUT", {"export": "export", "model": "model"}),
    ("edit trace changes --model model --out OUT", {"trace": "trace", "changes": "file of changes", "model": "model"}),
    ("edit trace changes --model model --edits OUT", {"trace": "trace", "changes": "file of changes", "model": "model"}),
    ("scale trace --by 2 --twins --out OUT", {"trace": "trace"}),
    ("pool model trace --node desk --agents 2 --out OUT", {"model": "model", "trace": "trace"}),
    ("pool model trace --node desk --agents 2 --out-model OUT", {"model": "model", "trace": "trace"}),
    ("line a:=1 2 b:=3 --from desk --model model --trace trace --out OUT", {"model": "model", "trace": "trace"}),
    ("line a:=1 2 b:=3 --from desk --model model --trace trace --out-model OUT", {"model": "model", "trace": "trace"}),
    ("down model trace --node desk --at 1 --for 1 --out OUT", {"model": "model", "trace": "trace"}),
    ("down model trace --node desk --at 1 --for 1 --out-model OUT", {"model": "model", "trace": "trace"}),
    ("batch model trace --node desk --size 1 --time 3 --out OUT", {"model": "model", "trace": "trace"}),
    ("batch model trace --node desk --size 1 --time 3 --out-model OUT", {"model": "model", "trace": "trace"}),
    ("validate model trace --node desk --agents 1 --wait talk --within 5 --tick 1s --start 8:00 --page OUT", {"model": "model", "trace": "trace"}),
    ("grid model trace --node desk --agents 2 --page OUT", {"model": "model", "trace": "trace"}),
    ("inspect export --write-recipe OUT", {"export": "export"}),
    ("decision model trace --node desk --roster roster --out OUT", {"model": "model", "trace": "trace", "roster": "roster"}),
    ("run model trace --page OUT", {"model": "model", "trace": "trace"}),
    ("page report jobs --model model --out OUT", {"report": "report", "jobs": "report", "model": "model"}),
    ("sweep agents trace --set n=1,2 --page OUT", {"agents": "model", "trace": "trace"}),
    ("sweep --model a*s model --trace t*e --set n=1,2 --page OUT", {"agents": "model", "model": "model", "trace": "trace"}),
)


class Outputs(InFolder):
    def setUp(self):
        super().setUp()
        self.inputs = {name: self.file(name, text) for name, text in INPUTS.items()}
        report = mpsim.run(self.inputs["model"], self.inputs["trace"], jobs=True)
        self.inputs["report"] = self.file("report", "".join(report.lines(jobs=False)))
        self.inputs["jobs"] = self.file("jobs", "".join(report.lines(jobs=True)))
        self.texts = {name: text_of(path) for name, path in self.inputs.items()}
        before = os.getcwd()
        os.chdir(self.folder)
        self.addCleanup(os.chdir, before)

    def test_each_output_beside_each_input(self):
        for words, inputs in CALLS:
            for name, what in inputs.items():
                with self.subTest(words, name=name):
                    os.symlink(name, "soft")
                    os.link(name, "hard")
                    for path in name, f"./{name}", self.folder / name, "soft", "hard":
                        asked = [path if part == "OUT" else part for part in words.split()]
                        self.refuses(f"{path}: this is the {what}, which is never overwritten", *asked)
                    os.unlink("soft")
                    os.unlink("hard")
        self.assertEqual({name: text_of(path) for name, path in self.inputs.items()}, self.texts)

    def test_each_output_beside_the_other(self):
        for words, option in (
            ("prepare export --time when --out OUT", "--first-lines"),
            ("prepare export --time when --left-out OUT", "--first-lines"),
            ("edit trace changes --model model --out OUT", "--edits"),
            ("pool model trace --node desk --agents 2 --out OUT", "--out-model"),
        ):
            for first, second in ("new", "new"), ("new", "./new"), ("soft", "new"):
                if first == "soft":
                    os.symlink("new", "soft")
                told = planner(*words.replace("OUT", first).split(), option, second)
                self.assertEqual(told[0], 1)
                self.assertRegex(told[2], r"^mpplan: (soft, new|new, (\./)?new|(\./)?new, new): two outputs can't go to one file\n$")
            os.unlink("soft")
        self.assertFalse(os.path.exists("new"))

    def test_a_name_that_is_empty(self):
        for words, _ in CALLS:
            self.refuses("the name of an output file is empty", *("" if part == "OUT" else part for part in words.split()))

    def test_of_two_files_both_are_there_or_none(self):
        """One of them is on a full disk; it doesn't matter which comes first."""
        for words, other in (
            ("prepare export --time when --demand long=talk --source who --model model --out", "--first-lines"),
            ("prepare export --time when --demand long=talk --source who --model model --out", "--out-model"),
            ("prepare export --time when --demand long=talk --source who --model model --out", "--left-out"),
            ("edit trace changes --model model --out", "--edits"),
            ("pool model trace --node desk --agents 2 --out", "--out-model"),
        ):
            for first, second in ("new", "/dev/full"), ("/dev/full", "new"):
                told = planner(*words.split(), first, other, second)
                line = "mpplan: /dev/full: No space left on device"
                self.assertEqual((told[0], told[2].splitlines()[-1:]), (1, [line]), (words, first, other, second))
                self.assertFalse(os.path.exists("new"))

    def test_the_full_one_of_two_files_is_named(self):
        """Even if it is full before the other is complete."""
        self.file("trace", "source,time,talk\n" + "".join(f"door,{at},1\n" for at in range(5000)))
        for option, other in ("--out", "--out-model"), ("--out-model", "--out"):
            words = ["pool", "model", "trace", "--node", "desk", "--agents", "2", option, "/dev/full", other, "new"]
            self.assertEqual(planner(*words)[::2], (1, "mpplan: /dev/full: No space left on device\n"))
            self.assertFalse(os.path.exists("new"))

    def test_outputs_that_are_not_regular_files(self):
        """A device may be read and written, and a new name isn't an input."""
        judge_outputs(["/dev/null", "new", None], {"model": ["/dev/null", None], "trace": ["new"]})

    def test_every_option_is_there(self):
        """Each option of each command that takes a file, unless it only reads it."""
        words = [it.split() for it, _ in CALLS]
        tried = {(word[0], word[word.index("OUT") - 1]) for word in words}
        parsers = {name: parser_for(name)._subparsers._group_actions[0].choices[name] for name in COMMANDS}
        files = {(name, *action.option_strings) for name, parser in parsers.items() for action in parser._actions if action.metavar == "FILE"}
        read = "--model", "--trace", "--report", "--roster", "--recipe", "--forms", "--list", "--costs", "--calendar", "--log"
        self.assertEqual({file for file in files if file[-1] not in read}, tried)


if __name__ == "__main__":
    unittest.main()
