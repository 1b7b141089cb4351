"""Models built line by line, and what is read from a text."""

import csv
import unittest

from ground import EXAMPLES, Test, folders, text_of

import mpsim
from mpsim.model import columns

# Each kind of node, with its line in docs/MODEL.md and the call that writes it after the source `x`; what follows reads `x` or `x.1`.
KINDS = [
    ("server n talk from x x.1", lambda m, x: m.server("n", "talk", x, x[1])),
    ("delay n =60 from x", lambda m, x: m.delay("n", 60, x)),
    ("loss n 3 =0 from x", lambda m, x: m.loss("n", 3, 0, x)),
    ("tandem n a / 1 b / 4 =7 from x.3", lambda m, x: m.tandem("n", "a", (1, "b"), (4, 7), x[3])),
    ("forkjoin n a =2 | b | =3 c from x", lambda m, x: m.forkjoin("n", [["a", 2], ["b"], [3, "c"]], x)),
    ("split n 3 turn from x", lambda m, x: m.split("n", x, turn=3)),
    ("split n 2 mod teller from x", lambda m, x: m.split("n", x, mod=(2, "teller"))),
    ("split n cut kind 1 5 from x", lambda m, x: m.split("n", x, cut=("kind", 1, 5))),
    ("fork n 2 from x", lambda m, x: m.fork("n", 2, x)),
    ("join n from x y", lambda m, x: m.join("n", x, "y")),
    ("trunk n 30 hold from x", lambda m, x: m.trunk("n", 30, "hold", x)),
]


class Models(Test):
    def test_each_kind(self):
        for line, call in KINDS:
            with self.subTest(line):
                model = mpsim.Model()
                output = call(model, model.source("x"))
                version = 2 if line.split()[0] in ("fork", "join", "trunk") else 1
                self.assertEqual(str(model), f"model {version}\nsource x\n{line}\n")
                self.assertEqual((str(output), str(output[0]), str(output[1])), ("n", "n", "n.1"))

    def test_a_version_stays(self):
        model = mpsim.Model(bound=0)
        model.delay("later", 1, model.trunk("lines", 2, "hold", model.source("calls")))
        self.assertEqual(str(model), "model 2\nbound 0\nsource calls\ntrunk lines 2 hold from calls\ndelay later =1 from lines\n")

    def test_invalid_splits(self):
        model = mpsim.Model()
        for words in {}, {"turn": 2, "mod": (2, "a")}:
            with self.assertRaises(TypeError):
                model.split("n", "x", **words)
        self.assertEqual(str(model), "model 1\n")
        with self.assertRaises(mpsim.ModelError):
            model.split("n", model.source("x"), turn=0)
            mpsim.run(model, [])


class Texts(Test):
    def test_variants(self):
        found = mpsim.variants("{a} {b} {a}", a=[1, 2], b="xy")
        self.assertEqual(found, {(1, "x"): "1 x 1", (1, "y"): "1 y 1", (2, "x"): "2 x 2", (2, "y"): "2 y 2"})
        self.assertEqual(mpsim.variants("{a}", a=range(2)), {0: "0", 1: "1"})
        with self.assertRaises(KeyError):
            mpsim.variants("{a} {b}", a=[1])

    def test_columns(self):
        """For each example: rows in that order, without a header, give the same report; mpedit takes its values in that order too."""
        for folder in folders():
            if not (folder / "report.txt").is_file() or folder.parent.name == "cases":
                continue
            with self.subTest(folder):
                names = columns(text_of(folder, "model.txt"))
                with open(folder / "trace.csv", newline="") as file:
                    header, *rows = filter(None, csv.reader(file))
                where = [header.index(name, 2) for name in names]
                rows = [(row[0], row[1], *(row[at] for at in where)) for row in rows]
                self.assertEqual(str(mpsim.run(folder / "model.txt", rows)), text_of(folder, "report.txt"))
                first = mpsim.Set(1, rows[0][0], rows[0][1], rows[0][2:])
                self.assertEqual(mpsim.edit(folder / "model.txt", folder / "trace.csv", [first]).again.done, 0)

    def test_columns_of_any_text(self):
        self.assertEqual(columns("model 1\n\n# server x y\nsplit\nsplit a\nsplit a cut\nfork\nserver s\nloss l 3\ntrunk t =4 u from\n"), ["u"])
        self.assertEqual(columns(""), [])
        self.assertEqual(columns(text_of(EXAMPLES, "callcentre", "model.txt")), ["g", "kind", "e", "a", "b"])


if __name__ == "__main__":
    unittest.main()
