"""A trace made by mpplan edit and run by mpsim, compared with mpedit and the same changes, and with changes made by hand."""

import random
import re
import subprocess
import sys
import unittest

from commands import InFolder, planner
from ground import CASES, EXAMPLES, MODEL, TRACE, text_of

import mpsim
from mpsim.traces import Trace
from mpsim.traces.edit import edited

LATE, MOVED = EXAMPLES / "edits" / "late-caller", EXAMPLES / "edits" / "shift-moved"


def unescaped(text):
    r"""Returns the bytes of a line in examples/cases, in which \n, \r, \t and an octal byte such as \0357 are escapes."""
    signs = {"n": b"\n", "r": b"\r", "t": b"\t"}
    parts = re.split(r"\\(0[0-7]{3}|.)", text)
    return b"".join(it.encode() if not at % 2 else signs.get(it) or bytes([int(it, 8)]) for at, it in enumerate(parts))


class Beside(InFolder):
    """mpedit over a trace and edits gives the report of mpsim over the edited trace."""

    def same(self, model, trace, changes):
        """Returns the report of the trace edited with these changes; mpedit must give it too, for the edits written with it."""
        out, edits = self.folder / "o.csv", self.folder / "e.txt"
        status, _, error = planner("edit", trace, changes, "--model", model, "--out", out, "--edits", edits)
        self.assertEqual(status, 0, error)
        wanted = "".join(mpsim.run(model, out).lines())
        self.assertEqual(self.without_again(mpsim.edit(model, trace, edits)), wanted)
        return wanted

    def without_again(self, report):
        *lines, last = report.lines()
        self.assertRegex(last, r"^again \d+ of \d+ blocks\n$")
        return "".join(lines)

    def test_late_caller(self):
        """With edits and with names: the stored report, without its last line."""
        stored = text_of(LATE, "report.txt").rsplit("again", 1)[0]
        for changes in LATE / "edits.txt", self.file("c.csv", "record,time\n10,+11\n"):
            self.assertEqual(self.same(MODEL, TRACE, changes), stored)
            self.assertEqual(text_of(self.folder, "e.txt"), text_of(LATE, "edits.txt"))

    def test_shift_that_is_moved(self):
        run = lambda *words: subprocess.run(words, stdout=subprocess.PIPE, text=True, check=True).stdout
        trace = self.file("t.csv", run("awk", "-f", MOVED / "calls.awk"))
        rows = Trace.read(trace).rows
        late = [number for number, row in enumerate(rows, 1) if row[0] == "web" and int(row[1]) // 86400 == 19]
        changes = self.file("c.csv", "record,time\n" + "".join(f"{item},+3600\n" for item in late))
        stored = text_of(MOVED, "report.txt").rsplit("again", 1)[0]
        self.assertEqual(self.same(MOVED / "model.txt", trace, changes), stored)
        self.assertEqual(text_of(self.folder, "e.txt"), run(sys.executable, "-B", MOVED / "edits.py", trace, "take", "handle"))

    def test_texts_of_edits(self):
        """Edits that mpedit accepts give the same result, others are rejected."""
        model, trace, edits = EXAMPLES / "desk" / "model.txt", EXAMPLES / "desk" / "trace.csv", self.folder / "edits.txt"
        for text in text_of(CASES, "edit-texts.txt").splitlines():
            with self.subTest(text):
                edits.write_bytes(unescaped(text))
                wanted = self.without_again(mpsim.edit(model, trace, edits))
                self.assertEqual(self.same(model, trace, edits), wanted)
        for line in text_of(CASES, "edit-faults.txt").splitlines():
            why, text = line.split("\t", 1)
            with self.subTest(text):
                edits.write_bytes(unescaped(text))
                status, out, error = planner("edit", trace, edits, "--model", model)
                number = why.split()[3].rstrip(":")
                self.assertEqual((status, out), (1, ""))
                self.assertRegex(error, rf"^mpplan: {re.escape(str(edits))}: (line|row) {number}: .+\n$")

    def test_changes_that_are_drawn(self):
        """Over a trace whose columns have another order than in the model, and with columns that it doesn't name."""
        model = self.file("m.txt", "model 1\nsource a\nsource b\nsplit k cut kind 1 from a b\nloss s 2 d from k\nserver z time from k.1 s.1\n")
        names, stand = ["kind", "d", "time"], [5, 2, 3]
        for seed in range(12):
            draw = random.Random(seed)
            row = lambda: [draw.choice("ab"), *(draw.randrange(item) for item in (40, 9, 9)), draw.choice(["", "x y", '"p,\nq"']), draw.randrange(3)]
            rows = [row() for _ in range(draw.randrange(1, 30))]
            trace = self.file("t.csv", "source,time,d,time,note,kind\n" + "".join(",".join(map(str, row)) + "\n" for row in rows))
            lines, left = [], [list(map(str, row)) for row in rows]
            for _ in range(draw.randrange(9)):
                values = list(map(str, row()))
                at, mine = draw.choice([len(left), draw.randrange(len(left))]), [values[0], values[1], *(values[item] for item in stand)]
                lines.append(" ".join([f"set {at + 1}" if at < len(left) else "add", *mine]) + "\n")
                left[at : at + 1] = [[*values[:4], left[at][4] if at < len(left) else "", values[5]]]
            edits = self.file("edits.txt", "".join(lines))
            self.assertEqual(self.same(model, trace, edits), self.without_again(mpsim.edit(model, trace, edits)), seed)
            made = edited(trace, edits, model)
            self.assertEqual([made.trace.header.index(name, 2) for name in names], stand)
            unquoted = [[item.replace('"', "") for item in row] for row in left]
            self.assertEqual((made.rows, Trace.read(self.folder / "o.csv").rows), (unquoted, unquoted))

    def test_by_names_that_are_drawn(self):
        """Compared with the same changes made by hand, with removed records; if none is removed, mpedit agrees."""
        model = self.file("m.txt", "model 1\nsource a\nsource b\nserver s d from a b\ndelay w e from s\n")
        for seed in range(12):
            draw = random.Random(seed)
            rows = [[draw.choice("ab"), draw.randrange(40), draw.randrange(9), draw.randrange(9)] for _ in range(draw.randrange(3, 20))]
            trace = self.file("t.csv", "source,time,e,d\n" + "".join(",".join(map(str, row)) + "\n" for row in rows))
            lines, hand = ["record,d,source,out,time\n"], [list(row) for row in rows]
            for _ in range(8):
                first = draw.choice([it for it, row in enumerate(hand) if row])
                last = first + 1
                while last < len(hand) and hand[last] and draw.random() < 0.5:
                    last += 1
                numbers = f"{first + 1}" if last == first + 1 else f"{first + 1}-{last}"
                by, way = draw.randrange(5), draw.choice(["+", "*", "source", "out" if seed % 2 and sum(map(bool, hand)) > 3 + last - first else "+"])
                for number in range(first, last):
                    row = hand[number]
                    hand[number] = None if way == "out" else [row[0] if way != "source" else "b", row[1] + 7 * (way == "+"), row[2], row[3]]
                    if way in "+*":
                        hand[number][3] = row[3] + by if way == "+" else (row[3] * (10 + by) + 5) // 10
                lines.append({
                    "+": f"{numbers},+{by},,,+7\n", "*": f"{numbers},*1.{by},,,\n", "source": f"{numbers},,b,,\n", "out": f"{numbers},,,yes,\n"
                }[way])
            changes = self.file("c.csv", "".join(lines))
            kept = [item for item in hand if item]
            text = planner("edit", trace, changes)[1]
            self.assertEqual(text.split("\n")[1:-1], [",".join(map(str, item)) for item in kept], lines)
            if all(hand):
                self.assertEqual(self.same(model, trace, changes), "".join(mpsim.run(model, trace.with_name("o.csv")).lines()))

    def test_the_same_twice(self):
        """A row that names a record again, even an added one, gives a single edit in the end."""
        trace = self.file("t.csv", "source,time,n,d\na,0,x,4\na,1,,1\n")
        model = self.file("m.txt", "model 1\nsource a\nserver s d from a\n")
        self.same(model, trace, self.file("c.csv", "record,source,time,n,d\n2,,+1,,\n+,a,3,q,5\n2,,,,*2\n3,,,,+1\n"))
        self.assertEqual(text_of(self.folder, "e.txt"), "set 2 a 2 2\nadd a 3 6\n")


if __name__ == "__main__":
    unittest.main()
