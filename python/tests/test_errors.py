"""Exceptions: each line of docs/ERRORS.md, with its numbers; the file, the invalid line and the column."""

import os
import pickle
import re
import tempfile
import unittest

from ground import DESK, MODEL, ROOT, TRACE, Test, text_of

import mpsim
from mpsim.errors import error_of

KINDS = {
    2: mpsim.UsageError,
    3: mpsim.ModelError,
    4: mpsim.TraceError,
    5: mpsim.BoundError,
    6: mpsim.ReadError,
    7: mpsim.WriteError,
    8: mpsim.OutOfMemory,
    9: mpsim.VisitsError,
    10: mpsim.EditsError,
    12: mpsim.UsageError,
}
# The letters that stand for numbers and names in the lines, and the corresponding attributes.
LETTERS = {"L": "line", "W": "word", "R": "record", "F": "field", "I": "input", "P": "position", "T": "time", "C": "visits"}


def lines_of_page():
    """Yields pairs of a line and a status from docs/ERRORS.md; lines that share a row are separate."""
    for row in text_of(ROOT, "docs", "ERRORS.md").splitlines():
        cells = row.split(" | ")
        for line in re.findall(r"`((?:mpsim|mpsweep|mpedit): [^`]+)`", cells[0]) if row.startswith("| `") else ():
            if not line.endswith(": "):
                yield line, int(cells[1])


class Lines(Test):
    def test_each_line_of_the_page(self):
        count = 0
        for line, status in lines_of_page():
            with self.subTest(line):
                wanted = dict.fromkeys(LETTERS.values())
                program, told = line.split(": ", 1)
                if not told.startswith("usage"):
                    for number, letter in enumerate(re.findall(r"\b[LWRFIPTC]\b", told), 11):
                        if not (letter == "W" and "file W" in told):
                            wanted[LETTERS[letter]] = number
                        line = re.sub(rf"\b{letter}\b", str(number), line, count=1)
                    line = line.replace("file N", "file 2").replace("NAME", "line_7")
                error = error_of(program, status, line + "\n")
                self.assertIs(type(error), KINDS[status])
                self.assertEqual((error.told, error.status, str(error)), (line, status, line.split(": ", 1)[1]))
                self.assertEqual({name: getattr(error, name) for name in wanted}, wanted)
                self.assertEqual(error.node, "line_7" if told.startswith("node NAME") else None)
                self.assertEqual(error.column, "line_7" if "column NAME" in told else None)
                again = pickle.loads(pickle.dumps(error))
                self.assertEqual((type(again), str(again), vars(again)), (type(error), str(error), vars(error)))
                count += 1
        self.assertGreater(count, 40)

    def test_invalid_statuses(self):
        error = error_of("mpsim", 77, "mpsim: what is this\n")
        self.assertEqual((type(error), error.told), (mpsim.ProgramError, "mpsim: what is this"))
        self.assertEqual(str(error), "mpsim ended with status 77: what is this")
        self.assertEqual(str(error_of("mpedit", 1, "")), "mpedit ended with status 1")


class Files(Test):
    """The errors of the real programs for real files."""

    def setUp(self):
        folder = tempfile.TemporaryDirectory()
        self.addCleanup(folder.cleanup)
        self.folder = folder.name
        super().setUp()

    def file(self, name, text):
        path = os.path.join(self.folder, name)
        with open(path, "wb") as file:
            file.write(text if isinstance(text, bytes) else text.encode())
        return path

    def error(self, kind, call, *words, **options):
        with self.assertRaises(kind) as caught:
            call(*words, **options)
        self.assertIs(type(caught.exception), kind)
        return caught.exception

    def test_a_line_of_a_model(self):
        error = self.error(mpsim.ModelError, mpsim.run, "model 1\nsource Door\n", [])
        self.assertEqual((error.line, error.word, error.file, error.source), (2, 2, None, "source Door"))
        self.assertEqual(str(error), "model line 2: word 2 not allowed\n    source Door\n           ^^^^")
        path = self.file("model.txt", b"\xef\xbb\xbfmodel 1\r\n# a comment\rwith \x0b\xff anything\r\nsource\tdoor from\r\n")
        error = self.error(mpsim.ModelError, mpsim.run, path, TRACE)
        self.assertEqual((error.line, error.word, error.file, error.source), (3, 3, path, "source\tdoor from"))
        self.assertEqual(str(error).split("\n")[0], f"{path}: model line 3: word 3 not allowed")
        self.assertEqual(str(error).split("\n")[2], "          \t     ^^^^")
        marked = self.error(mpsim.ModelError, mpsim.run, "\ufeffmodel 9\n", [])
        self.assertEqual((marked.line, marked.source), (1, "model 9"))
        missing = self.error(mpsim.ModelError, mpsim.run, "model 1\nsource\n", [])
        self.assertEqual(str(missing).split("\n")[1:], ["    source", "           ^"])

    def test_a_record_of_a_trace(self):
        trace = 'source,time,note,d\n"door",0,"two\nlines",4\n\ndoor,1,,"210,0"\n'
        for given in trace, self.file("trace.csv", "\ufeff" + trace):
            error = self.error(mpsim.TraceError, mpsim.run, DESK, given)
            self.assertEqual((error.record, error.field, error.column, error.source), (2, 4, "d", 'door,1,,"210,0"'))
            self.assertEqual(error.file, given if given != trace else None)
        self.assertTrue(str(error).endswith('field 4 is not a number in range (column d)\n    door,1,,"210,0"'))
        first = self.error(mpsim.TraceError, mpsim.run, DESK, trace.replace(",4", ",x"))
        self.assertEqual((first.record, first.source), (1, '"door",0,"two\nlines",x'))
        rows = self.error(mpsim.TraceError, mpsim.run, DESK, [("door", 0, 4), ("door", 1, "210,0")])
        self.assertEqual((rows.record, rows.field, rows.column, rows.source), (2, 3, "d", 'door,1,"210,0"'))

    def test_a_header(self):
        error = self.error(mpsim.TraceError, mpsim.run, DESK, "source,time,Talk\ndoor,0,4\n")
        self.assertEqual((error.column, error.record, error.source), ("d", None, "source,time,Talk"))
        error = self.error(mpsim.TraceError, mpsim.run, DESK, "source;time;d\ndoor;0;4\n")
        self.assertEqual((error.field, error.told, error.source), (1, "mpsim: trace header: field 1 not allowed", "source;time;d"))

    def test_a_run(self):
        error = self.error(mpsim.BoundError, mpsim.run, DESK.replace("source", "bound 4\nsource", 1), [("door", 0, 4), ("door", 1, 1)])
        self.assertEqual((error.node, error.position, error.time, error.status), ("desk", 1, 5, 5))

    def test_edits(self):
        rows = [("door", 0, 4)]
        error = self.error(mpsim.EditsError, mpsim.edit, DESK, rows, [mpsim.Add("door", 1, (2,)), mpsim.Set(9, "door", 3, (2,))])
        self.assertEqual((error.line, error.source, error.told), (2, "set 9 door 3 2", "mpedit: edits line 2: not allowed"))
        path = self.file("edits.txt", "add door 1\n")
        error = self.error(mpsim.EditsError, mpsim.edit, DESK, rows, path)
        self.assertEqual((error.file, error.source), (path, "add door 1"))
        error = self.error(mpsim.BoundError, mpsim.edit, DESK.replace("source", "bound 9\nsource", 1), rows, [mpsim.Add("door", 8, (2,))])
        self.assertEqual((error.time, error.told.rsplit(" ", 3)[-3:]), (10, ["after", "the", "edits"]))

    def test_files_that_are_not_there(self):
        absent = os.path.join(self.folder, "absent")
        calls = [
            lambda: mpsim.run(absent, TRACE),
            lambda: mpsim.run(MODEL, absent),
            lambda: mpsim.edit(absent, TRACE, []),
            lambda: mpsim.edit(MODEL, absent, []),
            lambda: mpsim.edit(MODEL, TRACE, absent),
            lambda: mpsim.sweep(absent, [MODEL]),
            lambda: mpsim.sweep(TRACE, [MODEL] * 70 + [absent]),
            lambda: mpsim.sweep(TRACE, [MODEL, absent], jobs=True),
        ]
        for call in calls:
            error = self.error(mpsim.ReadError, call)
            self.assertEqual((error.status, error.file), (6, absent))
            self.assertIsInstance(error, OSError)
            self.assertTrue(str(error).startswith(f"{absent}: cannot read "))

    def test_words(self):
        error = self.error(mpsim.UsageError, mpsim.run, MODEL, TRACE, workers=65)
        self.assertEqual((error.told, error.status), ("mpsim: --workers takes a whole number from 1 to 64", 2))
        self.assertEqual(self.error(mpsim.UsageError, mpsim.run, MODEL, "\udcff").status, 12)
        for options in {"block": 0}, {"form": 3}, {"workers": -1}, {"workers": "x"}:
            self.assertEqual(self.error(mpsim.UsageError, mpsim.run, MODEL, TRACE, **options).status, 2)
        self.error(mpsim.UsageError, mpsim.made, -1)


if __name__ == "__main__":
    unittest.main()
