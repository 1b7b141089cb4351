"""Large, damaged and hostile exports and models: no more memory than their records take, one short line for each error, and nothing that is run."""

import contextlib
import gzip
import io
import os
import subprocess
import sys
import unittest
import unittest.mock
import zipfile

from commands import InFolder, planner
from ground import LONGEST, ROOT
from test_prepare import prepare, table

from mpsim.command import machines
from mpsim.model import nodes_of
from mpsim.sweeps.plans import Plan, values_of

# The peak of this process, and not that of the one that started it.
PEAK = """import re, sys
from mpsim.command import main
status = main(sys.argv[1:])
print(status, int(re.search(r"VmHWM:\\s*(\\d+)", open("/proc/self/status").read())[1]) // 1024)
"""


def measured(*words, given=None):
    """Runs `mpplan` in a process of its own. Returns its status, its peak of memory (MB) and its last line on stderr."""
    settings = {**os.environ, "PYTHONPATH": str(ROOT / "python" / "src")}
    command = [sys.executable, "-B", "-c", PEAK, *map(str, words)]
    ran = subprocess.run(command, input=given, capture_output=True, env=settings, timeout=LONGEST, check=True)
    status, peak = ran.stdout.decode().splitlines()[-1].split()
    return int(status), int(peak), ran.stderr.decode().splitlines()[-1]


class Large(InFolder):
    def test_memory(self):
        """Text of 60 MB from which a few records come takes no more memory than one of 60 kB, in each encoding and through a pipe."""
        row = "2026-03-02 08:00:{:02},b,{}\n"
        for letters, encoding in ("x", "ascii"), ("ě", "utf-8"), ("é", "cp1252"):
            peaks = []
            for count in 60, 60000:
                export = self.folder / "large.csv"
                with open(export, "w", encoding=encoding) as file:
                    file.write("when,who,note\n")
                    file.writelines(row.format(at % 60, letters * 1000).replace(",b,", ",a," if at < 10 else ",b,") for at in range(count))
                words = "prepare", export, "--time", "when", "--where", "who=a", "--out", self.folder / "trace.csv"
                status, peak, _ = measured(*words)
                self.assertEqual((status, (self.folder / "trace.csv").read_text().count("\n")), (0, 11))
                peaks.append(peak)
            # The rows from which formats are detected stay in memory.
            self.assertLess(peaks[1] - peaks[0], 60, (encoding, peaks))

    def test_the_limit_of_records(self):
        """Reading stops there, even if the pipe goes on."""
        with unittest.mock.patch("mpsim.exports.rows.RECORDS", 5000), self.assertRaisesRegex(ValueError, "more than 5,000 records"):
            prepare(table(*["2026-03-02,a,1"] * 20000), "when")

    def test_what_has_no_end(self):
        status, peak, line = measured("prepare", "/dev/zero", "--time", "when")
        self.assertEqual((status, line[:44]), (1, "mpplan: /dev/zero: it has NUL bytes: is it U"))
        self.assertLess(peak, 60)

    def test_a_line_without_end_through_a_pipe(self):
        """It isn't read for long. A packed file or a spreadsheet has no lines."""
        endless = [sys.executable, "-c", "while True: print('x' * 999999, end='')"]
        writer = subprocess.Popen(endless, stdout=subprocess.PIPE, stderr=subprocess.DEVNULL)
        self.addCleanup(writer.wait)
        self.addCleanup(writer.kill)
        status, peak, line = measured("prepare", f"/proc/{os.getpid()}/fd/{writer.stdout.fileno()}", "--time", "when")
        writer.stdout.close()
        self.assertEqual((status, line.partition(": a ")[2]), (1, "line is longer than 16,777,216 bytes"))
        self.assertLess(peak, 60)
        packed = gzip.compress(table("8:00,a,1"), 0) + os.urandom(1 << 12).replace(b"\n", b"").replace(b"\r", b"") * (1 << 10)
        with unittest.mock.patch("mpsim.exports.streams.LINE", 1 << 20), self.assertRaisesRegex(ValueError, "can't be unpacked"):
            self.piped(packed)

    def test_a_pipe_without_end(self):
        with unittest.mock.patch("mpsim.exports.streams.PIPE", 1 << 22):
            with self.assertRaisesRegex(ValueError, "more than 4,194,304 bytes through a pipe: give a file"):
                self.piped(table(*["2026-03-02T08:00:00,a,1"] * 500000))

    def test_a_zip_of_zeros(self):
        """It isn't unpacked to its end: with NUL bytes, and with one long line."""
        for data, says in (bytes(1 << 20), "it has NUL bytes: is it UTF-16"), (b"x" * (1 << 20), "line 1 is longer than 16,777,216 bytes"):
            path = self.folder / "zeros.zip"
            with zipfile.ZipFile(path, "w", zipfile.ZIP_DEFLATED) as archive, archive.open("zeros.csv", "w") as file:
                for _ in range(100):
                    file.write(data)
            status, peak, line = measured("prepare", path, "--time", "when")
            self.assertEqual((status, says in line), (1, True), line)
            self.assertLess(peak, 60)

    def test_a_zip_of_empty_lines(self):
        """It isn't unpacked to its end, which is 2 GB away: with or without rows before them, and with delimiters or spaces in them."""
        for begin, lines in (b"", b"\n"), (b"when,who\n8:00,a\n", b" \r\n"), (b"when,who\n8:00,a\n", b",\n"), (b"when\n", b"\r"):
            path = self.folder / "empty.zip"
            with zipfile.ZipFile(path, "w", zipfile.ZIP_DEFLATED, compresslevel=1) as archive, archive.open("empty.csv", "w") as file:
                file.write(begin)
                for _ in range(40):
                    file.write(lines * (1 << 19))
            # Whoever reads on gets to the damaged end.
            data = bytearray(path.read_bytes())
            at = data.rindex(b"PK\1\2") - 1000
            data[at : at + 500] = os.urandom(500)
            path.write_bytes(data)
            status, peak, line = measured("prepare", path, "--time", "when")
            says = f"mpplan: {path}: more than 16,777,216 lines are empty: remove them first, e.g. with grep '[[:alnum:]]'"
            self.assertEqual((status, line), (1, says))
            self.assertLess(peak, 60)

    def test_empty_lines_among_rows(self):
        """Those of an honest export are skipped, however many; hardly any rows among them are too few."""
        for rows, gap, is_read in (3000, 1, True), (3000, 9, True), (300, 40, False), (30, 200, True), (2, 5000, False):
            data = table(*["\n" * gap + "2026-03-02,a,1"] * rows, *[""] * 99)
            with unittest.mock.patch("mpsim.exports.rows.EMPTY", 1 << 13):
                if is_read:
                    self.assertEqual(len(prepare(data, "when", duplicates="keep")), rows)
                    continue
                with self.assertRaisesRegex(ValueError, r"more than 16,777,216 lines are empty: remove them first"):
                    prepare(data, "when", duplicates="keep")

    def test_too_many_left_out(self):
        """Reading stops when more rows are left out than a trace has records, if no number of records can follow that makes them few enough."""
        bad, good = ["x,a,1"] * 6000, ["2026-03-02,a,1"] * 4000
        with unittest.mock.patch("mpsim.exports.rows.RECORDS", 4000):
            for most, stops in ("5%", True), ("59%", True), ("60%", False), ("100%", False):
                with contextlib.suppress(ValueError) if stops else contextlib.nullcontext():
                    self.assertEqual(len(prepare(table(*bad, *good), "when", format="iso", left_out_most=most, duplicates="keep")), 4000)
                    self.assertFalse(stops)
            says = "4,096 of the first 4,096 rows would be left out: to read on, give --left-out-most 100%; 4,096 rows: when: not an ISO"
            with self.assertRaisesRegex(ValueError, says) as caught:
                prepare(table(*bad, *good), "when", format="iso", left_out_most="5%")
            self.assertEqual(caught.exception.status, 13)
            # As few as a trace has records are read to the end, which says how many they are.
            with self.assertRaisesRegex(ValueError, "4,000 of 4,001 rows would be left out, more than 5 percent"):
                prepare(table(*bad[:4000], good[0]), "when", format="iso", left_out_most="5%")

    def piped(self, data):
        """Reads bytes that come through a pipe."""
        path = self.folder / "pipe"
        os.mkfifo(path)
        child = os.fork()
        if not child:
            with contextlib.suppress(OSError), open(path, "wb") as pipe:
                pipe.write(data)
            os._exit(0)
        try:
            return prepare(path, "when")
        finally:
            os.waitpid(child, 0)

    def test_a_line_without_end(self):
        export = self.file("long.csv", "when,who\n8:00," + "x" * (1 << 25) + "\n")
        status, peak, line = measured("prepare", export, "--time", "when")
        self.assertEqual((status, line), (1, f"mpplan: {export}: line 2 is longer than 16,777,216 bytes"))
        self.assertLess(peak, 60)


class Fields(InFolder):
    def test_numbers_of_many_digits(self):
        """Each is a row that is left out, with its reason."""
        many = "9" * 5000
        reason = "longer than 200 characters"
        for form, time in ("unix", "1772438417"), ("ticks", "5"), ("hmm", "805"), ("excel", "46083.5"), ("clock", "8:00"), ("iso", "2026-03-02"):
            made = prepare(table(f"{time},a,1", f"{many},a,1", f"{time},a,{many}"), "when", format=form, demand=["long=d"])
            self.assertEqual((len(made), made.left), (1, {f"when: {reason}": 1, f"long: {reason}": 1}))
        made = prepare(table("8:00,a,5", f"8:00,a,{many}"), "when", where=["long>3"])
        self.assertEqual((len(made), made.left), (1, {f"long: {reason}": 1}))

    def test_lines_of_errors(self):
        """At most 300 characters of a field, whatever is wrong with it."""
        long = "x" * 100000
        for data, words in (
            (table("8:00,a,1", f"8:00,a,{long}"), ["--demand", "long"]),
            (table(f"{long},a,1"), []),
            (table("8:00,a,1", header=f"when,who,{long}"), ["--demand", "long"]),
            (table("8:00,a,1", f"8:00,a,5:{long}"), ["--demand", "long"]),
            (table("8:00,a,1", header=",".join(["when", *(f"{at}{long[:200]}" for at in range(400))])), ["--demand", "long"]),
        ):
            export = self.file("export.csv", data.decode())
            status, out, err = planner("prepare", export, "--time", "when", *words)
            self.assertEqual((status in (1, 13), out, err.count("\n")), (True, "", err.count("\nplanner: ") + 1))
            self.assertLess(max(map(len, err.splitlines())), 2200)

    def test_an_open_quote(self):
        rest = "\n".join(["8:01,b,2"] * 40)
        with self.assertRaisesRegex(ValueError, r"row 3: a field has more than 20 lines: is a closing quote missing\?"):
            prepare(f'when,who,long\n8:00,a,1\n8:00,"a,1\n{rest}\n'.encode(), "when")
        with self.assertRaisesRegex(ValueError, r"row 3: field larger than field limit \(131072\): is a closing quote missing\?"):
            prepare(f'when,who,long\n8:00,a,1\n8:00,"a,1\n{rest * 1000}\n'.encode(), "when")

    def test_an_open_quote_far_down(self):
        """Beyond the rows that are examined first. The rows that the field swallows would be lost."""
        good = ["8:01,b,2"] * 33000
        for end in (good[:1], good[:30], good[:30] + ['8:02,"a",1', *good[:30]], [item.replace(",", ",x") for item in good[:20000]]):
            says = r"row 33002: (a field contains \d+ rows? of the table|field larger than field limit \(131072\)): is a closing quote missing\?"
            with self.assertRaisesRegex(ValueError, says):
                prepare(table(*good, '8:00,"a,1', *end), "when", format="clock")
        # A remark of several lines isn't a row, nor is one with as many commas.
        made = prepare(table(*good, '8:00,"a, b, c\nd, e, f\n\n8:00",1', "8:02,a,3"), "when", format="clock", demand=["long"])
        self.assertEqual((len(made), sum(made.values[0]), made.warned[-1][:5]), (33002, 66004, "times"))

    def test_formulas(self):
        """The rows that were left out are opened in a spreadsheet, where none of them may be a formula."""
        out = io.StringIO()
        rows = "8:00,a,1", '"=HYPERLINK(""http://x"")",b,=1+1', "@SUM(A1),+x,-5", "8:01,-x,y"
        prepare(table(*rows), "when", format="clock", demand=["long"], left_out=out)
        cells = [cell for line in out.getvalue().splitlines()[1:] for cell in line.split(",")]
        self.assertEqual([cell for cell in cells if cell[:1] in ("=", "+", "@")], [])
        self.assertIn("'=1+1", cells)
        self.assertEqual([cell for cell in cells if cell[:1] == "-"], ["-5"])


class Models(InFolder):
    def test_splits(self):
        """A page judges no model: one with a split of many or of invalid outputs is read in little memory."""
        for outputs in "99999999", "xx", "-1", "9" * 5000:
            (node,) = nodes_of(f"model 1\nsplit menu {outputs} turn\n")
            self.assertLess(node.outputs, 1000)

    def test_ranges(self):
        with self.assertRaisesRegex(ValueError, "--set t=1..9999999999: more than 1,048,576 values"):
            values_of("t=1..9999999999")
        self.assertEqual(len(values_of("t=0..1048575")[1]), 1 << 20)

    def test_names_in_comments(self):
        text = "model 1\n# note {x}, {0}, { and {agents}\nsource door\ntrunk desk {agents} d from door\n"
        model = self.file("model.txt", text)
        plan = Plan.of([str(model)], {"agents": [3]}, [str(self.file("trace.csv", "source,time,d\ndoor,0,1\n"))], [])
        self.assertEqual(plan.model(0)[2], text.replace("{agents}", "3"))


class Written(InFolder):
    def test_an_incomplete_file_of_another(self):
        """A file or a link with the name of ours is never written through, nor removed."""
        victim, export, out = self.file("victim", "mine\n"), self.file("calls.csv", "when\n8:00\n"), self.folder / "trace.csv"
        part = self.folder / "trace.csv.00000000.part"
        for made in (lambda: part.symlink_to(victim)), (lambda: part.write_text("mine\n")):
            made()
            with unittest.mock.patch("mpsim.files.secrets.token_hex", return_value="00000000"):
                status, _, err = planner("prepare", export, "--time", "when", "--out", out)
            self.assertEqual((status != 0, f"{out}: File exists" in err, out.exists()), (True, True, False), err)
            self.assertEqual((part.read_text(), victim.read_text()), ("mine\n", "mine\n"))
            part.unlink()


class Started(InFolder):
    def test_a_shard_runs_only_the_package(self):
        """Not a module of the same name in the current directory."""
        for name in "csv", "json", "mpsim":
            self.file(f"{name}.py", "print('hijacked')\n")
        folder = type("Folder", (), {"path": "sweep"})
        words = [*machines.command(folder)[:-4], "--version"]
        ran = subprocess.run(words, cwd=self.folder, capture_output=True, text=True, check=False)
        self.assertRegex((ran.stdout + ran.stderr), r"\Ampplan \d")


if __name__ == "__main__":
    unittest.main()
