"""Traces that are run in pieces: their report is that of one run of the whole trace by mpsim, byte for byte."""

import bz2
import gzip
import io
import os
import pathlib
import random
import subprocess
import sys
import unittest.mock

from commands import InFolder, planner
from ground import DESK, ROOT, Test, text_of

import mpsim
from mpsim import programs
from mpsim.model import nodes_of, servers_of, turned, without_bound
from mpsim.node_visits import percentile_of
from mpsim.sweeps.pieces import NeverEmpty, Unread, fewest_inside, naming, pieces
from mpsim.sweeps.whole import Waits
from mpsim.traces.windows import Windows

sys.path.append(str(ROOT / "check"))
import drawn  # noqa: E402

COUNT = int(os.environ.get("CASES", 150))
KINDS = {"source", "server", "delay", "loss", "tandem", "forkjoin", "split", "fork", "join", "trunk"}
TOLD = "records: each is run by the proved program, and putting their reports together is tested, not proved\n"


def lines_of(text):
    return io.StringIO(text, newline="")


def trace(*records, header="source,time"):
    return "\n".join([header, *records, ""])


class Drawn(InFolder):
    """Random models of all kinds and random traces, as check/compare.py draws them: full of ties, some with an error or a bound."""

    def cases(self):
        for index in range(COUNT):
            draw = drawn.Drawing(f"pieces {index}")
            model = drawn.model_of(draw, errors=0.02)
            rows = drawn.rows_of(draw, model.sources, model.columns, draw.choice((0, 1, 5, 20, 40, 80)))
            if all(int(row[1]) < 1 << 50 for row in rows.records):
                # The longer the gaps, the more often the network is empty.
                gap, jump = draw.choice(((1, 0), (2, 0), (5, 0), (1, 200), (1, 30)))
                for at, row in enumerate(sorted(rows.records, key=lambda row: int(row[1]))):
                    row[1] = str(int(row[1]) * gap + at // 4 * jump)
                rows.records.sort(key=lambda row: int(row[1]))
                yield index, model, drawn.trace_of(draw, rows, errors=0.02), draw.choice((1, 2, 3, 5, 8, 13, 20, 40))

    def answer(self, model, text, most):
        """Returns what pieces give, as the status, output and error line of the program, and how many there are."""
        try:
            report, found = pieces(model, lines_of(text), most)
            return (0, str(report), ""), len(found)
        except mpsim.Error as error:
            return (error.status, "", f"{error.told}\n"), 0

    def test_random_cases(self):
        several, kinds, refused, never = 0, set(), set(), 0
        for index, model, text, most in self.cases():
            paths = [self.folder / "m.txt", self.folder / "t.csv"]
            for path, content in zip(paths, (model.text, text)):
                path.write_bytes(content.encode("latin-1"))
            ran = subprocess.run([programs.find("mpsim"), *paths], stdout=subprocess.PIPE, stderr=subprocess.PIPE)
            wanted = ran.returncode, ran.stdout.decode(), ran.stderr.decode(errors="surrogateescape")
            text = paths[1].read_bytes().decode(errors="surrogateescape")
            with self.subTest(index):
                try:
                    given, count = self.answer(paths[0].read_bytes().decode("utf-8-sig", "surrogateescape"), text, most)
                except NeverEmpty:
                    never += 1
                    continue
                self.assertEqual(given, wanted)
                refused.add(wanted[0])
                if count > 1:
                    several += 1
                    kinds |= {node.kind for node in nodes_of(model.text.replace("\xef\xbb\xbf", ""))}
        if COUNT >= 150:
            self.assertEqual((kinds, refused >= {0, 3, 5}, several > COUNT // 9, never < COUNT // 2), (KINDS, True, True, True))


class Cuts(Test):
    def found(self, model, text, most, **options):
        report, found = pieces(model, lines_of(text), most, **options)
        if not options:
            self.assertEqual(str(report), str(mpsim.run(model, text)))
        return [piece.records for piece in found]

    def test_at_the_tick_of_the_last_departure(self):
        """A record of that tick belongs to the piece: a zero service may be in the middle of things."""
        desk = "model 1\nsource door\nserver desk =4 from door\n"
        for second, sizes in (3, None), (4, None), (5, [1, 1]):
            text = trace("door,0", f"door,{second}")
            if sizes:
                self.assertEqual(self.found(desk, text, 1), sizes)
            else:
                with self.assertRaises(NeverEmpty):
                    self.found(desk, text, 1)
        # Of equal times none is a cut.
        with self.assertRaises(NeverEmpty):
            self.found("model 1\nsource door\n", trace("door,3", "door,3", "door,4"), 1)
        self.assertEqual(self.found("model 1\nsource door\n", trace("door,3", "door,3", "door,4"), 2), [2, 1])

    def test_the_longest_piece(self):
        desk = "model 1\nsource door\nserver desk =4 from door\n"
        text = trace(*(f"door,{at}" for at in (0, 9, 18, 20, 40, 50)))
        self.assertEqual(self.found(desk, text, 3), [2, 3, 1])
        self.assertEqual(self.found(desk, text, 4), [4, 2])
        self.assertEqual(self.found(desk, text, 6), [6])
        self.assertEqual(self.found(desk, trace(), 6), [0])

    def test_delays_overtake(self):
        """A job that came first may be the last to leave."""
        model = "model 1\nsource door\ndelay walk d from door\n"
        text = trace("door,0,30", "door,1,1", "door,20,1", "door,31,2", "door,40,1", header="source,time,d")
        self.assertEqual(self.found(model, text, 4), [4, 1])
        self.assertEqual(self.found(model, text, 3), [3, 2])
        with self.assertRaises(NeverEmpty):
            self.found(model, text, 2)

    def test_splits_by_turns(self):
        """A piece goes on with the output at which the last one ended, also at two splits one after the other, and exits keep their numbers."""
        model = (
            "model 1\nsource door\nsplit one 3 turn from door\nserver ann =2 from one\nsplit two 2 turn from one.1 ann\nserver ben =3 from two.1\n"
        )
        for step in 1, 4, 7:
            text = trace(*(f"door,{at * step + at // 5 * 9}" for at in range(60)))
            for most in 5, 6, 7, 11, 20:
                self.assertGreater(len(self.found(model, text, most)), 1)

    def test_held_visits(self):
        """A part that a join holds for good hinders no cut: it counts in the area and the peak of all later pieces."""
        model = "model 2\nsource door\nfork f 2 from door\nloss a 1 =3 from f\nserver b =1 from f.1\njoin j from a b\n"
        text = trace(*(f"door,{at // 2 * 20 + at % 2}" for at in range(20)))
        self.assertEqual(mpsim.run(model, text)["j"].held, 10)
        self.assertEqual(self.found(model, text, 4), [4] * 5)
        self.assertEqual(mpsim.run(model, text)["j"].peak, 12)

    def test_more_visits_than_one_run_may_have(self):
        """Forks make more visits than records; then a piece has fewer records."""
        model = "model 2\nsource door\n" + "".join(
            f"fork f{at} 4 from {f'all{at - 1}' if at else 'door'}\ndelay all{at} =1 from f{at} f{at}.1 f{at}.2 f{at}.3\n" for at in range(9)
        )
        text = trace(*(f"door,{at * 20}" for at in range(6)))
        with self.assertRaises(mpsim.VisitsError):
            mpsim.run(model, text)
        report, found = pieces(model, lines_of(text))
        self.assertEqual((report.jobs, report["all8"].in_, len(found)), (6, 6 * 4**9, 2))
        self.assertEqual([report["all8"].area, report.exits[0].sojourn], [6 * 4**9, 6 * 9 * 4**9])

    def test_never_empty(self):
        text = trace(*(f"door,{at}" for at in range(10)))
        with self.assertRaisesRegex(NeverEmpty, "from record 1 to 5, "):
            self.found("model 1\nsource door\nserver desk =4 from door\n", text, 5)
        # One record is left of the first piece.
        text = trace("door,0", *(f"door,{at + 9}" for at in range(10)))
        with self.assertRaisesRegex(NeverEmpty, "from record 2 to 6, "):
            self.found("model 1\nsource door\nserver desk =4 from door\n", text, 5)

    def test_cut_anyway(self):
        """Each piece is run without those inside; how many they are is counted."""
        desk = "model 1\nsource door\nserver desk =4 from door\n"
        text = trace(*(f"door,{at * 3}" for at in range(10)))
        report, found = pieces(desk, lines_of(text), 4, True)
        records = [(piece.first, piece.records) for piece in found]
        runs = [mpsim.run(desk, trace(*(f"door,{at * 3}" for at in range(first - 1, first - 1 + count)))) for first, count in records]
        self.assertEqual(sum(count for _, count in records), 10)
        self.assertEqual((report["desk"].wait, report["desk"].area), (sum(run["desk"].wait for run in runs), sum(run["desk"].area for run in runs)))
        self.assertEqual(report.span, max(run.span for run in runs))
        for piece, run in zip(found[:-1], runs):
            at = 3 * (piece.first + piece.records - 1)
            jobs = [3 * record for record in range(piece.first - 1, piece.first + piece.records - 1)]
            leaves, inside = -1, 0
            for came in jobs:
                leaves = max(came, leaves) + 4
                inside += leaves >= at
            self.assertEqual(piece.inside, inside)
        # Where it can be cut, it is.
        report, found = pieces(desk, lines_of(trace("door,0", "door,9", "door,10", "door,11")), 2, True)
        self.assertEqual([(piece.records, piece.inside) for piece in found], [(1, 0), (2, 2), (1, 0)])

    def test_fewest_inside(self):
        drawn_ = random.Random(4)
        for _ in range(200):
            times = sorted(drawn_.randrange(40) for _ in range(9))
            gone = [time + drawn_.randrange(15) for time in times[:-1]]
            inside = {end: sum(left >= times[end] for left in gone[:end]) for end in range(5, 9)}
            least = min(inside.values())
            self.assertEqual(fewest_inside(times, gone), (max(end for end in inside if inside[end] == least), least))


class Errors(InFolder):
    def same(self, model, text, most):
        """Returns the error of one run, which must be that of the pieces."""
        with self.assertRaises(mpsim.Error) as one:
            mpsim.run(model, text.encode())
        with self.assertRaises(mpsim.Error) as many:
            pieces(model, lines_of(text), most)
        for name in "status", "told", "why", "record", "position", "node", "time", "field", "source":
            self.assertEqual(getattr(many.exception, name), getattr(one.exception, name), name)
        return one.exception

    def test_past_the_bound(self):
        """The node of the lowest rank counts, even if its first visit past the bound comes pieces later, and the position among all visits."""
        desk = "model 1\nbound 50\nsource door\nserver desk =4 from door\n"
        self.assertEqual(self.same(desk, trace("door,0", "door,20", "door,48"), 1).position, 2)
        self.assertEqual(self.same(desk, trace("door,0", "door,20", "door,48", "door,60"), 1).node, "door")
        late = "model 1\nbound 50\nsource door\nserver desk =4 from door\nsource gate\nserver till =4 from gate\n"
        self.assertEqual(self.same(late, trace("door,0", "gate,20", "gate,48", "gate,60"), 1).node, "gate")
        self.assertEqual(self.same(late, trace("door,0", "gate,20", "door,48", "gate,60", "door,70"), 1).node, "door")
        self.assertEqual(self.same(late, trace("door,0", "gate,20", "door,48", "gate,60", "gate,70"), 1).node, "desk")

    def test_errors_of_records(self):
        desk = "model 1\nsource door\nserver desk d from door\n"
        rows = ["door,0,1", "door,20,1", "door,40,1"]
        for bad in "door,60,x", "nobody,60,1", "door,60", "door,1152921504606846977,1", "door,-1,1", "door,,1", 'door,"6 0",1':
            self.assertEqual(self.same(desk, trace(*rows, bad, "door,90,1", header="source,time,d"), 1).record, 4)
        self.same(desk, trace("door,0", header="source,time"), 1)
        self.same(desk, "", 1)
        self.same("model 1\nbound 9\n" + desk[8:], trace(*rows, "door,60,x", header="source,time,d"), 1)

    def test_errors_of_models(self):
        for model in "model 9\n", "model 1\nsource door\nserver desk d d from door\n", "model 1\nsource door\nbound 1\nbound 2\n":
            self.same(model, trace("door,0,1", header="source,time,d"), 1)

    def test_order(self):
        with self.assertRaisesRegex(Unread, "^record 3: its time 5 is before that of the record before it, 9 "):
            pieces(DESK, lines_of(trace("door,0,1", "door,9,1", "door,5,1", header="source,time,d")))

    def test_names_of_files(self):
        for error, line in (NeverEmpty("x"), "t.csv: x"), (mpsim.ModelError("model line 1"), "m.txt: model line 1"):
            with self.assertRaises(type(error)) as caught, naming("m.txt", "t.csv"):
                raise error
            self.assertEqual(str(caught.exception), line)


class Command(InFolder):
    def test_a_packed_trace(self):
        """Also with a byte order mark, quotes, empty lines, and other line ends."""
        model = self.file("m.txt", "model 1\nsource door\nserver desk d from door\n")
        texts = [trace(*(f"door,{at * 9 + at % 5},{at % 6}" for at in range(50)), header="source,time,d")]
        texts += [
            "\ufeff" + texts[0],
            texts[0].replace("\n", "\r\n"),
            texts[0].replace("\n", "\n\n"),
            texts[0].replace("door", '"door"'),
            texts[0][:-1],
        ]
        texts += [texts[0].replace("time,d", "time,d,note").replace("\n", ',"a\n""b""é"\n').replace(',note,"a\n""b""é"', ",note")]
        for text in texts:
            wanted = str(mpsim.run(model, text))
            for name, pack in ("t.csv", bytes), ("t.gz", gzip.compress), ("t.bz2", bz2.compress):
                path = self.folder / name
                path.write_bytes(pack(text.encode()))
                status, out, err = planner("run", model, path, "--pieces", "--records", 7)
                self.assertEqual((status, out), (0, wanted), err)
                self.assertRegex(err, f"^mpplan: [0-9]+ pieces of [1-7] to 7 {TOLD}$")

    def test_one_piece(self):
        model, path = ROOT / "examples" / "callcentre" / "model.txt", ROOT / "examples" / "callcentre" / "trace.csv"
        out = self.tells("run", model, path, "--pieces", error=f"mpplan: 1 piece of 10 {TOLD}")
        self.assertEqual(out, text_of(ROOT, "examples", "callcentre", "report.txt"))
        page = self.folder / "run.html"
        self.tells("run", model, path, "--pieces", "--page", page, error=f"mpplan: 1 piece of 10 {TOLD}")
        self.assertIn("</html>", page.read_text())

    def test_never_empty(self):
        model = self.file("m.txt", "model 1\nsource door\nserver desk =4 from door\n")
        path = self.file("t.csv", trace(*(f"door,{at}" for at in range(6))))
        why = "the network is never empty from record 1 to 3, so the trace can't be cut there"
        how = "(--cut-anyway cuts where the fewest jobs are inside; the report is then not exact)"
        self.refuses(f"{path}: {why} {how}", "run", model, path, "--pieces", "--records", 3, status=14)
        status, out, err = planner("run", model, path, "--pieces", "--records", 3, "--cut-anyway")
        self.assertEqual((status, out.splitlines()[1]), (0, "jobs 6 span 12"))
        first, second = err.splitlines(keepends=True)
        self.assertEqual(first, f"mpplan: 3 pieces of 2 {TOLD}".replace("of 2", "of 2 to 2"))
        inside = "4 jobs in all, at most 2 at once, are still inside"
        self.assertEqual(second, f"mpplan: warning: not exact: after 2 of 3 pieces {inside}, and the next piece begins without them\n")

    def test_options(self):
        model, path = ROOT / "examples" / "callcentre" / "model.txt", ROOT / "examples" / "callcentre" / "trace.csv"
        self.refuses("--records requires --pieces", "run", model, path, "--records", 3)
        self.refuses("--cut-anyway requires --pieces", "run", model, path, "--cut-anyway")
        self.refuses("--jobs can't be combined with --pieces: the report of pieces has no job lines", "run", model, path, "--jobs", "--pieces")
        for many in 0, -1, 1048577:
            self.refuses(f"--records {many}: a piece has 1 to 1,048,576 records", "run", model, path, "--pieces", "--records", many)

    def test_a_record_out_of_order(self):
        model = self.file("m.txt", "model 1\nsource door\n")
        path = self.file("t.csv", trace("door,3", "door,1"))
        why = "its time 1 is before that of the record before it, 3 (to run a trace in pieces, sort its records by time)"
        self.refuses(f"{path}: record 2: {why}", "run", model, path, "--pieces")

    def test_errors_name_their_file(self):
        model = self.file("m.txt", "model 1\nsource door\n")
        path = self.file("t.csv", trace("door,3", "gate,5"))
        line = planner("run", model, path, "--pieces", "--records", 1)[2]
        self.assertEqual(line, planner("run", model, path)[2])


class Parts(Test):
    def test_waits(self):
        """The percentiles of counted waits, beside those of the sorted list."""
        drawn_ = random.Random(8)
        for _ in range(200):
            waits, every = Waits(), []
            for _ in range(drawn_.randrange(5)):
                some = [drawn_.choice((0, 0, 1, 5, drawn_.randrange(30))) for _ in range(drawn_.randrange(20))]
                counts = {}
                for wait in some + [-1, -2]:
                    counts[wait] = counts.get(wait, 0) + 1
                waits.add(len(some), counts)
                every += some
            for percent in 50, 90, 99, 1, 100:
                self.assertEqual(waits.percentile(percent), percentile_of(sorted(every), percent))

    def test_windows(self):
        """Only a window and the record after it are read, also by the number of bytes."""
        taken = []

        def lines():
            yield "source,time\n"
            for at in range(100):
                taken.append(at)
                yield f"door,{at + 100}\n"

        windows = Windows(lines(), 10)
        self.assertEqual((windows.fill(), len(taken), windows.is_last(10)), (10, 11, False))
        self.assertEqual(windows.take(4), b"source,time\n" + b"".join(b"door,%d\n" % (at + 100) for at in range(4)))
        self.assertEqual((windows.fill(), len(taken), windows.before, windows.times[0]), (10, 15, 4, 104))
        windows = Windows(lines(), 10, size=12 + 3 * 9)
        self.assertEqual((windows.fill(), windows.text(3)[-9:]), (3, b"door,102\n"))
        windows = Windows(lines(), 100)
        self.assertEqual((windows.fill(), windows.is_last(100)), (100, True))
        windows.take(100)
        self.assertEqual(windows.fill(), 0)

    def test_models(self):
        text = "model 1\n# split x 2 turn from a.1\nbound 7\n \tbound\t8\nsource a\nsplit\tx 3 turn from a\n"
        text += "delay b =1 from x.2  x.1\r\ndelay c =1 from x\n"
        free = without_bound(text).split("\n")
        self.assertEqual((free[1:4], free[4:]), (["# split x 2 turn from a.1", "#bound 7", " \t#bound\t8"], text.split("\n")[4:]))
        self.assertEqual(turned(text, {"x": 2}).split("\n")[6:8], ["delay b =1 from x.0 x.2", "delay c =1 from x.1"])
        self.assertEqual((turned(text, {"x": 0}), turned(text, {})), (text, text))
        for kind, arguments, servers in (
            ("tandem", "=1 / 2 d / 4 =0", 3),
            ("forkjoin", "d =1 | e", 3),
            ("loss", "5 d", 1),
            ("trunk", "12 d", 12),
            ("split", "2 turn", 0),
        ):
            self.assertEqual(servers_of(nodes_of(f"{kind} x {arguments} from a\n")[0]), servers)


if __name__ == "__main__":
    unittest.main()
