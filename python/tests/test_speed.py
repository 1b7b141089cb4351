"""What makes long exports and reports fast: many rows at once, with the same results as one by one."""

import contextlib
import csv
import io
import random
import sys
import unittest
import unittest.mock
from datetime import datetime, timedelta

from ground import DESK, Test
from test_prepare import table

import mpsim
from mpsim.exports.delimited import Export
from mpsim.exports.prepare import prepare
from mpsim.exports.records import Records
from mpsim.exports.table import Table
from mpsim.exports.workbook import Workbook
from mpsim.job_lines import is_read
from mpsim.leaving import ends_of
from mpsim.report import Reading
from mpsim.tables import sojourns
from mpsim.times.moments import Moments
from mpsim.times.texts import Unread
from mpsim.times.zones import Zone
from mpsim.traces.trace import fields_up_to

ONE_BY_ONE = unittest.mock.patch.object(Records, "many", side_effect=Unread("one by one"))
AT_ONCE = unittest.mock.patch.object(Records, "of", side_effect=AssertionError("a row was read alone"))


class Moment(Test):
    """A column of times that is read at once gives what its texts give one by one, or refuses."""

    def many(self, form, texts, zone=None):
        """Returns the moments read at once, or None if they are refused; they must be those read one by one."""
        try:
            found = Moments(form, Zone(zone)).many(texts)
        except Unread:
            return None
        self.assertEqual(list(found), [Moments(form, Zone(zone)).of(text) for text in texts], texts)
        return found

    def test_cut_at_one_place(self):
        for form, texts in (
            ("%d.%m.%Y %H:%M:%S", ["02.03.2026 08:00:17", "31.12.2025 23:59:60", "02.03.2026  8:00"]),
            ("%m/%d/%Y %I:%M %p", ["03/02/2026 08:00 PM", "03/02/2026 8:00 AM"]),
            ("iso", ["2026-03-02T08:00:17", "2026-03-02 08:00", "2026-03-02"]),
            ("iso", ["20260302T080017Z", "20260302T0800+01:00"]),
            ("ticks", ["0", "17", "00017"]),
            ("unix", ["1772438417", "0"]),
        ):
            self.assertIsNotNone(self.many(form, texts), texts)

    def test_places_that_differ(self):
        """Days of one and of two digits, spaces before and after, tabs, and texts that end within the day."""
        for form, texts in (
            ("%d.%m.%Y %H:%M", ["2.3.2026 08:00", "12.3.2026 08:00"]),
            ("%d.%m.%Y %H:%M", ["12.3.2026 08:00", "2.3.2026 08:00"]),
            ("%d.%m.%Y %H:%M", [" 2.3.2026 08:00", "12.3.2026 08:00 "]),
            ("%d.%m.%Y %H:%M", ["02.03.2026\t08:00", "02.03.2026 08:00"]),
        ):
            self.assertIsNotNone(self.many(form, texts), texts)

    def test_clocks_of_one_width(self):
        """Digits that are read as columns: one day and several, before 1970 and late, in a zone too; and with one character that differs."""
        draw, read = random.Random(4), 0
        begins = [datetime(*day) for day in ((2026, 3, 2), (2026, 3, 31), (1969, 12, 31), (2026, 10, 24), (1999, 12, 31))]
        for form, shown in (
            ("iso", "%Y-%m-%dT%H:%M:%S"),
            ("iso", "%Y-%m-%d %H:%M:%S"),
            ("iso", "%Y%m%d %H:%M:%S"),
            ("%d.%m.%Y %H:%M:%S", "%d.%m.%Y %H:%M:%S"),
            ("%m/%d/%y, %H:%M:%S", "%m/%d/%y, %H:%M:%S"),
        ):
            for _ in range(300):
                first, size, days = draw.choice(begins), draw.randrange(1, 6), draw.choice([1, 2, 40])
                some = [first + timedelta(draw.randrange(days), draw.randrange(86400)) for _ in range(size)]
                texts, zone = [it.strftime(shown) for it in some], draw.choice([None, "Europe/Berlin"])
                slow = Unread if zone or min(some).year < 1970 else AssertionError
                with unittest.mock.patch.object(Moments, "_cut", side_effect=slow("not at once")):
                    read += self.many(form, texts, zone) is not None
                text, place = draw.choice(texts), draw.randrange(len(texts[0]))
                self.many(form, [*texts, text[:place] + draw.choice(" T:-.0129/6x\u0662\t") + text[place + 1 :]], zone)
        self.assertGreater(read, 900)
        self.assertIsNotNone(self.many("iso", ["2262-04-11 23:59:59", "9999-12-31 23:59:59", "2255-03-14 00:00:00"]))
        self.assertIsNotNone(self.many("iso", ["2026-03-02 24:00:00", "2026-03-02 23:59:60", "2026-03-02 08:00:00"]))

    def test_refused(self):
        for form, texts in (
            ("%d.%m.%Y %H:%M", ["02.03.2026 08:00", "02.03.2026"]),
            ("%d.%m.%Y %H:%M", ["02.03.2026 08:00", ""]),
            ("%d.%m.%Y %H:%M", ["02.03.2026 08:00", "32.03.2026 08:00"]),
            ("iso", ["2026-03-02T08:00", "20260302T0800"]),
            *(("iso", ["2026-03-02 08:00:00", f"2026-03-02 {clock}"]) for clock in ("24:30:00", "24:00:01", "25:00:00", "08:60:00", "08:00:61")),
            ("iso", ["2026-03-02T08:00", "2026-03-02T08:00Z"]),
            ("ticks", ["1", ""]),
            ("ticks", ["1", " 2"]),
            ("ticks", ["1", "-2"]),
            ("ticks", ["1", "1.5"]),
            ("ticks", ["1", "\u0662"]),
            ("ticks", ["1", "1" * 201]),
            ("ticks", ["1", "1" * 5000]),
        ):
            self.assertIsNone(self.many(form, texts), texts)
        # Clocks are set back on this day.
        self.assertIsNone(self.many("iso", ["2026-10-25T02:30", "2026-10-25T08:00"], "Europe/Berlin"))


class AtOnce(Test):
    """Exports without doubtful rows are read without a row read alone."""

    def same(self, data, *words, **options):
        with AT_ONCE:
            fast = prepare(data, *words, **options)
        with ONE_BY_ONE:
            slow = prepare(data, *words, **options)
        for name in "header", "names", "told", "warned", "zero", "codes", "left":
            self.assertEqual(getattr(fast, name), getattr(slow, name), name)
        self.assertEqual("".join(fast.lines()), "".join(slow.lines()))
        return fast

    def rows(self, count, *forms, step=30):
        """Returns rows with a time in each format, the next up to two minutes after the last, and a length."""
        drawn, at = random.Random(3), datetime(2026, 3, 2, 8)
        for _ in range(count):
            at += timedelta(seconds=drawn.randrange(step))
            later, shown = at, []
            for form in forms:
                shown.append(later.strftime(form))
                later += timedelta(seconds=drawn.randrange(120), milliseconds=drawn.randrange(1000))
            yield ",".join([*shown, drawn.choice("abc"), str(drawn.randrange(500))])

    def export(self, header, *forms, **options):
        return "\n".join([header, *self.rows(3000, *forms, **options), ""]).encode()

    def test_a_length(self):
        data = self.export("when,who,long", "%d.%m.%Y %H:%M:%S")
        self.assertEqual(len(self.same(data, "when", source="who", demand=["long=d"])), 3000)

    def test_ends(self):
        """From the answer to the end, in ticks of a tenth of a second, in a zone too."""
        data = self.export("when,answered,end,who,long", *["%Y-%m-%d %H:%M:%S.%f"] * 3)
        options = {"source": "who", "answered": ["answered"], "end": ["end=talk"], "tick": "100ms"}
        for more in {}, {"zone": "Europe/Berlin"}, {"zone": "Europe/Berlin", "twice": "first"}, {"demand": ["long=talk"]}:
            made = self.same(data, "when", **options, **more)
        self.assertGreater(len(set(made.values[0])), 500)

    def test_an_end_that_needs_care(self):
        """An end before the beginning, an empty one, and one that is too late, among good ones: read alone, and left out."""
        begin = [f"2026-03-02 08:00:{at:02},2026-03-02 08:01:{at:02}" for at in range(50)]
        for bad, why in ("2026-03-02 08:00:00", "before"), ("", "empty"), ("2200-01-01 00:00:00", "2\\^36"):
            rows = "\n".join(["when,end", *begin, f"2026-03-02 08:02:00,{bad}", ""]).encode()
            made = prepare(rows, "when", end=["end=d"], tick="1ms", far=True)
            self.assertEqual((len(made), list(made.left.values())), (50, [1]))
            self.assertRegex(" ".join(made.left), why)

    def test_ticks(self):
        rows = [f"{at * 7 % 3001},{at % 5}" for at in range(3000)]
        self.assertEqual(len(self.same("\n".join(["time,d", *rows, ""]).encode(), "time", format="ticks", demand=["d:ticks"])), 3000)

    def test_order(self):
        """Equal times in the order of the sources, times that go back within a tick, and records that are in order already."""
        for rows, order in (
            (["2026-03-02 08:00:00.0,b,1", "2026-03-02 08:00:00.5,a,2", "2026-03-02 08:00:00.6,b,3"], "132"),
            (["2026-03-02 08:00:00.9,a,1", "2026-03-02 08:00:00.5,b,2"], "12"),
            (["2026-03-02 08:00:00.9,a,1", "2026-03-02 08:00:00.5,a,2"], "21"),
            (["2026-03-02 08:00:01,a,1", "2026-03-02 08:00:00,b,2"], "21"),
            (["2026-03-02 08:00:00,a,1", "2026-03-02 08:00:00,b,2", "2026-03-02 08:00:01,a,3"], "123"),
        ):
            made = prepare(table(*rows), "when", source="who", demand=["long=d"])
            self.assertEqual("".join(str(value) for value in made.values[0]), order, rows)
            self.assertEqual("records are sorted by time" in " ".join(made.told), order != "".join(sorted(order)))

    def test_texts_without_quotes(self):
        """They are split as a CSV reader splits them: rows of any number of fields, empty lines, ends of lines of three kinds, and then a quote."""
        draw, quick = random.Random(6), 0
        for _ in range(300):
            ends = draw.choice([["\n"], ["\r\n"], ["\n", "\r\n"], ["\r"], ["\n", "\r"]])
            fields = draw.choice([["a", "", " b", "\u2028c\x0b", "1,5"], ["a", '"b;\n"', ""], ["", "x" * 300], ["a", "\0"]])
            lines = [";".join(draw.choices(fields, k=draw.randrange(5))) + draw.choice(ends) for _ in range(draw.randrange(40))]
            text = "when;long\n" + "".join(lines) + draw.choice(["", "\n", "a;b", '"a"'])
            skip = draw.randrange(2)
            export, found = Export(("skipped\n" * skip + text).encode(), "utf-8", ";", skip), []
            for chunks in Table.chunks, Export.chunks:
                rows, numbers, all_lines, error = [], [], 0, None
                try:
                    with fields_up_to(250):
                        for number, some, took in chunks(export, 4):
                            numbers += [number + at for at in range(len(some))]
                            rows, all_lines = rows + some, all_lines + took
                except csv.Error as problem:
                    error = str(problem)
                found.append((error, *([] if error else [numbers, rows, all_lines])))
            self.assertEqual(found[0], found[1], text)
            quick += len(found[0]) > 1 and not set('"\r\0') & set(text.replace("\r\n", "\n"))
        self.assertGreater(quick, 30)

    def test_times_between_ticks(self):
        made = prepare(table("2026-03-02 08:00:00.5,a,1", "2026-03-02 08:00:01.5,a,1", "2026-03-02 08:00:02,a,1"), "when", begin="first")
        self.assertIn("1 time between two ticks, rounded down", made.told)
        self.assertEqual(list(made.times), [0, 1, 1])


class Sheet(Test):
    def test_a_sheet_without_its_size(self):
        """It isn't read to its end before its first row."""
        try:
            import openpyxl
            from openpyxl.worksheet._reader import WorkSheetParser
        except ImportError:
            raise unittest.SkipTest("needs openpyxl") from None
        from mpsim.exports.streams import Stream

        book = openpyxl.Workbook(write_only=True)
        book.create_sheet("a").append(["when", "long"])
        made = io.BytesIO()
        book.save(made)
        with unittest.mock.patch.object(WorkSheetParser, "parse_dimensions", side_effect=AssertionError("read to its end")):
            self.assertEqual(Workbook(Stream(made.getvalue())).header, ["when", "long"])
        # Outside, the library is as it was.
        self.assertEqual(openpyxl.load_workbook(io.BytesIO(made.getvalue()), read_only=True).worksheets[0].title, "a")


# Losses, forks whose parts meet again or leave apart, joins that hold parts, two sources, and one whose jobs leave at once.
NETWORKS = (
    DESK,
    "model 1\nsource door\nsource gate\nloss desk 2 =9 from door gate\nserver second d from desk\n",
    "model 2\nsource door\nfork apart 2 from door\ndelay short =3 from apart.0\ndelay long d from apart.1\n",
    "model 2\nsource door\nfork apart 3 from door\nserver one d from apart.0 apart.1 apart.2\n",
    "model 2\nsource door\nfork apart 2 from door\ndelay short =1 from apart.1\nloss one 1 d from apart.0 short\n",
    "model 1\nsource door\nsource gate\nserver desk d from door\n",
    "model 2\nsource door\nsource gate\ntrunk desk 3 d from door gate\nserver second =1 from desk\n",
    "model 2\nsource door\nfork apart 2 from door\nloss one 1 d from apart.0\ndelay two d from apart.1\njoin both from one two\n",
)


@contextlib.contextmanager
def by_numpy(numpy):
    """Computes with numpy, however few visits there are; without it if it is None."""
    with contextlib.ExitStack() as stack:
        for module in "mpsim.report", "mpsim.leaving", "mpsim.tables.sojourns":
            stack.enter_context(unittest.mock.patch(f"{module}.numpy_for", return_value=numpy))
        yield


def hidden_numpy():
    """Makes an import of numpy fail."""
    return unittest.mock.patch.dict(sys.modules, {"numpy": None})


class Sojourn(Test):
    def reports(self):
        for at, model in enumerate(NETWORKS):
            drawn, time, rows = random.Random(at), 0, []
            for _ in range(400):
                time += drawn.randrange(4)
                rows.append((drawn.choice(["door", "gate"] if "gate" in model else ["door"]), time, drawn.randrange(9)))
            yield mpsim.run(model, rows, jobs=True)

    def test_with_numpy_and_without(self):
        """The same table, by the same numbers."""
        try:
            import numpy
        except ImportError:
            raise unittest.SkipTest("needs numpy") from None
        for report in self.reports():
            plain, tables = [list(column) for column in sojourns.ways(report)], self.tables(report)
            with by_numpy(numpy):
                self.assertEqual([list(column) for column in sojourns.ways(report)], plain)
                self.assertEqual(repr(self.tables(report)), repr(tables))

    def tables(self, report):
        return [list(sojourns.table(report, by, (3,))) for by in ("both", "source", "end", "all")]

    def test_few_visits_need_no_numpy(self):
        with hidden_numpy():
            self.assertEqual(sum(map(len, map(list, map(sojourns.table, self.reports())))) > 4, True)

    def test_readings(self):
        """A Reading, of which only some visits are read, gives what the whole report gives, in pieces of any size, with numpy and without."""
        for report in self.reports():
            text, wanted = "".join(report.lines()).encode(), [list(column) for column in sojourns.ways(report)]
            for size in 1, 100, 1000, 1 << 19:
                for numpy in {None, self.numpy()}:
                    with unittest.mock.patch("mpsim.report.CHUNK", size), by_numpy(numpy):
                        self.assertEqual([list(column) for column in sojourns.ways(Reading(text))], wanted)

    def numpy(self):
        with contextlib.suppress(ImportError):
            import numpy

            return numpy
        return None

    def test_altered_lines(self):
        """A report in which one character differs is read, or rejected with the same words, with numpy as without."""
        numpy, draw, read = self.numpy(), random.Random(8), 0
        if numpy is None:
            raise unittest.SkipTest("needs numpy")
        for report in self.reports():
            whole = "".join(report.lines()).encode()
            begin = whole.index(b"\njob ") + 1
            for _ in range(50):
                text, at = bytearray(whole), draw.randrange(begin, len(whole))
                text[at : at + draw.choice([0, 1, 1, 1, 2])] = draw.choice(
                    [b"", b"0", b"1", b"9" * 9, b"9" * 20, b" ", b"\n", b"-", b"x", b"\xb2", b"\0"]
                )
                found = []
                for each in None, numpy:
                    with unittest.mock.patch("mpsim.report.CHUNK", draw.choice([500, 1 << 17])), by_numpy(each):
                        try:
                            found.append("".join(Reading(bytes(text)).report().lines()))
                        except mpsim.errors.ReportError as error:
                            found.append(str(error))
                self.assertEqual(found[0], found[1], (at, whole[at - 20 : at + 20], text[at - 20 : at + 20]))
                read += found[0].encode() == text
        self.assertGreater(read, 3)

    def test_lines_read_at_once(self):
        """Numbers of up to sixteen digits, and names with digits and of any length; not lost or held visits, nor longer numbers."""
        numpy = self.numpy()
        if numpy is None:
            raise unittest.SkipTest("needs numpy")
        draw = random.Random(9)
        for name in "a", "desk", "d1o2o3r", "x" * 32, "arrive", "job", "a_1234567":
            for digits in 1, 7, 8, 9, 15, 16, 17:
                rows = [(draw.randrange(1, 1 << 20), *(draw.randrange(10 ** draw.randrange(1, digits + 1)) for _ in range(3))) for _ in range(99)]
                rows[5] = 7, 10**digits - 1, 0, 10 ** (digits - 1)
                text = "".join(f"job {job} {name} arrive {arrive} wait {wait} depart {depart}\n" for job, arrive, wait, depart in rows)
                visits = mpsim.NodeVisits(name)
                self.assertEqual(is_read(visits, text.encode(), 1 << 20, numpy), digits <= 16)
                found = list(zip(visits.job, visits.arrive, visits.raw_wait, visits.raw_depart))
                self.assertEqual(found, rows if digits <= 16 else [])
        good, bad = b"job 1 desk arrive 2 wait 3 depart 5\n", mpsim.NodeVisits("desk")
        for old, new in (b"5", b"05"), (b"3", b""), (b"1", b"0"), (b"1", b"9"), (b"b 1", b"b1 "), (b"5\n", b"\n5"):
            line = good.replace(old, new)
            for lines in line + good, good + line, good * 2 + line:
                self.assertFalse(is_read(bad, lines, 8, numpy), lines)
        words = (b"job", b"jab"), (b"desk", b"dusk"), (b"arrive", b"arrivf"), (b"wait", b"waix"), (b"depart", b"deport")
        for old, new in *words, (b"3", b"-3"), (b"3", b"x"), (b"\n", b" "), (good[-1:], b""), (good, b""), (b"wait 3 depart 5", b"lost"):
            self.assertFalse(is_read(bad, good.replace(old, new) * 3, 8, numpy), new)
        self.assertEqual((len(bad), is_read(bad, good, 8, numpy), list(bad.depart)), (0, True, [5]))

    def test_only_where_jobs_may_leave(self):
        """The visits that say nothing of sojourns aren't read."""
        rows = [("door", time, 3) for time in range(9)]
        for model, ends in (
            (DESK + "delay out =1 from desk\n", {"door", "out"}),
            ("model 1\nsource door\nloss desk 2 =9 from door\nserver second d from desk\n", {"door", "desk", "second"}),
            (NETWORKS[-1] + "delay out =1 from both\n", {"door", "one", "both", "out"}),
        ):
            reading = Reading("".join(mpsim.run(model, rows, jobs=True).lines()))
            self.assertEqual(ends_of(reading), ends)
            self.assertEqual({piece.node for piece in reading.pieces(ends)}, ends)

    def test_against_a_second_reading(self):
        """Each job leaves at its last visit with the latest end."""
        for report in self.reports():
            last, came, where, held = {}, {}, {}, set()
            for visit in report.visits.each():
                held |= {visit.job} if visit.end == "held" else set()
                end = visit.arrive if visit.depart is None else visit.depart
                came.setdefault(visit.job, visit.arrive)
                if end >= last.get(visit.job, -1):
                    last[visit.job], where[visit.job] = end, (visit.node, visit.end == "lost")
            found = list(sojourns.sojourns(report))
            self.assertEqual(
                [(it.job, it.came, it.sojourn, (it.left_at, it.lost)) for it in found],
                [(job, came[job], last[job] - came[job], where[job]) for job in sorted(came.keys() - held)],
            )


if __name__ == "__main__":
    unittest.main()
