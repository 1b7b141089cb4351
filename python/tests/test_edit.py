"""A trace with changed records: each form of a change, each error, and which bytes stay as they were."""

import csv
import os
import random
import unittest
from unittest import mock

from changing import CALLS, EXPECTED, TIME, VALUE, Changing
from commands import planner
from ground import Test, text_of

from mpsim.traces import edit
from mpsim.traces.edit import stepped


class Steps(Test):
    def test_products_are_rounded_half_up(self):
        for old, by, made in (
            (5, "1.1", 6), (4, "1.1", 4), (15, "0.1", 2), (14, "0.1", 1), (1, "0.5", 1), (3, "0.5", 2), (5, "0.5", 3), (7, "0", 0), (7, "2", 14),
            # Halves in tenths, which floats miss; and more digits than floats have.
            (1005, "0.001", 1), (35, "1.1", 39), (45, "1.1", 50), (TIME - 1, "1.0", TIME - 1), (VALUE - 1, "1.00000000000000000001", VALUE - 1),
        ):
            self.assertEqual(stepped(old, "*", by), made, (old, by))
        draw = random.Random(3)
        for _ in range(2000):
            old, whole, part = draw.randrange(10**6), draw.randrange(4), draw.randrange(100)
            # With whole numbers only: the product in hundredths, rounded half up.
            self.assertEqual(stepped(old, "*", f"{whole}.{part:02}"), (old * (100 * whole + part) + 50) // 100)
        self.assertEqual((stepped(3, "+", "007"), stepped(3, "-", "5")), (10, -2))


class Forms(Changing):
    """The output of a call."""

    def test_each_form(self):
        a, b, c = CALLS.splitlines(keepends=True)[1:]
        counts = "3 records (from 3): 1 changed, 0 added, 0 removed"
        for changes, wanted in (
            ("record,time\n3,20\n", "phone,20,2,0,z\n"),
            ("record,time\n3,+3600\n", "phone,3609,2,0,z\n"),
            ("record,time\n3,-9\n", "phone,0,2,0,z\n"),
            ("record,g\n3,*2\n", "phone,9,4,0,z\n"),
            ("record,g\n3,*1.25\n", "phone,9,3,0,z\n"),
            ("record,source\n3,web\n", "web,9,2,0,z\n"),
            ("record,source\n3,branch_2\n", "branch_2,9,2,0,z\n"),
            ("record,note\n3,\"x, \"\"y\"\"\"\n", 'phone,9,2,0,"x, ""y"""\n'),
            ("record,note,time,g\n3,,+1,\n", "phone,10,2,0,z\n"),
            ("record,empty\n3,note\n", "phone,9,2,0,\n"),
            ("record,empty,g\n3,note,+1\n", "phone,9,3,0,\n"),
            # In a column with texts other than numbers a value is taken literally.
            ("record,note\n3,+5\n", "phone,9,2,0,+5\n"),
            ("record,note\n3,*1.5\n", "phone,9,2,0,*1.5\n"),
            ("record,note\n3,-7\n3,+49 30 5555\n", "phone,9,2,0,+49 30 5555\n"),
            ("record,g,source,kind\n3,007,web,*0\n", "web,9,007,0,z\n"),
            # In order: the second works on the result of the first.
            ("record,g\n3,+1\n3,*2\n", "phone,9,6,0,z\n"),
            ("record,g\n00000000000000000003,+0\n", c),
        ):
            self.assertEqual(self.rows(changes, told=counts), [a, b, wanted], changes)
        self.assertEqual(self.rows("record,g\n2-3,*10\n"), [a, "web,5,10,1,\n", "phone,9,20,0,z\n"])
        self.assertEqual(self.rows("record,g\n2-2,*10\n"), [a, "web,5,10,1,\n", c])
        self.assertEqual(self.rows("record,g\n1-3,+0\n", told="3 records (from 3): 3 changed, 0 added, 0 removed")[1:], [b, c])

    def test_nothing(self):
        counts = "3 records (from 3): 0 changed, 0 added, 0 removed"
        for changes in "record\n", "record,time\n", "record,time\n3,\n", "record,time\n\n,\n\r\n", "\ufeff\nrecord,time", 'record\n"2"\n':
            self.assertEqual(self.made(changes, told=counts), CALLS)
        for changes in "", "\n", "\ufeff", " \t\r\n":
            self.assertEqual(self.made(changes, CALLS, "--model", self.file("m.txt", "model 1\nsource phone\n"), told=counts), CALLS)

    def test_a_record_more(self):
        rows = self.rows("record,source,time,g,kind,note\n+,web,7,1,2,x\n", told="4 records (from 3): 0 changed, 1 added, 0 removed")
        self.assertEqual(rows[3:], ["web,7,1,2,x\n"])
        # It has the next number, whatever is removed, and counts as added however often it is changed.
        changes = "record,out,note,kind,g,time,source\n1,yes,,,,,\n+,,x,2,1,7,web\n4,,,,,+3,\n+,,y,2,1,7,web\n5,,y y,,*3,,\n"
        rows = self.rows(changes, told="4 records (from 3): 0 changed, 2 added, 1 removed")
        self.assertEqual(rows, [*CALLS.splitlines(keepends=True)[2:], "web,10,1,2,x\n", "web,7,3,2,y y\n"])
        rows = self.rows("record,source,time\n+,a,5\n+,a,6\n1-2,,+1\n", "source,time\n")
        self.assertEqual(rows, ["a,6\n", "a,7\n"])
        # A text may be empty, like those of the trace.
        for names, values in ("", ""), (",note", ","), (",empty", ",note"):
            self.assertEqual(self.rows(f"record,source,time,g,kind{names}\n+,web,7,1,2{values}\n")[3:], ["web,7,1,2,\n"])

    def test_texts_and_numbers(self):
        """The model, or without one the trace, decides whether a column is text; a value means the same in an added and in a changed record."""
        model, changes = ("--model", self.file("m.txt", "model 1\nsource web\nserver s g from web\n")), self.folder / "c.csv"
        trace, second = "source,time,g,caller,n\nweb,5,20,030222,7\nweb,6,20,,8\n", "web,6,20,,8\n"
        counts, lacks = "2 records (from 2): 1 changed, 0 added, 0 removed", "because the model doesn't name this column"
        for name, word, words, row, why in (
            ("caller", "+49305555", model, "web,5,20,+49305555,7\n", lacks),
            ("caller", "+49305555", (), "web,5,20,+49305555,7\n", "because not all values of this column are numbers"),
            ("code", "+49305555", (), "web,5,20,030222,+49305555\n", 'because this column has "07", with a leading 0'),
            ("code", "+1", ("--model", self.file("m2.txt", "model 1\nsource web\nserver s code from web\n")), "web,5,20,030222,8\n", None),
            ("n", "+3", model, "web,5,20,030222,+3\n", lacks),
            ("n", "+3", (), "web,5,20,030222,10\n", None),
            ("g", "+3", model, "web,5,23,030222,7\n", None),
            ("caller", "030", model, "web,5,20,030,7\n", None),
        ):
            with self.subTest(name, word=word, words=words):
                told = f'{changes}: row 2: "{name}" of record 1: "{word}" is stored as text, {why}\nmpplan: ' if why else ""
                # The last column has a number with a leading 0, as a code does.
                given, behind = (trace.replace(",n\n", ",code\n").replace(",7\n", ",07\n"), second) if name == "code" else (trace, second)
                self.assertEqual(self.rows(f"record,{name}\n1,{word}\n", given, *words, told=told + counts), [row, behind])
        # A time is a number, and so is 0.
        self.assertEqual(self.rows("record,time,n\n1,+1,+2\n", "source,time,n\nweb,05,0\n"), ["web,6,2\n"])
        told = f'{changes}: row 3: "n" of record 1: "+2" is stored as text, because the trace has no records'
        counts_of_one = "1 record (from 0): 0 changed, 1 added, 0 removed"
        changed = self.rows("record,source,time,n\n+,web,7,1\n1,,,+2\n", "source,time,n\n", told=f"{told}\nmpplan: {counts_of_one}")
        self.assertEqual(changed, ["web,7,+2\n"])
        # It is reported once per column, for the first number replaced by a text.
        told = f'{changes}: row 2: "caller" of record 1: "+1" is stored as text, {lacks}\nmpplan: {counts.replace("1 changed", "2 changed")}'
        rows = self.rows("record,caller\n1-2,+1\n1,5\n1-2,*2\n", trace, *model, told=told)
        self.assertEqual(rows, ["web,5,20,*2,7\n", "web,6,20,*2,8\n"])
        rows = self.rows("record,source,time,g,caller,n\n+,web,7,1,+1,+2\n3,,,,+1,+2\n", trace, *model)
        self.assertEqual(rows[2], "web,7,1,+1,+2\n")

    def test_a_column_that_is_called_empty(self):
        """It is changed like any other, and nothing is emptied there."""
        trace = "source,time,empty,note\na,0,1,x\n"
        self.assertEqual(self.rows("record,empty\n1,4\n", trace), ["a,0,4,x\n"])
        self.assertEqual(self.rows("record,empty,out\n1,+4,\n", trace), ["a,0,5,x\n"])
        self.refused('"empty" of record 1: "note" is not a number, +N, -N, *N or +N%', "record,empty\n1,note\n", trace)
        self.refused('"Empty" is not a column of the trace; it has source, time, empty, note', "record,Empty\n1,4\n", trace, where=": row 1: ")
        self.assertEqual(self.rows("record,empty,Empty\n1,Empty,\n", trace.replace("empty", "Empty").replace(",1,", ",b,")), ["a,0,,x\n"])

    def test_a_record_out(self):
        """Later records keep their numbers."""
        a, b, c = CALLS.splitlines(keepends=True)[1:]
        self.assertEqual(self.rows("record,out\n2,yes\n", told="2 records (from 3): 0 changed, 0 added, 1 removed"), [a, c])
        self.assertEqual(self.rows("record,out\n1-3,yes\n", told="0 records (from 3): 0 changed, 0 added, 3 removed"), [])
        changes = "record,out,time\n1,yes,\n3,,+1\n2,yes,\n"
        self.assertEqual(self.rows(changes, told="1 record (from 3): 1 changed, 0 added, 2 removed"), ["phone,10,2,0,z\n"])
        # A record that is changed and then removed is removed; one that is added and then removed never existed.
        self.assertEqual(self.rows("record,g,out\n1,5,\n1,,yes\n", told="2 records (from 3): 0 changed, 0 added, 1 removed"), [b, c])
        changes = "record,source,time,out\n+,b,5,\n2,,,yes\n+,b,6,\n3,,+1,\n"
        self.assertEqual(self.rows(changes, "source,time\na,0\n", told="2 records (from 1): 0 changed, 1 added, 0 removed"), ["a,0\n", "b,7\n"])

    def test_all_records_and_those_to_the_end(self):
        """`*` is every record that is left, those added before included; `2-` goes to the end."""
        trace = "source,time,d\na,0,10\na,5,20\na,9,30\n"
        told = "3 records (from 3): 3 changed, 0 added, 0 removed"
        self.assertEqual(self.rows("record,d\n*,+1\n", trace, told=told), ["a,0,11\n", "a,5,21\n", "a,9,31\n"])
        self.assertEqual(self.rows("record,d\n2-,*2\n", trace), ["a,0,10\n", "a,5,40\n", "a,9,60\n"])
        changes = "record,source,time,d,out\n+,b,7,40,\n2,,,,yes\n*,,+1,,\n3-,,,+1,\n"
        told = "3 records (from 3): 2 changed, 1 added, 1 removed"
        self.assertEqual(self.rows(changes, trace, told=told), ["a,1,10\n", "a,10,31\n", "b,8,41\n"])
        told = "0 records (from 3): 0 changed, 0 added, 3 removed"
        self.assertEqual(self.rows("record,out\n2,yes\n*,yes\n", trace, told=told), [])
        self.assertEqual(self.rows("record,out\n3-,yes\n", trace), ["a,0,10\n", "a,5,20\n"])
        self.refused('record "4-": expected a number from 1 to 3, a range as 100-109 or 100-, *, or +', "record,time\n4-,1\n", trace)

    def test_percent(self):
        """Exact, and rounded half up."""
        trace = "source,time,d\n" + "".join(f"a,0,{value}\n" for value in (0, 1, 4, 5, 10, 25, 1000, 10**9 + 7))
        for text, factor in ("+12%", (112, 100)), ("-10%", (9, 10)), ("+12.5%", (1125, 1000)), ("+0.2 %", (1002, 1000)), ("+250%", (35, 10)):
            want = [(2 * value * factor[0] + factor[1]) // (2 * factor[1]) for value in (0, 1, 4, 5, 10, 25, 1000, 10**9 + 7)]
            self.assertEqual(self.rows(f"record,d\n*,{text}\n", trace), [f"a,0,{it}\n" for it in want])
        self.assertEqual(self.rows("record;d\n*;+12,5%\n", "source,time,d\na,0,8\n"), ["a,0,9\n"])
        self.refused('"d" of record 1: "-150%" turns 10 into -5, which is below 0', "record,d\n1,-150%\n", "source,time,d\na,0,10\n")
        says = '"d" of record 1: "+1,5%" is not a valid +N%: in a comma-separated file, write a decimal point'
        self.refused(says, 'record,d\n1,"+1,5%"\n', "source,time,d\na,0,10\n")
        says = '"d" of record 1: "+1,500%" could mean 1.5 or 1500: write +1.5% or +1500%'
        self.refused(says, "record;d\n1;+1,500%\n", "source,time,d\na,0,10\n")
        self.refused('"d" of record 1: "12%" is not a number, +N, -N, *N or +N%', "record,d\n1,12%\n", "source,time,d\na,0,10\n")

    def test_bytes_that_stay(self):
        """Unchanged rows stay as they were, including quotes, line ends and a byte order mark; changed ones keep their line end."""
        trace = '\ufeff"source",time,d,note\r\n"a","1",2,"x\r\ny"\na,"1"2,3,\udcff\ra,3,"4",n"o\r\n"a",4,5,z'
        texts = ['\ufeff"source",time,d,note\r\n', '"a","1",2,"x\r\ny"\n', 'a,"1"2,3,\udcff\r', 'a,3,"4",n"o\r\n', '"a",4,5,z']
        wanted = ['a,1,12,"x\r\ny"\n', "a,12,13,\udcff\r", 'a,3,14,"n""o"\r\n', "a,4,15,z\r\n"]
        self.assertEqual("".join(texts), trace)
        for at in range(1, 5):
            made = list(texts)
            made[at] = wanted[at - 1]
            self.assertEqual(self.made(f"record,d\n{at},+10\n", trace), "".join(made))
            del made[at]
            self.assertEqual(self.made(f"record,out\r\n{at},yes\r\n", trace), "".join(made))
        more = "record,source,time,d,note\n+,a,5,6,\"p\rq\"\n"
        self.assertEqual(self.made(more, trace), trace + '\r\na,5,6,"p\rq"\r\n')
        # Empty lines are skipped, and a single header may lack its line end.
        self.assertEqual(self.made("record,time\n2,+1\n", "source,time\n\na,1\n\r\n\na,2\n\n"), "source,time\na,1\na,3\n")
        self.assertEqual(self.made("record,source,time\n+,a,1\n", "source,time"), "source,time\na,1\n")
        # An unclosed quote extends to the end of the file: nothing that is added may end up in it.
        cut = 'source,time,note\na,1,n\na,2,"x\n'
        self.assertEqual(self.made("record,time\n1,+1\n", cut), 'source,time,note\na,2,n\na,2,"x\n')
        text = self.made("record,source,time,note\n+,a,3,y\n", cut)
        self.assertEqual(text, 'source,time,note\na,1,n\na,2,"x\n"\na,3,y\n')

    def test_changes_as_they_are_written(self):
        """With a byte order mark, quotes, carriage returns, empty rows, and bytes that aren't UTF-8; a row with line feeds counts once."""
        changes = '\ufeff"record","note",time\r\n\r\n1,"p\nq",\r\n,,\r\n"2-3",\udce4,"+1"\r\n'
        self.assertEqual(self.rows(changes, CALLS.replace("z", "\udcfc"))[-1], "phone,10,2,0,\udce4\n")
        changes = self.file("c.csv", 'record,note,time\n\n1,"p\nq",\n1,,x5\n')
        line = f'{changes}: row 4: "time" of record 1: "x5" is not a number, +N, -N, *N or +N%'
        self.refuses(line, "edit", self.file("t.csv", CALLS), changes)

    def test_long_fields_of_a_library(self):
        """`edited` takes fields as long as the command does, and leaves the limit of Python's reader unchanged."""
        limit, long = csv.field_size_limit(), "x" * 200000
        trace = self.file("t.csv", f"source,time,note\na,1,\na,2,{long}")
        changes = self.file("c.csv", f"record,source,time,note\n1,,,{long}\n+,a,3,y\n")
        made = edit.edited(trace, changes)
        self.assertEqual("".join(made.lines()), f"source,time,note\na,1,{long}\na,2,{long}\na,3,y\n")
        self.assertEqual(csv.field_size_limit(), limit)

    def test_files(self):
        """The output appears once it is complete, and no input is overwritten."""
        trace, changes, out = self.file("t.csv", CALLS), self.file("c.csv", "record,out\n1,yes\n"), self.file("o.csv", "before\n")
        model, edits = self.file("m.txt", "model 1\nsource phone\nsource web\n"), self.folder / "e.txt"
        for path, what in (trace, "trace"), (changes, "file of changes"), (model, "model"):
            self.refuses(f"{path}: this is the {what}, which is never overwritten", "edit", trace, changes, "--model", model, "--out", path)
        words = "edit", trace, changes, "--model", model, "--out", out
        self.refuses(f"{out}, {out}: two outputs can't go to one file", *words, "--edits", out)
        self.refuses(f"--edits: record 1 is removed ({changes}: row 2), and mpedit has no edit for that", *words, "--edits", edits)
        self.assertEqual((text_of(out), edits.exists()), ("before\n", False))
        counts = "mpplan: 2 records (from 3): 0 changed, 0 added, 1 removed\n"
        self.assertEqual(self.tells(*words, error=counts), "")
        self.assertEqual(text_of(out), "".join(line for line in CALLS.splitlines(keepends=True) if '"b' not in line))
        self.refuses("/dev/full: No space left on device", "edit", trace, changes, "--out", "/dev/full")

    def test_a_trace_of_a_pool(self):
        trace, changes = self.file("t.csv", "source,time,d,desk_agent,desk_wait\na,0,1,1,0\n"), self.file("c.csv", "record,time\n1,4\n")
        error = planner("edit", trace, changes)[2]
        self.assertRegex(error, r"^mpplan: warning: .* was made for a pool at desk: .*, then pool\nmpplan: 1 record \(from 1\): ")


class Refusals(Changing):
    """Each error names the row, the text and the reason."""

    def test_names(self):
        names = "it has source, time, g, kind, note"
        for head, why in (
            ("record time", f'"record time": {EXPECTED}'),
            ("time,record", f'"time": {EXPECTED}'),
            ("time;record", f'"time;record": {EXPECTED}'),
            ("sep=x", f'"sep=x": {EXPECTED}'),
            (",record", f'"": {EXPECTED}'),
            ("record,Time", f'"Time" is not a column of the trace; {names}'),
            ("record;Time", f'"Time" is not a column of the trace; {names}'),
            ("record,,time", f'"" is not a column of the trace; {names}'),
            ("record,empty,Empty", '"empty" appears twice'),
            ("record,g,time,g", '"g" appears twice'),
            ("record,record", '"record" appears twice'),
            ("record,out,out", '"out" appears twice'),
        ):
            self.refused(why, f"{head}\n1,2\n", where=": row 1: ")
        twice = "source,time,time\na,0,1\n"
        self.refused('"time" appears twice in the header of the trace', "record,time\n1,2\n", twice, where=": row 1: ")
        why = '"out" removes records, but the trace has a column of that name: rename that column'
        self.refused(why, "record,out\n1,yes\n", "source,time,out\na,0,1\n", where=": row 1: ")
        # The trace may have a column called record, whose name then means the numbers.
        words = "edit", self.file("t.csv", "source,time,record\na,0,7\n"), self.file("c.csv", "record,time\n1,5\n")
        self.assertEqual(planner(*words)[1], "source,time,record\na,5,7\n")

    def test_rows(self):
        self.refused("4 fields, but the header has 3", "record,time,g\n1,2,3,4\n")
        self.refused("4 fields, but the header has 3", "record,time,g,,\n1,2,3,4\n")
        self.refused("2 fields, but the header has 1", "record\n1,5\n")
        # An unclosed quote makes one field of what follows.
        self.refused("2 fields, but the header has 3", 'record,note,time\n1,"x,5\n2,y,6\n')
        self.refused("2 fields, but the header has 3", 'record,note,time\r1,"x,5\r2,y,6\r')
        # With another delimiter than the header.
        for row in "1;+5", "1|+5", "1 +5":
            self.refused(f'record "{row}": expected a number from 1 to 3, a range as 100-109 or 100-, *, or +', f"record,time\n{row}\n")
        forms = "expected a number from 1 to 3, a range as 100-109 or 100-, *, or +"
        for record in "0", "4", "1-4", "3-2", "0-1", "x", "", "-1", "+1", " 1", "1 - 2", "1-2-3", "1.0", "\u0663", "000000000000000000001", "++":
            self.refused(f'record "{record}": {forms}', f"record,time\n{record},2\n")
        self.refused('record "+": expected a number from 1 to 3, a range as 100-109 or 100-, *', "record,out\n+,yes\n")
        path = self.folder / "c.csv"
        self.refused(f"record 2 is already removed ({path}: row 2)", "record,out,time\n2,yes,\n1-3,,5\n", where=": row 3: ")
        self.refused(f"record 2 is already removed ({path}: row 2)", "record,out\n2,yes\n2,yes\n", where=": row 3: ")
        self.refused('"out" of record 1: "no" is neither yes nor empty', "record,out\n1,no\n")
        self.refused('"g" of record 1: the record is removed, so it takes no value', "record,time,g,out\n1,,5,yes\n")
        has = "is empty: a record needs a source, a time and a number in each numeric column"
        self.refused(f'"kind" of record 4 {has}', "record,source,time,g,note\n+,web,1,2,x\n")
        self.refused(f'"time" of record 4 {has}', "record,source,time\n+,web,\n")
        self.refused(f'"source" of record 4 {has}', "record,time,g,kind\n+,1,2,3\n")
        for name in "source", "time", "g":
            self.refused(f'"{name}" of record 2 {has}', f"record,empty\n2-3,{name}\n")
        self.refused('"empty" of record 2: "x" is not a column of the trace; it has source, time, g, kind, note', "record,empty\n2,x\n")
        self.refused('"note" of record 2: it is both emptied and given a value', "record,empty,note\n2,note,x\n")
        self.refused('"note" of record 2: the record is removed, so it takes no value', "record,empty,out\n2,note,yes\n")
        twice = "source,time,x,x\na,0,1,\n"
        self.refused('"empty" of record 1: "x" appears twice in the header of the trace', "record,empty\n1,x\n", twice)

    def test_values(self):
        for name, text, why in (
            ("time", "x5", "is not a number, +N, -N, *N or +N%"),
            ("time", "8:00", "is not a number, +N, -N, *N or +N%"),
            ("time", "5.0", "is not a number, +N, -N, *N or +N%"),
            ("time", "+5.5", "is not a number, +N, -N, *N or +N%"),
            ("time", "+-5", "is not a number, +N, -N, *N or +N%"),
            ("time", " 5", "is not a number, +N, -N, *N or +N%"),
            ("time", "*1.", "is not a number, +N, -N, *N or +N%"),
            ("time", "*.5", "is not a number, +N, -N, *N or +N%"),
            ("time", "*1e3", "is not a number, +N, -N, *N or +N%"),
            ("time", "*-1", "is not a number, +N, -N, *N or +N%"),
            ("time", "\u0665", "is not a number, +N, -N, *N or +N%"),
            ("time", "000000000000000000005", "has more than 20 digits in a row"),
            ("time", "+000000000000000000005", "has more than 20 digits in a row"),
            ("g", f"*0.{'3' * 36}", "has more than 20 digits in a row"),
            ("g", f"x{'3' * 36}", "is not a number, +N, -N, *N or +N%"),
            ("g", '"*1,5"', "is not a valid *N: in a comma-separated file, write a decimal point"),
            ("g", '"+1,5"', "is not a number, +N, -N, *N or +N%"),
            ("g", "x", "is not a number, +N, -N, *N or +N%"),
            ("time", "-10", "turns 9 into -1, which is below 0"),
            ("time", TIME + 1, f"is above {TIME}"),
            ("time", f"+{TIME}", f"turns 9 into {TIME + 9}, which is above {TIME}"),
            ("g", VALUE + 1, f"is above {VALUE}"),
            ("g", f"+{VALUE - 1}", f"turns 2 into {VALUE + 1}, which is above {VALUE}"),
            ("g", "*99999999999999999999", f"turns 2 into 199999999999999999998, which is above {VALUE}"),
            ("source", "Web", "is not a valid name of a source"),
            ("source", "+1", "is not a valid name of a source"),
            ("source", "from", "is not a valid name of a source"),
        ):
            shown = text.strip('"') if isinstance(text, str) else text
            self.refused(f'"{name}" of record 3: "{shown}" {why}', f"record,{name}\n3,{text}\n")
        self.refused('"time" of record 4: "+5" is not a number', "record,source,time,g,kind,note\n+,web,+5,1,1,1\n")
        self.refused('"time" of record 2: "+5" needs a number to change, but the record has "x"', "record,time\n1-2,+5\n", "source,time\na,1\na,x\n")
        self.refused('"g" of record 3: "*1,x" is not a number, +N, -N, *N or +N%', "record;g\n3;*1,x\n")
        for word, why in (
            ("*1,500", "could mean 1.5 or 1500: write *1.5 or *1500"),
            ("*1.500", "could mean 1.5 or 1500: write *1.5 or *1500"),
            ("*100,000", "could mean 100 or 100000: write *100 or *100000"),
            ("*12.125", "could mean 12.125 or 12125: write *12.1250 or *12125"),
        ):
            for mark in ";\t|":
                self.refused(f'"g" of record 3: "{word}" {why}', f"record{mark}g\n3{mark}{word}\n")
        for changes in "record;g\n3;*1,5000\n", "record;g\n3;*1,50\n", "record,g\n3,*1.500\n", "record;g\n3;*1500\n3;*0,001\n":
            self.assertEqual(self.rows(changes)[2], "phone,9,3,0,z\n", changes)
        self.assertEqual(self.rows("record;note\n3;*1,500\n")[2], 'phone,9,2,0,"*1,500"\n')
        # The limits themselves, and columns that no model can read.
        for trace, changes, wanted in (
            ("source,time,d\na,1,2\n", f"record,time,d\n1,{TIME},+{VALUE - 2}\n", f"a,{TIME},{VALUE}\n"),
            (f"source,time,id\na,1,{VALUE + 1}\n", "record,id\n1,*2\n", f"a,1,{2 * VALUE + 2}\n"),
            (f"source,time,id\na,1,{VALUE + 1}\n", f"record,id\n1,{10**20 - 1}\n", f"a,1,{10**20 - 1}\n"),
        ):
            self.assertEqual(planner("edit", self.file("t.csv", trace), self.file("c.csv", changes))[1].splitlines(True)[1:], [wanted])

        trace = f"source,time,id\na,1,{VALUE + 1}\n"
        self.refused('"id" of record 1: "x" is not a number, +N, -N, *N or +N%', "record,id\n1,x\n", trace)
        made = (VALUE + 1) * 10**10
        why = f"turns {VALUE + 1} into {made}, which is above {10**20 - 1}"
        self.refused(f'"id" of record 1: "*10000000000" {why}', "record,id\n1,*10000000000\n", trace)

    def test_no_more_than_mpsim_takes(self):
        """For records and for edits; here with small numbers instead of the limits."""
        self.assertEqual((edit.RECORDS, edit.BYTES, edit.GREATEST_TIME, edit.GREATEST_VALUE), (1048576, 16777216, TIME, VALUE))
        trace, model = self.file("t.csv", "source,time\n" + "a,0\n" * 12), self.file("m.txt", "model 1\nsource a\n")
        with mock.patch.object(edit, "RECORDS", 12), mock.patch.object(edit, "BYTES", 166):
            changes = self.file("c.csv", "record,source,time,out\n1,,,yes\n+,a,1,\n+,a,1,\n")
            self.refuses(f"{changes}: row 4: one record above the limit of 12", "edit", trace, changes)
            changes, words = self.file("c.csv", "record,time\n1-12,+100\n"), ("--model", model, "--edits", self.folder / "e.txt")
            # Nine lines "set 1 a 100" and three "set 10 a 100", each with a line feed.
            self.assertEqual(9 * 12 + 3 * 13, 147)
            self.assertEqual(planner("edit", trace, changes, *words)[0], 0)
            changes = self.file("c.csv", "record,time\n1-12,+1000\n1-10,*10\n")
            os.unlink(self.folder / "e.txt")
            self.refuses("--edits: 169 bytes; the limit of mpedit is 166", "edit", trace, changes, *words)
        self.assertEqual(sorted(path.name for path in self.folder.iterdir()), ["c.csv", "m.txt", "t.csv"])


if __name__ == "__main__":
    unittest.main()
