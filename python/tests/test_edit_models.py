"""Changes to the trace of a model: what the model says about its columns, and edits for mpedit."""

import re
import unittest

from changing import CALLS, EXPECTED, VALUE, Changing
from commands import planner
from ground import programs_in, text_of


class Models(Changing):
    def test_with_a_model(self):
        model = self.file("m.txt", "model 1\nsource phone\nsource branch\nserver s g from phone branch\n")
        words = "--model", model
        self.refused(f'"source" of record 1: "web" is not a source of {model}', "record,source\n1,web\n", CALLS, *words)
        self.refused('"g" of record 1: "x" is not a number, +N, -N, *N or +N%', "record,g\n1,x\n", CALLS, *words)
        # Columns that it doesn't name may hold anything, although the trace has numbers there.
        out = planner("edit", self.file("t.csv", CALLS), self.file("c.csv", "record,source,kind\n3,branch,k\n"), *words)[1]
        self.assertTrue(out.endswith("branch,9,2,k,z\n"), out)
        trace = self.file("t.csv", "source,time,h\nphone,0,1\n")
        self.refuses(f"{trace}: no column 'g', which {model} names; it has h", "edit", trace, self.folder / "c.csv", *words)
        self.refuses("--edits requires --model, which has the order of their values", "edit", trace, self.folder / "c.csv", "--edits", "e.txt")
        # An edit includes values that no row changed, which mpedit may reject.
        trace, changes = self.file("t.csv", "source,time,g\nphone,0,x\n"), self.file("c.csv", "record,time\n1,5\n")
        self.refuses('--edits: "g" of record 1: "x" is not a number', "edit", trace, changes, *words, "--edits", self.folder / "e.txt")

    def test_the_model_is_checked(self):
        """mpsim checks it, and its status is kept; without mpsim, a line says so."""
        trace, changes = self.file("t.csv", "source,time,talk\nweb,5,20\n"), self.file("c.csv", "record,time\n1,+60\n")
        for text, line in (
            ("model 1\nsource web\nsever desk talk from web\n", "model line 3: word 1 not allowed: sever desk talk from web"),
            ("modl 1\n", "model line 1: expected model 1 or model 2: modl 1"),
            ("source,time\n", "model line 1: expected model 1 or model 2: source,time"),
            ("model 1\nsource Web\n", "model line 2: word 2 not allowed: source Web"),
            ("", "model line 1: expected model 1 or model 2"),
        ):
            model = self.file("m.txt", text)
            for more in (), ("--edits", self.folder / "e.txt"):
                self.refuses(f"{model}: {line}", "edit", trace, changes, "--model", model, *more, status=3)
        model, counts = self.file("m.txt", "model 1\nsource web\nsever desk talk from web\n"), "1 record (from 1): 1 changed, 0 added, 0 removed"
        with programs_in(self.folder):
            why = f"no program mpsim in {self.folder}; set MPSIM_PROGRAMS to a directory that has it"
            told = f"mpplan: warning: {model} isn't checked: {why}\nmpplan: {counts}\n"
            self.assertEqual(self.tells("edit", trace, changes, "--model", model, error=told), "source,time,talk\nweb,65,20\n")
        self.assertFalse((self.folder / "e.txt").exists())
        # Text that a sweep fills in isn't checked, except in a comment.
        told = f"mpplan: warning: {{}} isn't checked: {{}} gets its values from mpplan sweep --set\nmpplan: {counts}\n"
        for text, name in (
            ("loss desk {agents} talk from web\n", "{agents}"),
            ("loss desk {n:d} talk from web\n", "{n:d}"),
            ("# {a}\nserver s talk from web\n", None),
        ):
            model = self.file("m.txt", f"model 1\nsource web\n{text}")
            error = told.format(model, name) if name else f"mpplan: {counts}\n"
            self.assertEqual(self.tells("edit", trace, changes, "--model", model, error=error), "source,time,talk\nweb,65,20\n")
        model, edits = self.file("m.txt", "model 1\nsource web\nserver s {talk} from web\n"), self.folder / "e.txt"
        line = f"--edits: {model} contains {{talk}}, but mpedit takes no model with names in braces"
        self.refuses(line, "edit", trace, changes, "--model", model, "--edits", edits)
        self.assertFalse(edits.exists())
        # Nor with an mpsim that can't be run.
        model, broken = self.file("m.txt", "model 1\nsource web\n"), self.folder / "mpsim"
        broken.write_text("#!/bin/sh\nexit 99\n")
        broken.chmod(0o700)
        with programs_in(self.folder):
            status, out, error = planner("edit", trace, changes, "--model", model)
            self.assertEqual((status, out), (0, "source,time,talk\nweb,65,20\n"))
            self.assertRegex(error, rf"^mpplan: warning: {model} isn't checked: mpsim ended with status 99.*\nmpplan: {re.escape(counts)}\n$")

    def test_what_edits_do_not_have(self):
        """A change to a column that the model doesn't name is reported when edits are written."""
        model, edits = self.file("m.txt", "model 1\nsource web\nserver s g from web\n"), self.folder / "e.txt"
        trace, counts = self.file("t.csv", "source,time,note,g,n\nweb,5,x,20,1\n"), "1 record (from 1): 1 changed, 0 added, 0 removed"
        for row, names, edit in (
            ("1,y,,\n", "note", "set 1 web 5 20\n"),
            ("1,y,+1,7\n", "note, n", "set 1 web 5 21\n"),
            ("1,,+1,\n", None, "set 1 web 5 21\n"),
        ):
            words = "edit", trace, self.file("c.csv", f"record,note,g,n\n{row}"), "--model", model
            told = f"mpplan: {edits} leaves out the changes of {names}, which {model} doesn't name\n" if names else ""
            self.tells(*words, "--edits", edits, error=f"{told}mpplan: {counts}\n")
            self.assertEqual(text_of(edits), edit)
            self.tells(*words, error=f"mpplan: {counts}\n")
        trace = self.file("t.csv", "source,time,g,\nweb,5,20,1\n")
        told = f"mpplan: {edits} leaves out the changes of \"\", which {model} doesn't name\nmpplan: {counts}\n"
        self.tells("edit", trace, self.file("c.csv", "record,\n1,2\n"), "--model", model, "--edits", edits, error=told)

    def test_edits_of_mpedit(self):
        model = self.file("m.txt", "model 1\nsource phone\nsource web\nsplit k cut kind 1 from phone web\nserver s g from k k.1\n")
        words, set_, add = ("--model", model), "set R source time kind g", "add source time kind g"
        for text, why in (
            ("set 1 phone 5 1 2\nsets 1 phone 5 1\n", '"sets" is neither set nor add'),
            ("\nset 1 phone 5 1\n", f"5 words, but set takes 6: {set_}"),
            ("\nset\n", f"1 word, but set takes 6: {set_}"),
            ("\nadd phone 5 1 2 3\n", f"6 words, but add takes 5: {add}"),
            ("\nset 4 phone 5 1 2\n", 'record "4": expected a number from 1 to 3'),
            ("\nset + phone 5 1 2\n", 'record "+": expected a number from 1 to 3'),
            ("\nset 1-2 phone 5 1 2\n", 'record "1-2": expected a number from 1 to 3'),
            ("\nset 1 door 5 1 2\n", f'"source" of record 1: "door" is not a source of {model}'),
            ("\nset 1 web +5 1 2\n", '"time" of record 1: "+5" is not a number'),
            ("\nset 1 web 5 1 *2\n", '"g" of record 1: "*2" is not a number'),
            ("\nadd web 5 x 2\n", '"kind" of record 4: "x" is not a number'),
            (f"\nadd web 5 {VALUE + 1} 2\n", f'"kind" of record 4: "{VALUE + 1}" is above {VALUE}'),
        ):
            self.refused(why, text, CALLS, *words, where=": line 2: ")
        self.refused("these are edits for mpedit: give --model for the order of their values", "set 1 web 5 1 2\n", where=": ")
        for text in "", "\n \t":
            self.refused(f"it is empty: {EXPECTED}", text, where=": ")
        self.refused(f"it is empty: {EXPECTED}", "sep=;\n", where=": ")
        self.refused(f"it is empty: {EXPECTED}", "sep=;\n\n", CALLS, *words, where=": ")
        path, nul = self.folder / "c.csv", "NUL bytes: is it UTF-16 without a byte order mark? Without one it is read as UTF-8"
        for data, why in (
            ("record,time\n1,5\n".encode("utf-16-le"), f": row 1: it begins with {nul}"),
            ("record,time\n1,5\n".encode("utf-16-be"), f": row 1: it begins with {nul}"),
            (b"\xff\xfer", ": not valid UTF-16, although it has a UTF-16 byte order mark"),
        ):
            path.write_bytes(data)
            self.refuses(f"{path}{why}", "edit", self.file("t.csv", CALLS), path)
        size = (1 << 24) + 1
        self.refused(f"{size} bytes; the limit of mpedit is {size - 1}", "add web 5 1 2".ljust(size), CALLS, *words, where=": ")


if __name__ == "__main__":
    unittest.main()
