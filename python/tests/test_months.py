"""The export of another month, for an existing model: its tick, its numbers of words, and time 0."""

import unittest

from commands import InFolder, planner
from ground import EXAMPLES, Test, text_of

from mpsim.exports.codes import codes_in, line_of, with_codes
from mpsim.exports.prepare import prepare
from mpsim.times.calendar import with_settings

MODEL = """model 1
# a tick is 1s, time 0 is 2026-10-01T08:00:00+02:00 in Europe/Berlin
# columns: d, room
# room: 0 is "CT2", 1 is "CT1"
source ward
split rooms 2 mod room from ward
server one d from rooms
server two d from rooms.1
"""
ASKED = {"source": "ward", "demand": ["long=d"], "code": ["who=room"], "zone": "Europe/Berlin"}


def made(*rows, model=MODEL, **asked):
    """Returns the trace made from rows of an export for a model."""
    return prepare("\n".join(["when,who,long", *rows, ""]).encode(), "when", model=model, **{**ASKED, **asked})


class Codes(Test):
    def test_lines_are_read_as_they_are_written(self):
        for codes in {"a": 0}, {'S"t\\ö{x}': 0, "a\nb": 1, "": 2, "a, 1 is b": 3}, {"x": 7, "y": 7, "z": 0}:
            line = line_of("kind", codes)
            self.assertEqual((codes_in(f"model 1\n{line}\nsource a\n"), "{" in line), ({"kind": codes}, False))
            self.assertEqual(codes_in(f"model 1\r\n{line}\r\n"), {"kind": codes})
        self.assertIsNone(line_of("kind", {"x" * 9000: 0}))

    def test_other_lines(self):
        for line in "# kind: 0 is a", '# Kind: 0 is "a"', '# kind: 0 is "a" and more', '# kind: "a" is 0', "# columns: a, b", "#":
            self.assertEqual(codes_in(f"model 1\n{line}\n"), {}, line)
        with self.assertRaisesRegex(ValueError, "the model gives two numbers for the word 'a' of kind"):
            codes_in('# kind: 0 is "a", 1 is "a"\n')
        with self.assertRaisesRegex(ValueError, "invalid string"):
            codes_in('# kind: 0 is "\\x"\n')

    def test_where_a_line_goes(self):
        line = '# kind: 0 is "a"'
        for before, after in (
            ("model 2\nsource a\n", f"model 2\n{line}\nsource a\n"),
            ("# top\r\n model 2\r\nsource a\r\n", f"# top\r\n model 2\r\n{line}\r\nsource a\r\n"),
            ("model 2\n# a tick is 1s\nsource a\n", f"model 2\n# a tick is 1s\n{line}\nsource a\n"),
            ('model 1\n# room: 3 is "x"\n# kind: 4 is "b", 5 is "c"\nsource a\n', f'model 1\n# room: 3 is "x"\n{line}\nsource a\n'),
        ):
            self.assertEqual(with_codes(before, "kind", {"a": 0}), after)
        self.assertEqual(with_settings("model 1", 10**9, None, None), "model 1\n# a tick is 1s")


class Months(Test):
    def test_words_have_the_numbers_of_the_model(self):
        first = prepare(b"when,who,long\n2026-10-01 08:10,CT2,1\n2026-10-01 08:20,CT1,1\n", "when", **ASKED)
        self.assertEqual((first.values[1].tolist(), codes_in(first.first_lines())), ([0, 1], {"room": {"CT2": 0, "CT1": 1}}))
        later = made("2026-10-01 08:10,CT1,1", "2026-10-01 08:20,CT2,1")
        self.assertEqual((later.values[1].tolist(), later.warned, later.unlike), ([1, 0], [], []))

    def test_words_that_the_model_does_not_know(self):
        more = made("2026-10-01 08:10,CT3,1", "2026-10-01 08:20,CT2,1", "2026-10-01 08:30,CT4,1")
        self.assertEqual(more.values[1].tolist(), [2, 0, 3])
        self.assertEqual(more.warned, ["room: the model has no number for 2 words: 2 is 'CT3', 3 is 'CT4'"])
        shared = MODEL.replace('1 is "CT1"', '0 is "CT1", 5 is "MR"')
        self.assertEqual(made("2026-10-01 08:10,CT1,1", "2026-10-01 08:20,new,1", model=shared).values[1].tolist(), [0, 6])

    def test_a_model_that_tells_no_numbers(self):
        silent = MODEL.replace("# room", "# rooms")
        told = "room: the model doesn't say which word has which number, so another export may number them differently"
        one = made("2026-10-01 08:10,CT1,1", model=silent)
        self.assertEqual((one.unlike, one.values[1].tolist()), ([told], [0]))
        self.assertEqual(codes_in(one.model(silent)), {"rooms": {"CT2": 0, "CT1": 1}, "room": {"CT1": 0}})

    def test_another_time_0(self):
        other = made("2026-09-01 08:10,CT1,1")
        model = "but in the model, which hours, days and pages use, it is 2026-10-01T08:00:00+02:00 in Europe/Berlin"
        self.assertEqual(other.unlike, [f"time 0 is 2026-09-01T08:00:00+02:00 in Europe/Berlin, {model}"])
        self.assertEqual(other.model(MODEL), MODEL.replace("2026-10-01T08", "2026-09-01T08"))
        # The same moment, written differently.
        self.assertEqual(made("2026-10-01 08:10,CT1,1", model=MODEL.replace("08:00:00+02:00", "06:00:00+00:00")).unlike, [])
        for text, asked in (MODEL, {"zone": None}), (MODEL.replace("Berlin", "Paris"), {}):
            self.assertEqual(len(made("2026-10-01 08:10,CT1,1", model=text, **asked).unlike), 1)
        # Ticks have no moment, and a model need not give one.
        self.assertEqual(made("5,CT1,1", format="ticks", zone=None).unlike, [])
        self.assertEqual(made("2026-09-01 08:10,CT1,1", model=MODEL.replace(", time 0", ". Time 0")).unlike, [])

    def test_the_tick_is_that_of_the_model(self):
        slow = MODEL.replace("a tick is 1s", "a tick is 1min")
        rows = "2026-10-01 08:10,CT1,120", "2026-10-01 08:20,CT2,60"
        for asked in {}, {"tick": "60s"}:
            self.assertEqual([list(row) for row in made(*rows, model=slow, **asked).rows()], [["ward", 10, 2, 1], ["ward", 20, 1, 0]])
        with self.assertRaisesRegex(ValueError, "--tick 1s: in the model a tick is 60s"):
            made(*rows, model=slow, tick="1s")

    def test_sources_that_a_number_tells_apart(self):
        rows = b"when,who,long\n8:00,B\xc3\xbcro,1\n8:01,buro,1\n8:02,Tor,1\n"
        told = "source 'buro' is called buro_2, since another is buro; another export may swap them: name both with --rename"
        self.assertIn(told, prepare(rows, "when", source="who").warned)
        for rename in ["buro=back"], ["Büro=front", "buro=back"], ["Büro=one", "buro=one"]:
            self.assertFalse([item for item in prepare(rows, "when", source="who", rename=rename).warned if "source" in item], rename)


class Command(InFolder):
    def test_a_month_after_another(self):
        """The days of the second month are its own, and so are the rooms."""
        export = self.file("sep.csv", "when,who,long\n2026-09-07 08:10,CT1,60\n2026-09-07 08:10,CT2,60\n2026-09-08 08:10,CT1,60\n")
        words = "--time", "when", "--source", "ward", "--demand", "long=d", "--code", "who=room", "--zone", "Europe/Berlin"
        model, trace, own = self.file("okt.txt", MODEL), self.folder / "sep-trace.csv", self.folder / "sep.txt"
        status, _, err = planner("prepare", export, *words, "--model", model, "--out", trace)
        line = "mpplan: warning: time 0 is 2026-09-07T08:00:00+02:00 in Europe/Berlin, but in the model, which hours, days and pages use, it is "
        self.assertIn(f"{line}2026-10-01T08:00:00+02:00 in Europe/Berlin (--out-model writes a model for this trace)\n", err)
        status, _, err = planner("prepare", export, *words, "--model", model, "--out", trace, "--out-model", own)
        self.assertEqual((status, "warning" in err), (0, False), err)
        self.assertEqual(text_of(own), MODEL.replace("2026-10-01T08", "2026-09-07T08"))
        rows = self.tells("hours", own, trace, "--node", "two", "--by", "day", "--within", "0", "--percentile", "90").splitlines()
        self.assertEqual([row[:13] for row in rows[1:]], ["2026-09-07,1,", "2026-09-08,1,"])

    def test_out_model_requires_a_model(self):
        export = self.file("one.csv", "when,who,long\n8:00,a,1\n")
        self.refuses("--out-model requires --model", "prepare", export, "--time", "when", "--out-model", self.folder / "m.txt")

    def test_the_example(self):
        export = EXAMPLES / "export"
        self.assertEqual(codes_in(text_of(export, "model.txt")), {"kind": {"Störung": 0, "Bestellung": 1, "Rechnung": 2}})


if __name__ == "__main__":
    unittest.main()
