"""The sources of an export, and the order of their records in the trace."""

import time
import unittest

from ground import Test
from test_prepare import prepare, table


class Sources(Test):
    def test_order(self):
        rows = table("8:00:01,b,1", "8:00:00,b,2", "8:00:01,a,3", "8:00:01,b,4", "8:00:01,a,5")
        model = "model 1\nsource a\nsource b\nserver desk d from a b\n"
        with_model, without = (prepare(rows, "when", source="who", demand=["long=d"], begin="first", model=item) for item in (model, None))
        self.assertEqual(list(with_model.rows()), [("b", 0, 2), ("a", 1, 3), ("a", 1, 5), ("b", 1, 1), ("b", 1, 4)])
        self.assertEqual(list(without.rows()), [("b", 0, 2), ("b", 1, 1), ("b", 1, 4), ("a", 1, 3), ("a", 1, 5)])
        self.assertEqual((with_model.names, without.names), (["a", "b"], ["b", "a"]))
        # Within a tick, too, times are in order, as for an export with the newest first.
        newest = table("8:01:01,a,1", "8:00:40,b,2", "8:00:40,a,3", "8:00:40,a,4", "8:00:20,a,5")
        made = prepare(newest, "when", source="who", demand=["long=d:min"], tick="1min")
        self.assertEqual(list(made.rows()), [("a", 0, 5), ("a", 0, 3), ("a", 0, 4), ("b", 0, 2), ("a", 1, 1)])
        self.assertIn("records are sorted by time, and at equal times by the order of the sources", without.told)
        sorted_rows = prepare(table("8:00,a,1", "8:00,a,2"), "when", source="who", demand=["long=d"])
        self.assertFalse(any("sorted" in note for note in sorted_rows.told))
        other = prepare(table("8:00:02,x,1", "8:00:03,a,1"), "when", source="who", demand=["long=d"], model=model)
        self.assertEqual((other.left, other.names), ({"who: the model has no source x": 1}, ["a"]))

    def test_a_column_that_is_mistyped(self):
        """One name for all records, which is nearly that of a column."""
        rows = table("8:00,a,1", header="when,klasse,long")
        self.assertIn("no column is called 'klase', but one is called 'klasse' (--source)", prepare(rows, "when", source="klase").warned)
        self.assertFalse([item for item in prepare(rows, "when", source="desk").warned if "column" in item])

    def test_a_source_in_each_row(self):
        """As with a wrong column: it is rejected in time proportional to the rows, not to their square."""
        begin, rows = time.process_time(), table(*(f"2026-03-02 08:00,id{number},1" for number in range(30000)))
        with self.assertRaisesRegex(ValueError, "more than 63 sources, the limit of a model"):
            prepare(rows, "when", source="who")
        self.assertLess(time.process_time() - begin, 4)

    def test_sources(self):
        rows = table("8:00,Büro,1", "8:00,buro,1", "8:00,Z,1", "8:00, Z ,1", "8:00,,1")
        made = prepare(rows, "when", source="who", rename=["Z=zed"])
        self.assertEqual((made.sources, made.left), (["buro", "buro_2", "zed", "zed"], {"who is empty": 1}))
        both = prepare(rows, "when", source="who", rename=["Büro=one", "buro=one", "Z=one"])
        self.assertEqual((both.sources, both.names), (["one"] * 4, ["one"]))
        # A list of names may cover many days: one that is absent today is reported.
        some = prepare(rows, "when", source="who", rename=["Z=zed", "Quiet=q", "q=r"])
        self.assertEqual(some.sources, ["buro", "buro_2", "zed", "zed"])
        lacking = [f"no source '{item}' for --rename" for item in ("Quiet", "q")]
        self.assertEqual([item for item in some.warned if "for --rename" in item], lacking)
        for names, first in (["Quiet=q"], "Quiet"), (["z=zed", "Quiet=q"], "z"):
            with self.assertRaisesRegex(ValueError, f"no source '{first}' for --rename; it has "):
                prepare(rows, "when", source="who", rename=names)
        # One whose rows are all left out may be renamed too.
        late, given = table("8:00,a,1", "x,B,1", "8:01", "8:02,C,1"), {"format": "clock", "source": "who", "model": "model 1\nsource a\n"}
        late = prepare(late, "when", rename=["B=b", "C=c"], **given)
        self.assertEqual((late.names, sum(late.left.values())), (["a"], 3))
        self.assertEqual((prepare(rows, "when").names, prepare(rows, "when", source="calls").names), (["jobs"], ["calls"]))


if __name__ == "__main__":
    unittest.main()
