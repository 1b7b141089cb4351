"""Changes saved by a spreadsheet: its forms of CSV, and its encodings."""

import unittest

from changing import CALLS, Changing
from commands import planner


class Spreadsheets(Changing):
    def test_changes_of_a_spreadsheet(self):
        """Separated by semicolons, tabs and bars, with a `sep=` line, in UTF-16, with decimal commas, other capitals and columns without a name."""
        wanted = ['phone,3,2,0,"a, ""b"""\n', "web,5,1,1,\n", 'phone,9,2,0,"*1,5"\n']
        for changes in (
            'record,time,g,note\n1,+3,*1.5,\n3,,,"*1,5"\n',
            "record;time;g;note\n1;+3;*1,5;\n3;;;*1,5\n",
            "record;time;g;note\n1;+3;*1.5;\n3;;;*1,5\n",
            "record\ttime\tg\tnote\n1\t+3\t*1,5\t\n3\t\t\t*1,5\n",
            "record|time|g|note\n1|+3|*1,5|\n3|||*1,5\n",
            "sep=;\nrecord;time;g;note\n1;+3;*1,5;\n3;;;*1,5\n",
            'sep=,\r\nrecord,time,g,note\r\n1,+3,*1.5,\r\n3,,,"*1,5"\r\n',
            '\n"Record"; time ;"g";note;;;\r\n1;+3;*1,5;;;;\r\n;;;;;;\r\n3;;;*1,5;;;\r\n',
            "RECORD ;time;g;note\n1;+3;*1,5;;;\n3;;;*1,5\n",
        ):
            for encoding in "utf-8", "utf-16-le", "utf-16-be":
                path = self.folder / "c.csv"
                path.write_bytes(f"\ufeff{changes}".encode(encoding))
                rows = planner("edit", self.file("t.csv", CALLS), path)[1].splitlines(keepends=True)[1:]
                self.assertEqual(rows, wanted, (changes, encoding))
            self.assertEqual(self.rows(changes), wanted, changes)
        self.assertEqual(self.rows("record;Out\n1;YES\n2;Yes\n3;yes\n"), [])
        self.assertEqual(self.rows("Record;Empty;Out\n3;note;\n")[2], "phone,9,2,0,\n")

    def test_changes_that_are_not_utf_8(self):
        """They are Windows-1252 if the trace is UTF-8, as a spreadsheet saves them; if it isn't either, bytes are kept."""
        path, counts = self.folder / "c.csv", "1 record (from 1): 1 changed, 0 added, 0 removed"
        for trace, changes, wanted, told in (
            ("source,time,für\nweb,1,Müller\n".encode(), b"record;f\xfcr\n1;B\xfcro \x80\n", "web,1,Büro €\n".encode(), True),
            (b"source,time,note\nweb,1,\n", b"record,note\n1,B\xfcro\n", "web,1,Büro\n".encode(), True),
            ("source,time,für\nweb,1,Müller\n".encode(), "record;für\n1;Büro\n".encode(), "web,1,Büro\n".encode(), False),
            (b"source,time,f\xfcr\nweb,1,\n", b"record;f\xfcr\n1;B\xfcro\n", b"web,1,B\xfcro\n", False),
            (b"source,time,note\nweb,1,M\xfcller\n", b"\xef\xbb\xbfrecord;note\n1;B\xfcro\x81\n", b"web,1,B\xfcro\x81\n", False),
        ):
            with self.subTest(trace, changes=changes):
                (self.folder / "t.csv").write_bytes(trace)
                path.write_bytes(changes)
                out = self.folder / "o.csv"
                error = f"mpplan: {path} is read as Windows-1252\n" if told else ""
                self.tells("edit", self.folder / "t.csv", path, "--out", out, error=f"{error}mpplan: {counts}\n")
                self.assertEqual(out.read_bytes().splitlines(keepends=True)[1:], [wanted])
        for data, why in (
            (b"\xef\xbb\xbfrecord,note\n1,\xfc\n", "line 2: the byte fc is not valid UTF-8, although the file has a UTF-8 byte order mark"),
            (b"record,note\n\n1,\xfc\x81\n", "line 3: the byte 81 is neither UTF-8 nor Windows-1252"),
        ):
            path.write_bytes(data)
            self.refuses(f"{path}: {why}", "edit", self.file("t.csv", CALLS), path)

    def test_columns_without_a_name(self):
        """Empty names at the end of a header come from a spreadsheet, unless the trace has such a column."""
        trace = "source,time,,talk\nweb,1,a,5\n"
        for changes, wanted in (
            ("record,,talk\n1,x,7\n", "web,1,x,7\n"),
            ("record,talk,\n1,7,x\n", "web,1,x,7\n"),
            ("record,talk,\n1,7,\n", "web,1,a,7\n"),
            ("record,,empty\n1,x,\n", "web,1,x,5\n"),
        ):
            self.assertEqual(self.rows(changes, trace), [wanted], changes)
        self.refused('"" appears twice', "record,talk,,\n1,7,x,\n", trace, where=": row 1: ")

    def test_rows_that_end_early(self):
        """Their last fields are empty, as a spreadsheet omits them."""
        a, b, c = CALLS.splitlines(keepends=True)[1:]
        self.assertEqual(self.rows("record;time;note\n1;+5\n3;;y\n2\n"), [a.replace(",0,", ",5,", 1), b, c.replace("z", "y")])
        self.assertEqual(self.rows("record,source,time,g,kind,note\n+,web,7,1,2\n")[3:], ["web,7,1,2,\n"])
        self.assertEqual(self.rows("record,note,out\n2,,yes\n1\n3,y\n"), [a, c.replace("z", "y")])
        self.assertEqual(self.rows("record,time,,\n1,5\n", "source,time\na,0\n"), ["a,5\n"])


if __name__ == "__main__":
    unittest.main()
