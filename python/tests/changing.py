"""A trace, and calls of `mpplan edit` that change it."""

from commands import InFolder, planner

CALLS = 'source,time,g,kind,note\nphone,0,1,0,"a, ""b"""\nweb,5,1,1,\nphone,9,2,0,z\n'
TIME, VALUE = 1 << 60, 1 << 36
EXPECTED = "expected record followed by column names or, with --model, set or add"


class Changing(InFolder):
    """A test with calls of `mpplan edit`."""

    def made(self, changes, trace=CALLS, *words, told=None):
        """Returns the trace that a call writes; it must print this."""
        status, out, error = planner("edit", self.file("t.csv", trace), self.file("c.csv", changes), *words)
        self.assertEqual(status, 0, error)
        if told:
            self.assertEqual(error, f"mpplan: {told}\n")
        return out

    def rows(self, changes, trace=CALLS, *words, **more):
        """Returns the records that a call writes, as texts, after the header, which must stay."""
        head, *rows = self.made(changes, trace, *words, **more).splitlines(keepends=True)
        self.assertEqual(head, trace.splitlines(keepends=True)[0])
        return rows

    def refused(self, why, changes, trace=CALLS, *words, where=": row 2: "):
        path = self.file("c.csv", changes)
        self.refuses(f"{path}{where}{why}", "edit", self.file("t.csv", trace), path, *words)
