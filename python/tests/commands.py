"""Runs the command `mpplan` in this process, with a directory for its files."""

import contextlib
import io
import pathlib
import tempfile

from ground import Test

from mpsim.command import main


def planner(*words):
    """Returns the status of a call, and what it writes to stdout and stderr."""
    out, err = io.StringIO(), io.StringIO()
    with contextlib.redirect_stdout(out), contextlib.redirect_stderr(err):
        try:
            status = main([str(word) for word in words])
        except SystemExit as end:
            status = end.code
    return status, out.getvalue(), err.getvalue()


def together(names, node="desk", how="--every gives each"):
    """Returns what a call writes to stderr if the figures of a node are those of sources with these names."""
    return f"mpplan: figures of several sources together ({names}) at {node}; {how}\n"


def idle(count, every, node="desk"):
    """Returns what a call writes to stderr if this many of all calls at a node need no service."""
    calls = f"{count} of {every} calls at {node} need 0 ticks"
    return f"mpplan: warning: {calls}: if these callers hung up, they count as no work, so fewer agents seem to be enough\n"


class InFolder(Test):
    """A test with a directory of its own, in which no incomplete file is left."""

    def setUp(self):
        held = tempfile.TemporaryDirectory()
        super().setUp()
        self.addCleanup(held.cleanup)
        self.folder = pathlib.Path(held.name)
        self.addCleanup(lambda: self.assertEqual(list(self.folder.glob("*.part")), []))

    def file(self, name, text):
        """Writes a file with this text into the directory."""
        path = self.folder / name
        path.write_bytes(text.encode(errors="surrogateescape"))
        return path

    def tells(self, *words, status=0, error=""):
        """Returns what a call writes to stdout; its status and its stderr must be these."""
        told = planner(*words)
        self.assertEqual(told[::2], (status, error), words)
        return told[1]

    def refuses(self, line, *words, status=1):
        """A call must write only this line, to stderr, and end with this status."""
        self.assertEqual(planner(*words), (status, "", f"mpplan: {line}\n"), words)
