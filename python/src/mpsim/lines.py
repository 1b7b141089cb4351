"""The lines of a report: their patterns and, except job lines, named tuples of them. docs/REPORT.md explains every field."""

from __future__ import annotations

import re
from typing import NamedTuple, Optional

# No job waits or is lost at these.
PASSED = "source", "split", "fork"
# Patterns of a number, a name and a kind of node.
N, NAME = r"(0|[1-9]\d*)", r"([a-z][a-z0-9_]{0,31})"
KIND = "source|server|delay|loss|tandem|forkjoin|split|fork|join|trunk"
# The lines of a report, except job lines.
LINES = {
    name: re.compile(text.replace("NAME", NAME).replace("KIND", KIND).replace("N", N) + "\n", re.ASCII)
    for name, text in {
        "form": r"mpsim report ([12])",
        "jobs": r"jobs N span N",
        "node": r"node NAME (KIND) in N out N lost N(?: held N)? wait N max N(?: p50 N p90 N p99 N)? busy N area N peak N util (-|[01]\.\d{4})",
        "exit": r"exit NAME\.([0-7]) N sojourn N",
        "again": r"again N of N blocks",
    }.items()
}
JOB = re.compile(rf"job {N} {NAME} arrive {N} (?:wait {N} depart {N}|lost|held)".encode())
# The ends of lines of visits that didn't depart, and those of ones that did with numbers that no line has.
STAND_INS = (b" lost\n", b" wait -1 depart -1\n"), (b" held\n", b" wait -2 depart -2\n")
# The line of a visit that departed with a comma for its node, without digits; and what makes four numbers of it, each followed by a comma.
SHAPE, DIGITS = b"job , wait  depart \n", b"0123456789-"
TO_COMMAS, TO_NOTHING = bytes.maketrans(b"wd\n", b",,,"), b"jobaiteprt "


class Node(NamedTuple):
    """A `node` line: its name and kind (str), and its numbers (int). Times are in ticks: `wait` is the sum of the waits, `max` the longest, `p50`,
    `p90` and `p99` their percentiles; `busy` and `area` are sums over time. `in_` (the field `in`) counts the visits, `util` is a float, or None for
    a node without servers. Form 1 has no percentiles, and a model of version 1 no `held`: they are None then.

    >>> import mpsim
    >>> desk = mpsim.run("model 1\\nsource door\\nserver desk =4 from door\\n", [("door", 0), ("door", 1)])["desk"]
    >>> desk.in_, desk.wait, desk.max, desk.p50, desk.mean_wait, desk.mean_time, desk.util
    (2, 3, 3, 0, 1.5, 5.5, 1.0)
    """

    name: str
    kind: str
    in_: int
    out: int
    lost: int
    held: Optional[int]
    wait: int
    max: Optional[int]
    p50: Optional[int]
    p90: Optional[int]
    p99: Optional[int]
    busy: int
    area: int
    peak: Optional[int]
    util: Optional[float]

    @property
    def mean_wait(self) -> float | None:
        """The mean wait of the visits that departed (float, ticks), known as Wq; None if none departed."""
        return self.wait / self.out if self.out else None

    @property
    def mean_time(self) -> float | None:
        """The mean time in the node of the visits that departed (float, ticks), known as W; None if none departed or some are held."""
        return self.area / self.out if self.out and not self.held else None

    @property
    def share_lost(self) -> float | None:
        """The share of the visits that were lost (float); None if there were none."""
        return self.lost / self.in_ if self.in_ else None

    def figure(self, name: str) -> int | float | None:
        """Returns a figure (int, float or None) by its name (str): a field of the line, such as "p90" or "in", or `mean_wait`, `mean_time` or
        `share_lost`. Raises AttributeError for another name.

        >>> import mpsim
        >>> desk = mpsim.run("model 1\\nsource door\\nserver desk =4 from door\\n", [("door", 0), ("door", 1)])["desk"]
        >>> desk.figure("in"), desk.figure("mean_wait")
        (2, 1.5)
        """
        if name not in FIGURES:
            raise AttributeError(f"a node has no figure {name!r}: it has {', '.join(FIGURES)}")
        value: int | float | None = getattr(self, "in_" if name == "in" else name)
        return value

    def line(self) -> str:
        """Returns the line of the report (str), without its line feed.

        >>> import mpsim
        >>> mpsim.run("model 1\\nsource door\\n", [("door", 3)])["door"].line()[:36]
        'node door source in 1 out 1 lost 0 h'
        """
        words = (f"{word} {value}" for word, value in zip(NUMBERS, self[2:-1]) if value is not None)
        return f"node {self.name} {self.kind} {' '.join(words)} util {'-' if self.util is None else f'{self.util:.4f}'}"


# The names of a node's numbers, as in the line and in data frames.
NUMBERS = [field.rstrip("_") for field in Node._fields[2:]]
# The names that `figure` takes.
FIGURES = [*NUMBERS, "mean_wait", "mean_time", "share_lost"]


class Exit(NamedTuple):
    """An `exit` line: the node (str) and its output (int) that no node reads, the number of jobs that left there (int), and the sum of their times in
    the network (int, ticks).

    >>> import mpsim
    >>> report = mpsim.run("model 1\\nsource door\\nserver desk =4 from door\\n", [("door", 0), ("door", 1)], jobs=True)
    >>> report.exits[0]
    Exit(name='desk', output=0, jobs=2, sojourn=11)
    """

    name: str
    output: int
    jobs: int
    sojourn: int


class Again(NamedTuple):
    """The last line of an edited report: how many of all blocks were computed again (int).

    >>> import mpsim
    >>> mpsim.edit("model 1\\nsource door\\nserver desk =4 from door\\n", [("door", 0)], [mpsim.Add("door", 9)]).again
    Again(done=2, blocks=2)
    """

    done: int
    blocks: int


def alike(lines: bytes, shape: bytes) -> tuple[bytes, int, int, int]:
    """Returns job lines of one node, those of lost and held visits as if they had departed, and how many lines there are, are lost and are held. The
    number of lines is 0 if one of them doesn't have this shape (bytes, without digits)."""
    rest, gone = lines.translate(None, DIGITS), [0, 0]
    if rest != shape * (len(rest) // len(shape)):
        gone = [lines.count(end) for end, _ in STAND_INS]
        for end, stand_in in STAND_INS:
            lines = lines.replace(end, stand_in)
        rest = lines.translate(None, DIGITS)
    count = len(rest) // len(shape)
    return lines, count if rest == shape * count else 0, gone[0], gone[1]
