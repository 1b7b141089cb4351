"""The visits of a run, as arrays per node, with their percentiles and service levels."""

from __future__ import annotations

import json
import re
from array import array
from fractions import Fraction
from itertools import repeat
from math import nan
from typing import TYPE_CHECKING, Dict, NamedTuple, Optional

from .wording import table_of

if TYPE_CHECKING:
    import numpy
    import pandas
    from collections.abc import Iterable, Iterator, Sequence
    from typing import Any

# Values of the wait and the departure of a visit without them. ENDS says how it ended.
LOST, HELD = -1, -2
ENDS = {LOST: "lost", HELD: "held"}
FIELDS = "job", "arrive", "raw_wait", "raw_depart"


class Visit(NamedTuple):
    """A `job` line of a report: the job's record (int, from 1), the node (str), and times in ticks (int). `end` is "left", "lost" or "held"; `wait`
    and `depart` are None unless it is "left".

    >>> import mpsim
    >>> report = mpsim.run("model 1\\nsource door\\nserver desk =4 from door\\n", [("door", 0), ("door", 1)], jobs=True)
    >>> list(report.visits["desk"])[1]
    Visit(job=2, node='desk', arrive=1, wait=3, depart=8, end='left')
    """

    job: int
    node: str
    arrive: int
    wait: Optional[int]
    depart: Optional[int]
    end: str


class NodeVisits:
    """The visits to one node, or some of them, in order of arrival.

    `node` is its name; `job`, `arrive`, `wait` and `depart` are arrays by position. `len` counts the visits, and a loop gives each as a Visit. If all
    visits departed, `wait` and `depart` are arrays of int. Otherwise they are arrays of float, in which a lost or held visit has a NaN, as pandas has
    it: a mean that forgets these visits is NaN, instead of a wrong number. `raw_wait` and `raw_depart` are arrays of int, exact above 2^53 too, with
    -1 for a lost visit and -2 for one held to the end. The four arrays of int take 28 bytes per visit.

    >>> import mpsim
    >>> model = "model 1\\nsource door\\nloss desk 2 =4 from door\\n"
    >>> desk = mpsim.run(model, [("door", 0), ("door", 1), ("door", 2)], jobs=True).visits["desk"]
    >>> list(desk.wait), list(desk.raw_wait), [it.end for it in desk]
    ([0.0, 3.0, nan], [0, 3, -1], ['left', 'left', 'lost'])
    """

    node: str
    job: array[int]
    arrive: array[int]
    raw_wait: array[int]
    raw_depart: array[int]

    __slots__ = ("node", *FIELDS)

    def __init__(self, node: str) -> None:
        self.node, self.job = node, array("i")
        self.arrive, self.raw_wait, self.raw_depart = array("q"), array("q"), array("q")

    @property
    def wait(self) -> array[int] | array[float]:
        """The waits (array of int, in ticks); with a lost or held visit, an array of float, in which it has a NaN."""
        return _with_nan(self.raw_wait)

    @property
    def depart(self) -> array[int] | array[float]:
        """The departures (array of int, in ticks); with a lost or held visit, an array of float, in which it has a NaN."""
        return _with_nan(self.raw_depart)

    def __len__(self) -> int:
        return len(self.job)

    def __repr__(self) -> str:
        return f"<NodeVisits of {self.node}: {len(self)} visits>"

    def _repr_html_(self) -> str:
        return table_of(Visit._fields, self, len(self))

    def __iter__(self) -> Iterator[Visit]:
        for job, arrive, wait, depart in zip(self.job, self.arrive, self.raw_wait, self.raw_depart):
            if wait >= 0:
                yield Visit(job, self.node, arrive, wait, depart, "left")
            else:
                yield Visit(job, self.node, arrive, None, None, ENDS[wait])

    def rows(self) -> Iterator[list[object]]:
        """Yields the fields of each Visit as a list, faster than a loop over the visits.

        >>> import mpsim
        >>> report = mpsim.run("model 1\\nsource door\\nserver desk =4 from door\\n", [("door", 0), ("door", 1)], jobs=True)
        >>> list(report.visits["desk"].rows())[-1]
        [2, 'desk', 1, 3, 8, 'left']
        """
        waits: Iterable[int | None] = self.raw_wait
        departs: Iterable[int | None] = self.raw_depart
        ends: Iterable[str] = repeat("left")
        if min(self.raw_wait, default=0) < 0:
            waits = [None if wait < 0 else wait for wait in self.raw_wait]
            departs = [None if wait is None else depart for wait, depart in zip(waits, departs)]
            ends = [ENDS.get(wait, "left") for wait in self.raw_wait]
        return map(list, zip(self.job, repeat(self.node), self.arrive, waits, departs, ends))

    def extend(self, others: NodeVisits) -> None:
        """Appends other visits to the node.

        >>> import mpsim
        >>> report = mpsim.run("model 1\\nsource door\\nserver desk =4 from door\\n", [("door", 0), ("door", 1)], jobs=True)
        >>> both = mpsim.NodeVisits("desk")
        >>> both.extend(report.visits["desk"])
        >>> len(both)
        2
        """
        for name in FIELDS:
            getattr(self, name).extend(getattr(others, name))

    def waits(self) -> array[int]:
        """Returns the waits of the visits that departed (sorted array of int, in ticks).

        >>> import mpsim
        >>> report = mpsim.run("model 1\\nsource door\\nserver desk =4 from door\\n", [("door", 0), ("door", 1)], jobs=True)
        >>> report.visits["desk"].waits()
        array('q', [0, 3])
        """
        return array("q", sorted(item for item in self.raw_wait if item >= 0))

    def percentile(self, percent: float) -> int:
        """Returns the shortest wait (int, in ticks) that at least `percent` percent (0 to 100, int or float) of the departed visits don't exceed, as
        in the report for 50, 90 and 99; 0 if none departed. Raises ValueError for another `percent`.

        >>> import mpsim
        >>> visits = mpsim.run("model 1\\nsource door\\nserver desk =4 from door\\n", [("door", 0), ("door", 1)], jobs=True).visits
        >>> visits["desk"].percentile(50), visits["desk"].percentile(51)
        (0, 3)
        """
        return percentile_of(self.waits(), percent)

    def share_within(self, ticks: int, departed: bool = False) -> float | None:
        """Returns the service level (float, 0 to 1): the share of all visits that departed after a wait of at most this many ticks; with `departed`,
        the share of those that departed. Lost and held visits never count as served. None if there are no visits to divide by.

        >>> import mpsim
        >>> model = "model 1\\nsource door\\nloss desk 2 =4 from door\\n"
        >>> desk = mpsim.run(model, [("door", 0), ("door", 0), ("door", 0), ("door", 9)], jobs=True).visits["desk"]
        >>> desk.share_within(3), desk.share_within(4), desk.share_within(4, departed=True)
        (0.5, 0.75, 1.0)
        """
        count = sum(item >= 0 for item in self.raw_wait) if departed else len(self)
        return sum(0 <= item <= ticks for item in self.raw_wait) / count if count else None

    def to_pandas(self) -> pandas.DataFrame:
        """Returns a data frame with a row per visit, as Visits.to_pandas does. Raises ImportError if pandas is missing."""
        return _frame([self])


def _with_nan(numbers: array[int]) -> array[int] | array[float]:
    """Returns times as they are, or, if some are missing, as floats with NaN in their place."""
    if min(numbers, default=0) >= 0:
        return numbers
    return array("d", [nan if number < 0 else number for number in numbers])


def percentile_of(waits: Sequence[int], percent: float) -> int:
    """Returns, from n sorted waits, number n * percent / 100, rounded up.

    >>> from mpsim.node_visits import percentile_of
    >>> percentile_of([0, 3, 7, 12], 50), percentile_of([0, 3, 7, 12], 51)
    (3, 7)
    """
    if not 0 <= percent <= 100:
        raise ValueError(f"a percentile is from 0 to 100, not {percent}")
    # Exact for the number as written: the float 99.9 is slightly more than 999/1000.
    share = Fraction(str(percent)) / 100
    return waits[max(-(-share.numerator * len(waits) // share.denominator), 1) - 1] if waits else 0


class Visits(Dict[str, NodeVisits]):
    """The visits of a report: a dict of NodeVisits by the names of the nodes, in the order of the report.

    >>> import mpsim
    >>> visits = mpsim.run("model 1\\nsource door\\nserver desk =4 from door\\n", [("door", 0), ("door", 1)], jobs=True).visits
    >>> visits.count(), [it.depart for it in visits.each() if it.node == "desk"]
    (4, [4, 8])
    """

    def __repr__(self) -> str:
        return f"<Visits of {len(self)} nodes: {self.count()} visits>"

    def _repr_html_(self) -> str:
        return table_of(Visit._fields, self.each(), self.count())

    def each(self) -> Iterator[Visit]:
        """Yields the visits (Visit), in the order of the lines.

        >>> import mpsim
        >>> report = mpsim.run("model 1\\nsource door\\nserver desk =4 from door\\n", [("door", 0), ("door", 1)], jobs=True)
        >>> [visit.node for visit in report.visits.each()]
        ['door', 'door', 'desk', 'desk']
        """
        for visits in self.values():
            yield from visits

    def count(self) -> int:
        """Returns the number of visits (int).

        >>> import mpsim
        >>> report = mpsim.run("model 1\\nsource door\\nserver desk =4 from door\\n", [("door", 0), ("door", 1)], jobs=True)
        >>> report.visits.count()
        4
        """
        return sum(map(len, self.values()))

    def to_pandas(self) -> pandas.DataFrame:
        """Returns a data frame with the columns job, node, arrive, wait, depart and end, and a row per visit. `wait` and `depart` have the type Int64
        and are missing for lost and held visits. Raises ImportError if pandas is missing."""
        return _frame(list(self.values()))


def _frame(parts: Sequence[NodeVisits]) -> pandas.DataFrame:
    import numpy
    import pandas

    def joined(name: str, kind: str) -> numpy.ndarray[Any, Any]:
        return numpy.concatenate([numpy.frombuffer(getattr(part, name), kind) for part in parts if len(part)] or [numpy.empty(0, kind)])

    def with_gaps(name: str) -> pandas.arrays.IntegerArray:
        return pandas.arrays.IntegerArray(numpy.where(gone, 0, joined(name, "i8")), gone.copy())

    gone = joined("raw_wait", "i8") < 0
    nodes = numpy.repeat(numpy.arange(len(parts)), [len(part) for part in parts])
    ends = numpy.where(gone, -joined("raw_wait", "i8"), 0)
    return pandas.DataFrame(
        {
            "job": joined("job", "i4"),
            "node": pandas.Categorical.from_codes(nodes, [part.node for part in parts]),
            "arrive": joined("arrive", "i8"),
            "wait": with_gaps("raw_wait"),
            "depart": with_gaps("raw_depart"),
            "end": pandas.Categorical.from_codes(ends, ["left", "lost", "held"]),
        }
    )


# With fewer visits, importing numpy takes longer than it saves.
MANY = 1 << 16


def numpy_for(count: int) -> Any:
    """Returns numpy to read this many visits with, or None if they are few or it isn't installed."""
    if count < MANY:
        return None
    try:
        import numpy
    except ImportError:
        return None
    return numpy


class Totals:
    """Adds up the visits to a node in a run with this span (int, ticks), to compare them with its line."""

    def __init__(self, span: int) -> None:
        self.span = span
        self.count = self.lost = self.held = self.wait = self.max = self.area = 0

    def skip(self, count: int, lost: int, held: int) -> None:
        """Adds visits of which only the numbers are known."""
        self.count, self.lost, self.held = self.count + count, self.lost + lost, self.held + held

    def add(self, visits: NodeVisits, numpy: Any = None) -> None:
        """Adds some visits, with numpy if given."""
        lost, held = visits.raw_wait.count(LOST), visits.raw_wait.count(HELD)
        self.skip(len(visits), lost, held)
        wait, arrive, depart = (_sum(getattr(visits, name), numpy) for name in ("raw_wait", "arrive", "raw_depart"))
        self.wait += wait - lost * LOST - held * HELD
        self.max = max(self.max, max(visits.raw_wait))
        self.area += depart - arrive
        if lost or held:
            # A lost visit leaves when it arrives, a held one at the end, instead of the values that mark them.
            self.area += sum(arrive - LOST for arrive, wait in zip(visits.arrive, visits.raw_wait) if wait == LOST)
            self.area += held * (self.span - HELD)

    def figures(self) -> tuple[int, ...]:
        """Returns the numbers of visits, of those that departed, were lost and are held, the sum and the longest of the waits, and the area (int)."""
        return self.count, self.count - self.lost - self.held, self.lost, self.held, self.wait, self.max, self.area


def _sum(numbers: array[int], numpy: Any) -> int:
    """Returns the sum of numbers below 2^63."""
    if numpy is None:
        return sum(numbers)
    # In halves, since the sum may not fit into 64 bits.
    every = numpy.frombuffer(numbers, "i8")
    return (int((every >> 32).sum()) << 32) + int((every & 0xFFFFFFFF).sum())


def filled(visits: NodeVisits, numbers: bytes, count: int, numpy: Any = None) -> bool:
    """Appends numbers, four per line and each followed by a comma, to visits, with numpy if given. Returns whether they are numbers as reports have
    them, enough, and in range."""
    # Each number is preceded by a comma, for a search that begins with one byte, which is faster.
    if numpy is not None and not re.search(rb",0\d", every := b"," + numbers) and b",," not in every:
        found = numpy.fromstring(numbers[:-1], "i8", sep=",")
        # Longer numbers become the greatest of 64 bits.
        if len(found) == 4 * count and 0 < found[::4].min() and found[::4].max() < 1 << 31 and found.max() < (1 << 63) - 1:
            for at, name in enumerate(FIELDS):
                column = getattr(visits, name)
                column.frombytes(found[at::4].astype(column.typecode).tobytes())
            return True
    try:
        # The reader of JSON is faster than int, and rejects empty numbers and zeros before a number too.
        words = json.loads(f"[{numbers[:-1].decode('ascii')}]")
        for at, name in enumerate(FIELDS):
            getattr(visits, name).fromlist(words[at::4])
    except (OverflowError, ValueError):
        return False
    return len(words) == 4 * count
