"""Reports: the only reader of their text, which rejects cut or altered ones, and their figures. docs/REPORT.md explains every field."""

from __future__ import annotations

import contextlib
import re
from typing import TYPE_CHECKING

from .errors import ReportError, read_from
from .inputs import model_text, stream_of
from .job_lines import is_read
from .lines import DIGITS, JOB, LINES, NUMBERS, SHAPE, TO_COMMAS, TO_NOTHING, Again, Exit, Node, alike
from .model import nodes_of
from .node_visits import NodeVisits, Totals, Visits, filled, numpy_for

if TYPE_CHECKING:
    import pandas
    from collections.abc import Collection, Iterable, Iterator, Mapping, Sequence
    from datetime import datetime
    from fractions import Fraction

    from .inputs import Input
    from .shapes import ModelInput, Path, ReportInput
    from .times.calendar import Calendar

# The number of bytes of job lines read at a time.
CHUNK = 1 << 17


class Report:
    """The report of a run.

    `form` (1 or 2), `jobs` (int) and `span` (int, ticks) are those of its first lines; `nodes` (tuple of Node) and `exits` (tuple of Exit) are in the
    order of the lines, `by_name` has these nodes as a dict. `report["desk"]` is the node of that name (KeyError if there is none), and
    `"desk" in report` tests for it; the name of a pool that `mpplan pool` made gives the figures of the whole, of which `max` and percentiles are
    None without visits. `visits` (Visits) raises ValueError unless the report has job lines (`has_visits`, bool). `again` (Again) is None except
    after an edit. `str(report)` is the text without job lines; `lines()` has everything.

    `model` is the model's text (str), which a page needs to draw the network, since a report doesn't say how nodes are connected. Reports from a run
    have it; reports read from a file have it only if it was given, else None. Setting it raises ValueError if its nodes aren't those of the report.

    >>> import mpsim
    >>> report = mpsim.run("model 1\\nsource door\\nserver desk =4 from door\\n", [("door", 0), ("door", 1)])
    >>> print(report, end="")
    mpsim report 2
    jobs 2 span 8
    node door source in 2 out 2 lost 0 held 0 wait 0 max 0 p50 0 p90 0 p99 0 busy 0 area 0 peak 0 util -
    node desk server in 2 out 2 lost 0 held 0 wait 3 max 3 p50 0 p90 3 p99 3 busy 8 area 11 peak 2 util 1.0000
    exit desk.0 2 sojourn 11
    >>> report.mean_sojourn
    5.5
    """

    form: int
    jobs: int
    span: int
    _model: str | None
    _pools: dict[str, Node] | None

    def __init__(
        self, form: int, jobs: int, span: int, nodes: Iterable[Node], exits: Iterable[Exit], visits: Visits | None = None, again: Again | None = None
    ) -> None:
        self.form, self.jobs, self.span = form, jobs, span
        self.nodes, self.exits, self._visits, self.again = tuple(nodes), tuple(exits), visits, again
        self.by_name = {node.name: node for node in self.nodes}
        self._model, self._pools = None, None

    @property
    def model(self) -> str | None:
        """The text of the model (str), None if it isn't known. Setting it raises ValueError if its nodes aren't those of the report."""
        return self._model

    @model.setter
    def model(self, text: str | None) -> None:
        if text is not None and sorted((node.name, node.kind) for node in nodes_of(text)) != sorted((node.name, node.kind) for node in self.nodes):
            raise ValueError("the model isn't that of the report: its nodes differ")
        self._model, self._pools = text, None

    @property
    def has_visits(self) -> bool:
        """Whether the report has visits (bool)."""
        return self._visits is not None

    @property
    def visits(self) -> Visits:
        """The visits (Visits). Raises ValueError if the report has none.

        >>> import mpsim
        >>> mpsim.run("model 1\\nsource door\\n", [("door", 3)]).visits
        Traceback (most recent call last):
        ValueError: the report has no visits: run the model with jobs=True, or mpsim with --jobs
        """
        if self._visits is None:
            raise ValueError("the report has no visits: run the model with jobs=True, or mpsim with --jobs")
        return self._visits

    @visits.setter
    def visits(self, visits: Visits) -> None:
        self._visits, self._pools = visits, None

    def _each_pool(self) -> dict[str, Node]:
        from .agents.pools import pool_nodes

        if self._pools is None:
            self._pools = pool_nodes(self)
        return self._pools

    def __getitem__(self, name: str) -> Node:
        return self._each_pool().get(name) or self.by_name[name]

    def __contains__(self, name: object) -> bool:
        return name in self.by_name or name in self._each_pool()

    # A loop could mean nodes or names; `nodes` is explicit.
    __iter__ = None

    def __repr__(self) -> str:
        return f"<Report of {self.jobs} jobs, {len(self.nodes)} nodes, span {self.span}>"

    def __str__(self) -> str:
        return "".join(self.lines(jobs=False))

    def lines(self, jobs: bool = True) -> Iterator[str]:
        """Yields the lines (str, each with its line feed), byte for byte as they were read; with `jobs`, including the job lines if the report has
        them.

        >>> import mpsim
        >>> report = mpsim.run("model 1\\nsource door\\nserver desk =4 from door\\n", [("door", 0), ("door", 1)], jobs=True)
        >>> list(report.lines())[-1]
        'job 2 desk arrive 1 wait 3 depart 8\\n'
        """
        yield f"mpsim report {self.form}\njobs {self.jobs} span {self.span}\n"
        for node in self.nodes:
            yield node.line() + "\n"
        for item in self.exits:
            yield f"exit {item.name}.{item.output} {item.jobs} sojourn {item.sojourn}\n"
        for it in self._visits.each() if jobs and self._visits else ():
            yield f"job {it.job} {it.node} arrive {it.arrive} " + (f"wait {it.wait} depart {it.depart}\n" if it.end == "left" else f"{it.end}\n")
        if self.again:
            yield f"again {self.again.done} of {self.again.blocks} blocks\n"

    @property
    def mean_sojourn(self) -> float | None:
        """The mean time of a job in the network (float, ticks), from the `exit` lines; after a fork, each part that leaves counts. None if none
        left."""
        jobs = sum(item.jobs for item in self.exits)
        return sum(item.sojourn for item in self.exits) / jobs if jobs else None

    def to_pandas(self) -> pandas.DataFrame:
        """Returns the nodes as a data frame, with a row per node, indexed by its name, and the fields of the lines as columns. Raises ImportError if
        pandas is missing."""
        import pandas

        frame = pandas.DataFrame(list(self.nodes), columns=["name", "kind", *NUMBERS])
        return frame.set_index("name").convert_dtypes(convert_string=False)

    @classmethod
    def read(cls, path: Path, model: ModelInput | None = None) -> Report:
        """Returns the report in a file, with its model (a Model, a text, or a path) if given. Raises OSError if a file can't be read; ReportError if
        it isn't a report, is cut off, or contradicts itself; and ValueError if the model is that of another report.

        >>> import mpsim, tempfile
        >>> with tempfile.NamedTemporaryFile("w") as file:
        ...     print(mpsim.run("model 1\\nsource door\\n", [("door", 3)]), end="", file=file, flush=True)
        ...     mpsim.Report.read(file.name)
        <Report of 1 jobs, 1 nodes, span 3>
        """
        with open(path, "rb") as stream, read_from(path):
            return cls.parse(stream, model)

    @classmethod
    def parse(cls, text: ReportInput, model: ModelInput | None = None) -> Report:
        """Returns the report in a text (str), in bytes, or in an open file of bytes. The model and the exceptions are as in `read`.

        >>> import mpsim
        >>> mpsim.Report.parse("mpsim report 2\\njobs 3 span")
        Traceback (most recent call last):
        mpsim.errors.ReportError: report line 2: 'jobs 3 span' is not a line of a report
        """
        report = Reading(text).report()
        report.model = None if model is None else model_text(model)
        return report

    def save(
        self,
        path: Path,
        title: str | None = None,
        *,
        tick: float | Fraction | None = None,
        start: datetime | None = None,
        within: int | None = None,
        working: Calendar | None = None,
        hour: int | None = None,
    ) -> None:
        """Writes the page of this run: one HTML file that loads nothing from the network. The file is written completely or not at all; OSError is
        raised if it can't be written. The options are those of `mpsim.page.page`: `tick`, `start`, `within`, `working` and `hour`.

        >>> import mpsim, os, tempfile
        >>> report = mpsim.run("model 1\\nsource door\\nserver desk =4 from door\\n", [("door", 0), ("door", 1)], jobs=True)
        >>> with tempfile.TemporaryDirectory() as folder:
        ...     report.save(os.path.join(folder, "run.html"), title="Two at the desk")
        ...     os.listdir(folder)
        ['run.html']
        """
        from .page import save

        save(path, [self], title=title, tick=tick, start=start, within=within, working=working, hour=hour)

    def _repr_html_(self) -> str:
        from .page import piece

        return piece(self)


def with_model(report: Report, given: Input) -> Report:
    """Returns a report with the text of the given model (Input), or without it if the file has changed or can't be read again."""
    with contextlib.suppress(ValueError):
        report.model = given.text()
    return report


class Reading:
    """Reads a report. Its first lines are available at once, as `form`, `jobs`, `span`, `nodes`, `exits` and `again` of a Report; `pieces` gives the
    visits, and `has_jobs` (bool) says whether there are any. In a sweep (`in_sweep`, bool) the next scenario may follow.

    >>> import mpsim
    >>> with mpsim.visits("model 1\\nsource door\\nserver desk =4 from door\\n", [("door", 0), ("door", 1)]) as reading:
    ...     reading.jobs, reading.span, [piece.node for piece in reading.pieces()]
    (2, 8, ['door', 'desk'])
    """

    again: Again | None
    nodes: list[Node]
    exits: list[Exit]

    def __init__(self, text: ReportInput, first: int = 1, in_sweep: bool = False) -> None:
        self._stream, self._number = stream_of(text), first - 1
        self.again = None
        self._next()
        if re.fullmatch(rb"mpsim report ([03-9]|[1-9]\d+)\n", self._line):
            raise self._error(self._line, "begins a report of an unknown form: only 1 and 2 are known")
        self.form = int(self._line_of("form")[1])
        self.jobs, self.span = map(int, self._line_of("jobs").groups())
        self.nodes, self.exits, self._node_lines = [], [], self._number
        self._read_exits(self._read_nodes())
        self._judge_jobs()
        if self._line.startswith(b"again "):
            self.again = Again(*map(int, self._line_of("again").groups()))
        self.has_jobs = self._line.startswith(b"job ") and not self.again
        if not self.has_jobs and self._line and not (in_sweep and self._line.startswith(b"scenario ")):
            raise self._error(self._line)

    @property
    def rest(self) -> tuple[bytes, int]:
        """The line after a report without job lines, and its number: in a sweep the next scenario begins there."""
        return self._line, self._number

    def _next(self) -> None:
        self._number += 1
        self._line = self._stream.readline()

    def _error(self, line: bytes, why: str = "is not a line of a report") -> ReportError:
        return ReportError(self._number, line.decode(errors="surrogateescape").rstrip("\n"), why)

    def _line_of(self, kind: str) -> re.Match[str]:
        """Returns the groups of the current line, and moves on to the next."""
        found = LINES[kind].fullmatch(self._line.decode("ascii", "surrogateescape"))
        if not found:
            raise self._error(self._line)
        self._next()
        return found

    def _read_nodes(self) -> list[str]:
        names = []
        while self._line.startswith(b"node ") or not self.nodes:
            line = self._line
            name, kind, *values, util = self._line_of("node").groups()
            numbers = [None if value is None else int(value) for value in values]
            node = Node._make([name, kind, *numbers, None if util == "-" else float(util)])
            self.nodes.append(node)
            if (node.p50 is None) != (self.form == 1) or (node.held is None and self.form == 2):
                raise ReportError(self._number - 1, line.decode().rstrip("\n"), f"isn't of form {self.form}")
            if node.in_ != node.out + node.lost + (node.held or 0):
                raise self._contradiction(node, "its in isn't the sum of out, lost and held")
            if node.name in names:
                raise self._contradiction(node, "its name appears twice")
            names.append(node.name)
        return names

    def _read_exits(self, names: Sequence[str]) -> None:
        before = -1, -1
        while self._line.startswith(b"exit ") or not self.exits:
            line = self._line
            name, *values = self._line_of("exit").groups()
            it = Exit(name, *map(int, values))
            place = names.index(name) if name in names else -1, it.output
            if place <= before or place[0] < 0:
                raise ReportError(self._number - 1, line.decode().rstrip("\n"), "names no node, or follows the line of a later output")
            before = place
            self.exits.append(it)

    def _judge_jobs(self) -> None:
        """Checks the number of jobs: they arrive at the sources and, without forks and joins, each leaves once, so a missing line is noticed."""
        if self.jobs != sum(node.in_ for node in self.nodes if node.kind == "source"):
            raise ReportError(self._node_lines - 1, f"jobs {self.jobs} span {self.span}", "contradicts the lines of the sources")
        if not any(node.kind in ("fork", "join") for node in self.nodes) and self.jobs != sum(item.jobs for item in self.exits):
            raise self._error(self._line, f"follows exit lines by which not all of the {self.jobs} jobs leave")

    def _contradiction(self, node: Node, why: str) -> ReportError:
        return ReportError(self._node_lines + self.nodes.index(node), node.line(), f"contradicts the report: {why}")

    def pieces(self, nodes: Collection[str] | None = None) -> Iterator[NodeVisits]:
        """Yields the visits, as NodeVisits of one node each, in the order of the lines; with `nodes` (names), only those to these nodes. Some 128 kB
        of text are held at a time. Raises ReportError for an invalid line and, after the last piece, if a node's visits don't match its
        line. Lines of other nodes are checked only for their words, their number, and how many are lost or held."""
        seen = {node.name: Totals(self.span) for node in self.nodes}
        # The names of the nodes from that of the last visit on.
        self._left = list(seen)
        self._numpy = numpy_for(sum(node.in_ for node in self.nodes if nodes is None or node.name in nodes))
        for text in self._texts():
            for piece in self._pieces_of(text, nodes, seen):
                seen[piece.node].add(piece, self._numpy)
                yield piece
        for node in self.nodes:
            figures = node.in_, node.out, node.lost, node.held or 0, node.wait, node.max, node.area
            # Only numbers are known of the visits that nobody asked for.
            known = len(figures) if nodes is None or node.name in nodes else 4
            if seen[node.name].figures()[:known] != figures[:known]:
                raise self._contradiction(node, "its job lines differ, or some are missing")

    def _texts(self) -> Iterator[bytes]:
        """Yields the job lines, whole lines, some 128 kB at a time."""
        left = self._line if self.has_jobs else b""
        while self.has_jobs and (text := left + self._stream.read(CHUNK)):
            yield text + self._stream.readline()
            left = b""

    def _pieces_of(self, text: bytes, nodes: Collection[str] | None, seen: Mapping[str, Totals]) -> Iterator[NodeVisits]:
        # No number in a report is negative, so visits without a wait can get one, and all lines have the same shape. Many lines can then be checked
        # at once: those of one node are cut off, and its name is removed; without digits the rest must have that shape, and without letters it is
        # four numbers per line.
        if b"-" in text or not text.endswith(b"\n"):
            raise self._first_error(text)
        while text:
            name = text[:80].split(None, 3)[2:3]
            words = b" %s arrive " % name[0] if name else b" "
            cut = text.find(b"\n", text.rfind(words)) + 1
            mine, text = text[:cut], text[cut:]
            node = name[0].decode(errors="replace") if name else ""
            is_wanted, piece = nodes is None or node in nodes, NodeVisits(node)
            if is_wanted and self._numpy and node in self._left and is_read(piece, mine, self.jobs, self._numpy):
                del self._left[: self._left.index(node)]
                yield piece
                self._number += len(piece)
                continue
            # Without its digits the name of a node that nobody asked for may be that of another.
            shape = SHAPE if is_wanted else SHAPE.replace(b",", words.translate(None, DIGITS))
            lines, count, lost, held = alike(mine.replace(words, b",") if is_wanted else mine, shape)
            if not count or node not in self._left:
                raise self._first_error(mine)
            del self._left[: self._left.index(node)]
            if is_wanted:
                if not filled(piece, lines.translate(TO_COMMAS, TO_NOTHING), count, self._numpy) or not self._are_known(piece.job):
                    raise self._first_error(mine)
                yield piece
            else:
                seen[node].skip(count, lost, held)
            self._number += count

    def _are_known(self, jobs: Sequence[int]) -> bool:
        return min(jobs) >= 1 and max(jobs) <= self.jobs

    def _first_error(self, text: bytes) -> ReportError:
        """Returns the error of the first invalid line, checked one by one."""
        *lines, cut = text.split(b"\n")
        for line in lines:
            found = JOB.fullmatch(line)
            numbers = [int(item) for item in found.group(1, 3, 4, 5) if item] if found else []
            if not found or not 1 <= numbers[0] <= self.jobs or max(numbers) >= 1 << 63:
                return self._error(line)
            name = found[2].decode()
            if name not in self._left:
                return self._error(line, "names no node, or follows the lines of a later one")
            del self._left[: self._left.index(name)]
            self._number += 1
        return self._error(cut, "is cut")

    def report(self, wanted: bool = False) -> Report:
        """Returns the whole report. A report without jobs has no job lines; whether it gets (empty) visits depends on `wanted`."""
        visits = None
        if self.has_jobs or wanted:
            visits = Visits((node.name, NodeVisits(node.name)) for node in self.nodes)
            for piece in self.pieces():
                visits[piece.node].extend(piece)
        return Report(self.form, self.jobs, self.span, self.nodes, self.exits, visits, self.again)
