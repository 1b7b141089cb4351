"""Sweeps in a directory that several machines may share, cut into shards; each shard is one call of mpsweep, in any order.

The directory has `plan.json`, which lists all scenarios, and a file per finished shard: its text, and a last line with the text's checksum. A file
appears under its name once it is complete and on disk, so a shard is either done or absent, however its run ends.
"""

from __future__ import annotations

import contextlib
import hashlib
import io
import os
import socket
from typing import TYPE_CHECKING

from ..agents.pools import know_model
from ..errors import Error
from ..files import Named, named
from ..runs import sweep_text
from ..tables.nodes import rows
from .plans import Plan, sum_of
from .results import Sweep

if TYPE_CHECKING:
    from collections.abc import Collection, Iterator, Sequence
    from typing import BinaryIO

    from ..agents.pools import PoolLines
    from ..shapes import Path, Row
    from .plans import TraceFile
    from .results import Scenario


@contextlib.contextmanager
def _whole(path: Path) -> Iterator[BinaryIO]:
    """Opens a file of bytes that appears under its name once it is complete and on disk."""
    part = f"{path}.{socket.gethostname()}.{os.getpid()}.part"
    # One that a process of the same number left, or a link that someone put there.
    with contextlib.suppress(FileNotFoundError):
        os.unlink(part)
    try:
        with io.BufferedWriter(Named(part, "xb", path)) as file:
            yield file
            file.flush()
            with named(path):
                os.fsync(file.fileno())
        os.replace(part, path)
    except BaseException:
        with contextlib.suppress(OSError):
            os.unlink(part)
        raise


class Folder:
    """A directory with a sweep: its `path`, its `plan` (Plan), and `sum`, the checksum of the plan's file, which each shard repeats."""

    def __init__(self, path: str, plan: Plan, text: bytes) -> None:
        self.path, self.plan, self.sum = path, plan, hashlib.sha256(text).hexdigest()[:16]

    @classmethod
    def begun(cls, path: str, plan: Plan) -> Folder:
        """Begins a sweep in a directory, which is made if needed. Raises ValueError if it already has one, and for a trace that can be read only
        once."""
        file = os.path.join(path, "plan.json")
        if os.path.exists(file):
            raise ValueError(f"{path} already has a sweep: give --resume to continue it")
        for trace in plan.traces:
            if not os.path.isfile(trace["path"]):
                raise ValueError(f"{trace['path']}: each shard reads the trace, so it must be a regular file")
            trace["path"] = os.path.abspath(trace["path"])
            trace["sum"] = sum_of(trace["path"])
        os.makedirs(path, exist_ok=True)
        text = plan.text().encode()
        with _whole(file) as out:
            out.write(text)
        return cls(path, plan, text)

    @classmethod
    def read(cls, path: str) -> Folder:
        """Returns the sweep in a directory. Raises OSError if there is none, ValueError if its plan is damaged."""
        file = os.path.join(path, "plan.json")
        with open(file, "rb") as out:
            text = out.read()
        try:
            return cls(path, Plan.parse(text), text)
        except ValueError:
            raise ValueError(f"{file}: not the plan of a sweep, or damaged") from None

    def file(self, shard: int) -> str:
        """Returns the path of a shard's file; a subdirectory holds a thousand."""
        return os.path.join(self.path, f"{shard // 1000:04}", f"{shard:07}.txt")

    def failure(self, shard: int) -> str:
        """Returns the path of the file that says why a shard failed."""
        return self.file(shard)[:-4] + ".failed"

    def lacking(self) -> list[int]:
        """Returns the numbers of the shards that aren't done."""
        return [number for number in range(1, self.plan.shards + 1) if not os.path.exists(self.file(number))]

    def last_line(self, shard: int, text_sum: str) -> bytes:
        """Returns the last line of a shard's file."""
        count = len(self.plan.shard(shard)[1])
        return f"# shard {shard} of {self.plan.shards}, {count} scenarios of plan {self.sum}, sha256 {text_sum}\n".encode()

    def text(self, shard: int) -> bytes:
        """Returns the text (bytes) of a finished shard. Raises FileNotFoundError if it isn't done, ValueError if its file is damaged."""
        with open(self.file(shard), "rb") as file:
            text = file.read()
        end = text.rfind(b"\n", 0, max(len(text) - 1, 0)) + 1
        if text[end:] != self.last_line(shard, hashlib.sha256(text[:end]).hexdigest()):
            raise ValueError(f"shard {shard} is damaged: its last line doesn't match its text and this plan")
        return text[:end]

    def parts(self) -> list[str]:
        """Returns the paths of the files of shards that are running, or were killed."""
        return [os.path.join(folder, name) for folder, _, names in os.walk(self.path) for name in names if name.endswith(".part")]

    @staticmethod
    def is_left(part: str) -> bool:
        """Returns whether certainly nothing writes such a file any more: its process ran on this machine, and has ended."""
        name, process, _ = part.rsplit(".", 2)
        return name.endswith(f".{socket.gethostname()}") and not os.path.exists(f"/proc/{process}")


def run_shard(folder: Folder, shard: int) -> None:
    """Runs a shard, and leaves its file, or a file that says why it failed. Raises what `mpsim.sweep` does, and ValueError if the trace has
    changed."""
    trace, models = folder.plan.shard(shard)
    os.makedirs(os.path.dirname(folder.file(shard)), exist_ok=True)
    try:
        if sum_of(trace["path"]) != trace["sum"]:
            raise ValueError(f"{trace['path']}: the file has changed since the sweep began")
        texts = [folder.plan.model(model)[2].encode(errors="surrogateescape") for model in models]
        made = hashlib.sha256()
        with _whole(folder.file(shard)) as out, sweep_text(trace["path"], texts) as stream:
            while piece := stream.read(1 << 20):
                made.update(piece)
                out.write(piece)
            out.write(folder.last_line(shard, made.hexdigest()))
    except (Error, OSError, ValueError, MemoryError) as error:
        # A full disk may have no room for this either.
        with contextlib.suppress(OSError), _whole(folder.failure(shard)) as out:
            out.write(f"{socket.gethostname()}: {one_line(error)}\n".encode(errors="backslashreplace"))
        raise
    with contextlib.suppress(OSError):
        os.unlink(folder.failure(shard))


def one_line(error: BaseException) -> str:
    """Returns an error as one line."""
    return (str(error) or type(error).__name__).split("\n", 1)[0]


def rows_of(plan: Plan, trace: TraceFile, at: int, scenario: Scenario, pool_notes: PoolLines, nodes: Collection[str] = ()) -> list[Row]:
    """Returns the rows (lists) of a scenario, given the number of its model: one per node or pool, or one that says why it was refused. `pool_notes`
    (PoolLines) collects what to print about pools."""
    label, values, text = plan.model(at)
    head: Row = [trace["label"], label, *values.values(), scenario.status]
    if scenario.report is None:
        width = len(plan.head()) - len(head) - 1
        return [[*head, *[None] * width, scenario.refusal.told if scenario.refusal else None]]
    know_model(scenario.report, text)
    pool_notes.see(scenario.report)
    return [[*head, scenario.report.span, *row, None] for row in rows(scenario.report, nodes=nodes)]


def gather(folder: Folder, damaged: dict[int, str], pool_notes: PoolLines, nodes: Collection[str] = ()) -> Iterator[Sequence[object]]:
    """Yields the header and the rows of the table from all finished shards, in the order of the scenarios. Damaged shards have no rows; `damaged`
    (dict by number) gets the reason. `pool_notes` (PoolLines) collects what to print about pools."""
    yield folder.plan.head()
    for shard in range(1, folder.plan.shards + 1):
        trace, models = folder.plan.shard(shard)
        try:
            sweep = Sweep.parse(folder.text(shard), models)
        except FileNotFoundError:
            continue
        except (OSError, ValueError) as error:
            damaged[shard] = one_line(error)
            continue
        for at, scenario in zip(models, sweep.values()):
            yield from rows_of(folder.plan, trace, at, scenario, pool_notes, nodes)
