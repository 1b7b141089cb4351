"""Exceptions for programs that end without a report: one class per status. docs/ERRORS.md lists every error line with its cause."""

from __future__ import annotations

import contextlib
import os
import re
import signal
from typing import TYPE_CHECKING

if TYPE_CHECKING:
    from collections.abc import Callable, Iterator, Sequence

    from .inputs import Input
    from .shapes import Path


class Error(Exception):
    """A program rejected its input, or failed.

    `told` (str) is the line that the program wrote, byte for byte, with the program's name and without the line feed; "" if it wrote none. Bytes that
    aren't UTF-8 are kept as in Python's surrogateescape. `status` (int or None) is the program's status; negative if a signal of that number ended
    it, None if no program ran to its end. `file` is the path of the file named in the line, as the caller gave it; None if it wasn't a path. `source`
    (str or None) is the invalid line of the model or of the edits, or the invalid record of the trace. The values in the line are attributes: the
    numbers (int) `line`, `word`, `record` and `field` from 1, `input` and `position` from 0, `time` in ticks, and `visits`; and the names (str)
    `column` and `node`. Those that the line doesn't contain are None, except that `column` is also set when the line has the number of a field.

    >>> import mpsim
    >>> try:
    ...     mpsim.run("model 1\\nsource Door\\n", [])
    ... except mpsim.ModelError as error:
    ...     print(error.told, error.line, error.word, error.source, sep="; ")
    mpsim: model line 2: word 2 not allowed; 2; 2; source Door
    """

    line: int | None
    word: int | None
    record: int | None
    field: int | None
    input: int | None
    position: int | None
    time: int | None
    visits: int | None
    column: str | None
    node: str | None

    NUMBERS = "line", "word", "record", "field", "input", "position", "time", "visits", "column", "node"

    def __init__(
        self, why: str, told: str = "", status: int | None = None, file: str | None = None, source: str | None = None, **numbers: int | str | None
    ) -> None:
        super().__init__(why)
        self.why, self.told, self.status, self.file, self.source = why, told, status, file, source
        for name in self.NUMBERS:
            setattr(self, name, numbers.get(name))

    def __str__(self) -> str:
        """Returns the error with its file and column, followed by the invalid line with its word marked."""
        text = f"{self.file}: {self.why}" if self.file else self.why
        if self.field and self.column:
            text += f" (column {self.column})"
        if self.source is None:
            return text
        return "\n    ".join([text, self.source, *_mark(self.source, self.word)])

    def __reduce__(self) -> tuple[Callable[..., Error], tuple[type[Error], str, dict[str, object]]]:
        # Lets a pool of processes pass the exception on unchanged.
        return _again, (type(self), self.why, vars(self))


def _again(kind: type[Error], why: str, attributes: dict[str, object]) -> Error:
    error = kind(why)
    vars(error).update(attributes)
    return error


def _mark(source: str, word: int | None) -> list[str]:
    """Returns a line that marks this word of a line; a word past the last is marked after the end."""
    if word is None or not source.replace("\t", " ").isprintable():
        return []
    spans = [found.span() for found in re.finditer(r"[^ \t]+", source)] + [(len(source) + 1, len(source) + 2)]
    begin, end = spans[min(word, len(spans)) - 1]
    return [re.sub(r"[^\t]", " ", source[:begin]).ljust(begin) + "^" * (end - begin)]


class UsageError(Error, ValueError):
    """Status 2 or 12: an option has an invalid value, or a path isn't UTF-8.

    >>> import mpsim
    >>> try:
    ...     mpsim.made(7, workers=99)
    ... except mpsim.UsageError as error:
    ...     print(error.status)
    2
    """


class ModelError(Error, ValueError):
    """Status 3: the model is invalid (or, in a sweep, a file is too long).

    >>> import mpsim
    >>> try:
    ...     mpsim.run("model 1\\nsource door\\nserver desk talk\\n", [])
    ... except mpsim.ModelError as error:
    ...     print(error.line, error.source)
    3 server desk talk
    """


class TraceError(Error, ValueError):
    """Status 4: the trace is invalid.

    >>> import mpsim
    >>> try:
    ...     mpsim.run("model 1\\nsource door\\n", "source,time\\ndoor,early\\n")
    ... except mpsim.TraceError as error:
    ...     print(error.record, error.column, error.source)
    1 time door,early
    """


class BoundError(Error):
    """Status 5: a departure exceeds the model's bound. `node`, `position` and `time` identify it.

    >>> import mpsim
    >>> try:
    ...     mpsim.run("model 1\\nbound 6\\nsource door\\nserver desk =4 from door\\n", [("door", 0), ("door", 1)])
    ... except mpsim.BoundError as error:
    ...     print(error.node, error.position, error.time)
    desk 1 8
    """


class ReadError(Error, OSError):
    """Status 6: a file can't be read.

    >>> import mpsim
    >>> try:
    ...     mpsim.run("absent.txt", "absent.csv")
    ... except mpsim.ReadError as error:
    ...     print(error.file)
    absent.txt
    """


class WriteError(Error, OSError):
    """Status 7: the program can't write its output."""


class OutOfMemory(Error, MemoryError):
    """Status 8: the program ran out of memory."""


class VisitsError(Error):
    """Status 9: a node has too many visits. `node` names it, and `visits` is their number.

    >>> import mpsim
    >>> model = mpsim.Model()
    >>> jobs = model.source("door")
    >>> for level in range(11):
    ...     fork = model.fork(f"fork{level}", 4, jobs)
    ...     jobs = model.delay(f"all{level}", 0, *(fork[number] for number in range(4)))
    >>> try:
    ...     mpsim.run(model, [("door", 0)])
    ... except mpsim.VisitsError as error:
    ...     print(error.node, error.visits)
    all10 4194304
    """


class EditsError(Error, ValueError):
    """Status 10: the edits are invalid.

    >>> import mpsim
    >>> try:
    ...     mpsim.edit("model 1\\nsource door\\n", [("door", 0)], "set 9 door 1\\n")
    ... except mpsim.EditsError as error:
    ...     print(error.line, error.source)
    1 set 9 door 1
    """


class ProgramError(Error):
    """A program is missing, can't be started, was ended by a signal, or ended with an unknown status.

    >>> import mpsim
    >>> from mpsim.programs import find
    >>> try:
    ...     find("absent")
    ... except mpsim.ProgramError as error:
    ...     print(error.status, str(error).split(" in ")[0])
    None no program absent
    """


class TimedOut(Error, TimeoutError):
    """A program exceeded its timeout and was ended."""


class ReportError(ValueError):
    """A text isn't a report: it is cut off, altered, or in another form. `line` (int, from 1) is the place, `found` (str) the text there, `file` the
    path if a file was read, else None.

    >>> import mpsim
    >>> try:
    ...     mpsim.Report.parse("mpsim report 2\\njobs 3")
    ... except mpsim.ReportError as error:
    ...     print(error.line, error.found)
    2 jobs 3
    """

    def __init__(self, line: int, found: str, why: str = "is not a line of a report", file: Path | None = None) -> None:
        super().__init__(line, found, why, file)
        self.line, self.found, self.why, self.file = line, found, why, file

    def __str__(self) -> str:
        where = f"{os.fsdecode(self.file)}: " if self.file is not None else ""
        return f"{where}report line {self.line}: {self.found[:80]!r} {self.why}"


@contextlib.contextmanager
def read_from(path: Path) -> Iterator[None]:
    """Adds the path of the file to a ReportError raised in the block."""
    try:
        yield
    except ReportError as error:
        raise ReportError(error.line, error.found, error.why, path) from None


KINDS = {
    2: UsageError,
    3: ModelError,
    4: TraceError,
    5: BoundError,
    6: ReadError,
    7: WriteError,
    8: OutOfMemory,
    9: VisitsError,
    10: EditsError,
    12: UsageError,
}
# The inputs of each program, in the order of its arguments, by the names that its error lines use. mpsweep numbers its files.
ROLES = {"mpsim": ("model", "trace"), "mpedit": ("model", "trace", "edits"), "mpsweep": ()}


def error_of(program: str, status: int, told: str, inputs: Sequence[Input] = ()) -> Error:
    """Returns the exception for a non-zero status and the text on stderr. `inputs` are those among the program's arguments, in order (with `path`,
    `line` and `record`), from which the invalid line is read."""
    told = told[:-1] if told.endswith("\n") else told
    if status < 0:
        return ProgramError(f"{program} was ended by {_signal(-status)}", told, status)
    why = told.rsplit("\n", 1)[-1]
    why = why[len(program) + 2 :] if why.startswith(f"{program}: ") else why
    if status not in KINDS:
        return ProgramError(f"{program} ended with status {status}" + (f": {why}" if why else ""), told, status)
    numbers, names = _numbers(why), _names(why)
    given = _input_of(program, why, inputs)
    source = None
    if given is not None:
        if "record" in numbers:
            source = given.record(numbers["record"])
            if "field" in numbers:
                names["column"] = given.column(numbers["field"])
        elif why.startswith("trace header: "):
            source = given.record(0)
        elif "line" in numbers:
            source = given.line(numbers["line"])
    return KINDS[status](why, told, status, given.path if given else None, source, **numbers, **names)


def _signal(number: int) -> str:
    """Returns the name of a signal and its likely cause."""
    name = signal.Signals(number).name if number in set(signal.Signals) else f"signal {number}"
    causes = {"SIGILL": ": the processor doesn't support x86-64-v2", "SIGKILL": ", perhaps for lack of memory"}
    return name + causes.get(name, "")


def _numbers(why: str) -> dict[str, int]:
    """Returns the numbers in an error line."""
    found = {name: int(value) for name, value in re.findall(r"\b(line|word|record|field|input|position) (\d+)", why)}
    for name, pattern in ("time", r"\bat time (\d+)"), ("visits", r"^node \w+ has (\d+) visits"):
        found.update({name: int(found) for found in re.findall(pattern, why)})
    return found


def _names(why: str) -> dict[str, str | None]:
    """Returns the names in an error line."""
    found: dict[str, str | None] = {}
    for name, pattern in ("node", r"^node (\w+) (?:position|has) "), ("column", r"^trace header: column (\w+) missing"):
        found.update({name: text for text in re.findall(pattern, why)})
    return found


def _input_of(program: str, why: str, inputs: Sequence[Input]) -> Input | None:
    """Returns the input that an error line refers to, or None."""
    found = re.match(r"(?:cannot read )?(?:the )?(?:file (\d+)|(model|trace|edits)\b)", why)
    if not found:
        return None
    roles = ROLES[program]
    index = int(found[1]) - 1 if found[1] else roles.index(found[2]) if found[2] in roles else len(inputs)
    return inputs[index] if index < len(inputs) else None
