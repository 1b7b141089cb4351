"""Functions that run the three programs.

What they take:

- A model is a Model, a text (str with a line feed, or bytes), or a path (str or PathLike).
- A trace is a path, a text, what `prepare` returns, columns with the names `source`, `time` and those of the model, or rows. Columns are a data
  frame of pandas or polars, any object with `__arrow_c_stream__` or `__dataframe__`, a numpy array with named fields, or a dict of lists or arrays;
  those that the model doesn't name are ignored. Rows are dicts, named tuples, or sequences, whose first may be the header. Rows without a header are
  a source, a time and the values of the columns in the order in which the model first names them.
- Times and values are whole numbers of ticks, or dates and lengths of time (datetime and timedelta of Python, pandas, numpy or Arrow). Whole floats
  are accepted, since a missing value turns a column into floats.
- `tick` (str such as "1s", or a timedelta) is the length of a tick, `start` (datetime or ISO 8601 text) the date of time 0, for a trace with dates or
  lengths of time. By default they are those in the first lines of the model; else a tick is a second, and time 0 the beginning of the hour (of UTC,
  if dates have a zone) of the first date. A date counts as the tick in which it falls, a length of time as the nearest number of ticks.
- `workers` (int, 1 to 64) and `block` (int, 1 to 65,536) divide the work; they don't change the report.
- `timeout` (seconds) limits the time of a program from its start to its end; a program that exceeds it is ended, and TimedOut is raised.

What they raise: the exceptions in `mpsim.errors`, by the status of the program; ProgramError if the program is missing or killed; ReportError if its
output isn't a report; TypeError or ValueError for an invalid model, trace or edits. KeyboardInterrupt ends the program too. They leave nothing
behind: no process, no open file, no file on disk.
"""

from __future__ import annotations

import contextlib
import os
import time
from collections.abc import Iterable, Mapping
from functools import partial
from typing import TYPE_CHECKING

from .builder import Model
from .errors import BoundError, Error, ModelError, ProgramError, TraceError, VisitsError
from .files import text_of
from .frames.ticks import Clock
from .inputs import edits_input, model_input, trace_input
from .model import in_braces
from .parallel import in_order, models_per_call
from .processes import Running
from .programs import find
from .report import Reading, with_model
from .sweeps.results import Scenario, Sweep, scenarios_of

if TYPE_CHECKING:
    from collections.abc import Callable, Generator, Hashable, Iterator, Sequence
    from datetime import datetime, timedelta
    from typing import ContextManager, IO

    from .inputs import Input
    from .report import Report
    from .shapes import EditsInput, ModelInput, Models, Path, TraceInput


@contextlib.contextmanager
def _inputs(*makers: Callable[[list[Input]], Input]) -> Iterator[list[Input]]:
    """Makes inputs, each from those before it, and closes all at the end of the block."""
    with contextlib.ExitStack() as stack:
        made: list[Input] = []
        for make in makers:
            made.append(make(made))
            stack.callback(made[-1].close)
        yield made


def _model_and_trace(model: ModelInput, trace: TraceInput, clock: Clock) -> ContextManager[list[Input]]:
    return _inputs(lambda _: model_input(model), lambda made: trace_input(trace, made[0], clock))


def _options(jobs: bool = False, workers: int | None = None, block: int | None = None, form: int | None = None) -> list[str]:
    words = ["--jobs"] if jobs else []
    for name, value in ("--workers", workers), ("--block", block), ("--report", form):
        words += [name, str(value)] if value is not None else []
    return words


def _report(program: str, words: Iterable[str], inputs: Sequence[Input], jobs: bool, timeout: float | None) -> Report:
    with Running(program, words, inputs, timeout=timeout) as running:
        report = Reading(running.stream).report(jobs)
    return with_model(report, inputs[0]) if inputs else report


def run(
    model: ModelInput,
    trace: TraceInput,
    *,
    jobs: bool = False,
    workers: int | None = None,
    block: int | None = None,
    form: int | None = None,
    tick: str | timedelta | None = None,
    start: str | datetime | None = None,
    timeout: float | None = None,
) -> Report:
    """Runs a trace through a model with mpsim and returns the Report. With `jobs` it has the visits; `form` is 1 or 2 (default: 2). The module's
    documentation says what models and traces are, and what is raised.

    >>> import mpsim
    >>> model = mpsim.Model()
    >>> desk = model.server("desk", "talk", model.source("phone"), model.source("web"))
    >>> report = mpsim.run(model, [("phone", 0, 30), ("web", 10, 60), ("phone", 20, 15)], jobs=True)
    >>> report["desk"].max, report.visits["desk"].share_within(20)
    (70, 0.6666666666666666)

    Dates and lengths of time become ticks:

    >>> from datetime import datetime, timedelta
    >>> calls = {"source": ["phone", "web"], "time": [datetime(2026, 3, 2, 8), datetime(2026, 3, 2, 8, 1)], "talk": [timedelta(minutes=3)] * 2}
    >>> mpsim.run(model, calls)["desk"].max
    120
    """
    with _model_and_trace(model, trace, Clock(tick, start)) as inputs:
        words = [item.word for item in inputs] + _options(jobs, workers, block, form)
        return _report("mpsim", words, inputs, jobs, timeout)


def made(
    number: int, *, jobs: bool = False, workers: int | None = None, block: int | None = None, form: int | None = None, timeout: float | None = None
) -> Report:
    """Runs mpsim on the input generated from a number (int, 0 to 2^64 - 1) and returns the Report. Raises what `run` does.

    >>> import mpsim
    >>> mpsim.made(7).jobs
    20159
    """
    return _report("mpsim", ["--made", str(number), *_options(jobs, workers, block, form)], [], jobs, timeout)


@contextlib.contextmanager
def visits(
    model: ModelInput,
    trace: TraceInput,
    *,
    workers: int | None = None,
    block: int | None = None,
    tick: str | timedelta | None = None,
    start: str | datetime | None = None,
    timeout: float | None = None,
) -> Iterator[Reading]:
    """Runs mpsim without keeping the visits: a block with a Reading (`mpsim.report`), whose `nodes` and `exits` are available at once, and whose
    `pieces()` gives the visits, as NodeVisits of one node each. Leaving the block early ends the program. Raises what `run` does, at the latest at
    the end of the block; `timeout` includes the time spent in the block.

    >>> import mpsim
    >>> trace = "source,time\\ndoor,0\\ndoor,1\\n"
    >>> with mpsim.visits("model 1\\nsource door\\nserver desk =4 from door\\n", trace) as reading:
    ...     sum(wait > 2 for piece in reading.pieces() if piece.node == "desk" for wait in piece.wait)
    1
    """
    with _model_and_trace(model, trace, Clock(tick, start)) as inputs:
        with Running("mpsim", [item.word for item in inputs] + _options(True, workers, block), inputs, timeout=timeout) as running:
            yield Reading(running.stream)


def edit(
    model: ModelInput,
    trace: TraceInput,
    edits: EditsInput,
    *,
    tick: str | timedelta | None = None,
    start: str | datetime | None = None,
    timeout: float | None = None,
) -> Report:
    """Runs an edited trace with mpedit and returns the Report, whose `again` says how much of the run the edits affect. Edits are a text (str with a
    line feed, or bytes), a path, or a list of Set and Add. Raises what `run` does, and EditsError.

    >>> import mpsim
    >>> rows = [("door", 0, 4), ("door", 1, 1)]
    >>> report = mpsim.edit("model 1\\nsource door\\nserver desk d from door\\n", rows, [mpsim.Set(2, "door", 3, (1,)), mpsim.Add("door", 9, (2,))])
    >>> report["desk"].wait, report.again.done, report.again.blocks
    (1, 2, 2)
    """
    clock = Clock(tick, start)
    with _inputs(lambda _: model_input(model), lambda made: trace_input(trace, made[0], clock), lambda _: edits_input(edits)) as inputs:
        return _report("mpedit", [item.word for item in inputs], inputs, False, timeout)


def sweep(
    trace: TraceInput,
    models: Models,
    *,
    jobs: bool = False,
    processes: int = 1,
    tick: str | timedelta | None = None,
    start: str | datetime | None = None,
    timeout: float | None = None,
) -> Sweep:
    """Runs a trace through many models and returns the Sweep. The arguments and exceptions are those of `scenarios`.

    >>> import mpsim
    >>> models = mpsim.variants("model 2\\nsource calls\\ntrunk lines {lines} =5 from calls\\n", lines=[1, 2, 3])
    >>> mpsim.sweep([("calls", 0), ("calls", 1), ("calls", 2)], models).curve("lines", "share_lost")
    [(1, 0.6666666666666666), (2, 0.3333333333333333), (3, 0.0)]
    """
    # If Ctrl-C comes between two scenarios, the program mustn't live as long as the traceback.
    with contextlib.closing(scenarios(trace, models, jobs=jobs, processes=processes, tick=tick, start=start, timeout=timeout)) as coming:
        return Sweep((item.label, item) for item in coming)


def scenarios(
    trace: TraceInput,
    models: Models,
    *,
    jobs: bool = False,
    processes: int = 1,
    tick: str | timedelta | None = None,
    start: str | datetime | None = None,
    timeout: float | None = None,
) -> Generator[Scenario, None, None]:
    """Runs a trace through many models, and yields each Scenario as it comes, in the order of the models. They are a dict by label, or a list,
    labelled 1, 2 and so on, of any length.

    mpsweep runs them, 64 per call. It writes no job lines, so with `jobs` each model is run by mpsim instead, which takes longer, and its report has
    the visits. `processes` (int) of these calls run at once; the scenarios and their order are the same. A model that is refused, or whose run is,
    gives a Scenario with its status. Other exceptions of `run` end the sweep: a file that can't be read, lack of memory, and a timeout, which counts
    all runs together. If the trace is a list of rows, the first model gives the order of their columns. To stop early, drop the iterator or close it
    (`contextlib.closing`), which ends the program.

    >>> import mpsim
    >>> models = mpsim.variants("model 1\\nsource door\\nserver desk ={ticks} from door\\n", ticks=[1, 2, 4])
    >>> for scenario in mpsim.scenarios([("door", 0), ("door", 1)], models, jobs=True):
    ...     print(scenario.label, scenario.report.visits["desk"].share_within(0))
    1 1.0
    2 0.5
    4 0.5
    """
    if isinstance(models, (str, bytes, Model)) or not isinstance(models, Iterable):
        raise TypeError("models are a dict or a list of models")
    labelled = list(models.items() if isinstance(models, Mapping) else enumerate(models, 1))
    return _scenarios(trace, labelled, jobs, processes, Clock(tick, start), timeout)


def _scenarios(
    trace: TraceInput, labelled: Sequence[tuple[Hashable, ModelInput]], jobs: bool, processes: int, clock: Clock, timeout: float | None
) -> Generator[Scenario, None, None]:
    if not labelled:
        return
    run_some, step = (_by_mpsim, 1) if jobs else (_by_mpsweep, min(models_per_call(processes), -(-len(labelled) // max(processes, 1))))
    end = None if timeout is None else time.monotonic() + timeout
    with _inputs(lambda _: model_input(labelled[0][1]), lambda made: trace_input(trace, made[0], clock)) as (_, rows):

        def piece(some: Sequence[tuple[Hashable, ModelInput]]) -> Iterator[Scenario]:
            with _inputs(*[lambda _, item=it: model_input(item) for _, it in some]) as texts:
                left = None if end is None else max(end - time.monotonic(), 0)
                yield from run_some(rows, texts, [label for label, _ in some], left)

        pieces = (labelled[begin : begin + step] for begin in range(0, len(labelled), step))
        with contextlib.closing(in_order((partial(piece, some) for some in pieces), processes)) as coming:
            yield from coming


@contextlib.contextmanager
def sweep_text(trace: TraceInput, models: Sequence[ModelInput]) -> Iterator[IO[bytes]]:
    """Runs mpsweep on a trace and 1 to 64 models (list): a block with its output as an open file of bytes. Raises what `run` does, except for refused
    scenarios, at the latest at the end of the block; leaving the block early ends the program."""
    with _inputs(lambda _: model_input(models[0]), lambda made: trace_input(trace, made[0])) as (_, rows):
        with _inputs(*[lambda _, item=model: model_input(item) for model in models]) as texts:
            inputs = [rows, *texts]
            with Running("mpsweep", [item.word for item in inputs], inputs, fine=(0, 11)) as running:
                yield running.stream


def _by_mpsweep(rows: Input, models: Sequence[Input], labels: Sequence[Hashable], timeout: float | None) -> Iterator[Scenario]:
    inputs = [rows, *models]
    with Running("mpsweep", [item.word for item in inputs], inputs, fine=(0, 11), timeout=timeout) as running:
        yield from scenarios_of(running.stream, labels, inputs)


def _by_mpsim(rows: Input, models: Sequence[Input], labels: Sequence[Hashable], timeout: float | None) -> Iterator[Scenario]:
    (model,), (label,) = models, labels
    try:
        found = Scenario(label, 0, _report("mpsim", [model.word, rows.word, "--jobs"], [model, rows], True, timeout), None)
    except (ModelError, TraceError, BoundError, VisitsError) as error:
        found = Scenario(label, error.status or 0, None, error)
    yield found


def judged_text(path: Path, warn: Callable[[str], object]) -> str:
    """Returns the text (str) of a model that mpsim has checked by running it without records. If the program is missing or the model has names in
    braces, it isn't checked, and `warn` is called with that. Raises what `text_of` does, and what `mpsim.run` does, with the path."""
    text = text_of(path)
    if found := in_braces(text):
        warn(f"warning: {path} isn't checked: {found[0]} gets its values from mpplan sweep --set")
        return text
    try:
        find("mpsim")
        run(text.encode(errors="surrogateescape"), [])
    except ProgramError as error:
        warn(f"warning: {path} isn't checked: {error.why}")
    except Error as error:
        error.file = os.fsdecode(path)
        raise
    return text
