"""Simulate queueing networks over recorded traces, from Python.

>>> import mpsim
>>> model = "model 1\\nsource door\\nserver desk talk from door\\n"
>>> report = mpsim.run(model, [("door", 0, 4), ("door", 1, 1), ("door", 2, 3)])
>>> report["desk"].wait, report["desk"].p90
(6, 3)

The programs mpsim, mpsweep and mpedit do the work, in separate processes: nothing in this package simulates, and nothing in it is proved. The help of
each function says what it takes and raises; `docs/PYTHON.md` is organised by task.

Times are whole ticks, from 0. A tick is whatever unit the trace uses.
"""

from __future__ import annotations

from typing import TYPE_CHECKING

from .version import __version__ as __version__

if TYPE_CHECKING:
    # The same names as in _MODULES, for editors and type checkers.
    from .builder import Model as Model
    from .errors import (
        BoundError as BoundError,
        EditsError as EditsError,
        Error as Error,
        ModelError as ModelError,
        OutOfMemory as OutOfMemory,
        ProgramError as ProgramError,
        ReadError as ReadError,
        ReportError as ReportError,
        TimedOut as TimedOut,
        TraceError as TraceError,
        UsageError as UsageError,
        VisitsError as VisitsError,
        WriteError as WriteError,
    )
    from .exports.prepare import prepare as prepare
    from .inputs import Add as Add, Set as Set
    from .lines import Again as Again, Exit as Exit, Node as Node
    from .model import variants as variants
    from .node_visits import NodeVisits as NodeVisits, Visit as Visit, Visits as Visits
    from .report import Report as Report
    from .runs import edit as edit, made as made, run as run, scenarios as scenarios, sweep as sweep, visits as visits
    from .sweeps.results import Scenario as Scenario, Sweep as Sweep, load as load

# The module of each name, imported when the name is first used, so that the wheel's commands start quickly. (No module has the name of one of these,
# since importing it would replace that name.)
_MODULES = {
    "run": "runs",
    "made": "runs",
    "visits": "runs",
    "scenarios": "runs",
    "sweep": "runs",
    "edit": "runs",
    "prepare": "exports.prepare",
    "Set": "inputs",
    "Add": "inputs",
    "Model": "builder",
    "variants": "model",
    "Report": "report",
    "Node": "lines",
    "Exit": "lines",
    "Again": "lines",
    "Sweep": "sweeps.results",
    "Scenario": "sweeps.results",
    "load": "sweeps.results",
    "Visits": "node_visits",
    "NodeVisits": "node_visits",
    "Visit": "node_visits",
    "Error": "errors",
    "UsageError": "errors",
    "ModelError": "errors",
    "TraceError": "errors",
    "BoundError": "errors",
    "ReadError": "errors",
    "WriteError": "errors",
    "OutOfMemory": "errors",
    "VisitsError": "errors",
    "EditsError": "errors",
    "ProgramError": "errors",
    "TimedOut": "errors",
    "ReportError": "errors",
}
__all__ = ["__version__", *_MODULES]


if not TYPE_CHECKING:
    # Type checkers know the names from the imports above, and report any other name.
    def __getattr__(name):
        if name not in _MODULES:
            raise AttributeError(f"module {__name__!r} has no attribute {name!r}")
        from importlib import import_module

        value = getattr(import_module(f"{__name__}.{_MODULES[name]}"), name)
        globals()[name] = value
        return value


def __dir__() -> list[str]:
    return sorted({*globals(), *_MODULES})
