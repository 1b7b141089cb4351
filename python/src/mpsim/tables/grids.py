"""Makes a table of pools for each of several loads and numbers of agents."""

from __future__ import annotations

import re
from fractions import Fraction
from typing import TYPE_CHECKING, Callable, Iterator, List, NamedTuple, Optional, Sequence

from ..agents.queues import Queue
from ..limits import GREATEST_VALUE, RECORDS
from ..traces.scale import count_of, scaled
from ..traces.trace import Trace
from ..wording import counted
from .pools import staffing
from .service import PERCENTS, heads

if TYPE_CHECKING:
    from ..shapes import ModelInput, Row
    from ..times.calendar import Calendar
    from .visits import Parts

# The most cells of a grid.
CELLS = 10_000


class Copying(NamedTuple):
    """How a load above that of the trace is made: "shift", "times" or "twins" as in `mpsim.traces.scale.scaled`; the shift (int, ticks), if any; and
    the Calendar by which a copy keeps its time of day, if any."""

    way: str
    shift: Optional[int] = None
    days: "Optional[Calendar]" = None


def loads_of(text: str) -> List[Fraction]:
    """Returns the loads (list of Fraction) in `80%..130%..10%`, `80%..120%` (in steps of 10 %), or `0.8,1,1.25`. Raises ValueError for another text.

    >>> [float(it) for it in loads_of("80%..110%..10%")], [float(it) for it in loads_of("90%,1.25")]
    ([0.8, 0.9, 1.0, 1.1], [0.9, 1.25])
    """
    if ".." not in text:
        return list(map(_load, text.split(",")))
    parts = text.split("..")
    begin, end, step = [*map(_load, parts), Fraction(1, 10)][:3] if len(parts) in (2, 3) else (Fraction(1), Fraction(0), Fraction(1))
    if end < begin or (end - begin) / step > CELLS:
        raise ValueError("expected a rising range such as 80%..130%..10%, or a list such as 80%,100%")
    return [begin + at * step for at in range(int((end - begin) / step) + 1)]


def _load(text: str) -> Fraction:
    found = re.fullmatch(r"(\d{1,5}(?:\.\d{1,4})?)\s*(%?)", text.strip(), re.ASCII)
    if not found or not Fraction(found[1]):
        raise ValueError("expected loads above 0, such as 80%..130%..10% or 80%,100%")
    return Fraction(found[1]) / (100 if found[2] else 1)


def load_text(load: Fraction) -> str:
    """Returns a load as text.

    >>> load_text(Fraction(11, 10)), load_text(Fraction(9, 8))
    ('110%', '112.5%')
    """
    return f"{float(100 * load):.10g}%"


def longer(services: Sequence[int], more: int) -> List[int]:
    """Returns service times (list of int, ticks) that are longer, or shorter, by this many ticks, at least 0. Those of 0 stay 0: nobody served these
    calls.

    >>> longer([9, 2, 0], -5), longer([9, 2, 0], 5)
    ([4, 0, 0], [14, 7, 0])
    """
    return [max(0, value + more) if value else 0 for value in services]


def unchanged(services: Sequence[int], more: int) -> Iterator[str]:
    """Yields the lines (str) on service times of 0, which `longer` doesn't change, and on those that it shortens to 0, if there are any.

    >>> list(unchanged([9, 2, 0], -5))
    ['1 of 3 calls needs 0 ticks and stays so', '1 of 3 calls becomes one of 0 ticks']
    """
    zeros, shortened = services.count(0), sum(0 < value <= -more for value in services)
    of = f"of {counted(len(services), 'call')}"
    if zeros:
        yield f"{zeros:,} {of} {'needs 0 ticks and stays' if zeros == 1 else 'need 0 ticks and stay'} so"
    if shortened:
        yield f"{shortened:,} {of} {'becomes one' if shortened == 1 else 'become ones'} of 0 ticks"


def with_longer(trace: Trace, column: str, more: int) -> Trace:
    """Returns a trace whose values in a column are longer (or shorter) by this many ticks, as `longer` makes them. Raises ValueError for an unknown
    column, and for a value above the limit.

    >>> with_longer(Trace("t.csv", ["source", "time", "talk"], [["door", "0", "9"], ["door", "1", "2"]]), "talk", -5).numbers("talk")
    [4, 0]
    """
    made = longer(trace.numbers(column), more)
    if (greatest := max(made, default=0)) > GREATEST_VALUE:
        raise ValueError(f"{trace.path}: column {column}: {greatest} is above the limit of {GREATEST_VALUE}")
    return trace.with_values(**{column: made})


def with_copies(trace: Trace, load: Fraction, copying: Copying) -> Trace:
    """Returns a trace with this load. Raises ValueError for too many records.

    >>> with_copies(Trace("t.csv", ["source", "time"], [["a", "0"], ["a", "9"]]), Fraction(1, 2), Copying("shift", 9)).times()
    [9]
    """
    k, n = load.numerator, load.denominator
    way = copying.way if load > 1 or copying.way == "times" else "twins"
    if (over := count_of(trace, k, n, way, ()) - RECORDS) > 0:
        raise ValueError(f"load {load_text(load)}: {counted(over, 'record')} above the limit of {RECORDS}")
    return scaled(trace, k, n, way, copying.shift, (), copying.days)


def grid(
    model: ModelInput,
    trace: Trace,
    node: str,
    agents: Sequence[int],
    loads: Sequence[Fraction],
    copying: Copying,
    within: Sequence[int] = (20,),
    percents: Sequence[float] = PERCENTS,
    tell: Callable[[int], None] = lambda done: None,
    parts: "Optional[Parts]" = None,
) -> Iterator[Row]:
    """Yields the header and the rows (lists) of a table of pools in place of a server, a row per load and number of agents, with Parts also a row per
    part: the load, as text, and what `mpsim.tables.pools.staffing` returns. Each load is another trace, and each cell is pooled and run again. `tell`
    is called with the number of cells done. Raises what `Queue` does, and ValueError for too many records.

    >>> trace = Trace("t.csv", ["source", "time", "talk"], [["door", "0", "9"], ["door", "2", "4"], ["door", "20", "4"]])
    >>> model = "model 1\\nsource door\\nserver desk talk from door\\n"
    >>> for row in grid(model, trace, "desk", [1, 2], [Fraction(1)], Copying("times"), within=[5], percents=[90]):
    ...     print(*row)
    load agents util came departed lost held mean_wait p90 max within_5_of_all within_5_of_departed
    100% 1 0.7083 3 3 0 0 2.333 7 7 0.666667 0.666667
    100% 2 0.3541 3 3 0 0 0.0 0 0 1.0 1.0
    """
    yield ["load", "agents", *([parts.head] if parts else []), "util", *heads(within, percents)]
    done = 0
    for load in loads:
        queue = Queue(model, with_copies(trace, load, copying), node)
        for many in agents:
            _, *rows = staffing(queue, [many], within, percents, parts=parts)
            done += 1
            tell(done)
            yield from ([load_text(load), *row] for row in rows)
