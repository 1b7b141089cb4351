"""Notes and warnings about the values of a trace that is made from an export."""

from __future__ import annotations

from itertools import islice
from typing import TYPE_CHECKING

from ..times.texts import HOUR
from ..wording import counted
from .delimited import LINES
from .expressions import Expression
from .values import Abandoned, Code, Demand, End, Sum

if TYPE_CHECKING:
    from collections.abc import Iterable, Iterator

    from .plan import Plan
    from .result import Prepared
    from .rows import Rows


def note_values(plan: Plan, rows: Rows, made: Prepared) -> None:
    """Adds notes and warnings about values to a trace (Prepared), and the numbers of its words (`codes`)."""
    gone = sum(values.count(1) for it, values in zip(rows.columns, rows.values) if isinstance(it, Abandoned))
    made.told += [f"{counted(gone, 'job')} that gave up"] if gone else []
    served = plan.records.served
    made.warned += [f"{counted(served, 'service')} above 0 of jobs that gave up: taken as 0"] if served else []
    for it, values in zip(rows.columns, rows.values):
        if isinstance(it, (Demand, Sum, End, Expression)) and (zeros := values.count(0) - gone):
            name = plan.export.header[it.column]
            keeps = "" if gone else f", --abandoned '{name}<=0' keeps them as jobs that gave up"
            where = f": --where '{name}>0' leaves them out{keeps}" if isinstance(it, Demand) else ""
            made.told.append(f"{it.name}: {counted(zeros, 'service')} of 0 ticks{where}")
        if isinstance(it, (Demand, Sum, Expression)) and it.rounded:
            made.told.append(f"{it.name}: {counted(it.rounded, 'different value')} between two ticks, rounded to the nearest")
        elif isinstance(it, Code):
            made.codes[it.name] = it.codes
            made.told.append(f"{it.name}: " + _codes_text(it.codes.items()))
            made.warned += _code_warnings(it)
            if plan.model is not None and it.known is None:
                made.unlike.append(f"{it.name}: the model doesn't say which word has which number, so another export may number them differently")
        if not plan.is_ticks and any(isinstance(part, End) or getattr(part, "times", None) for part in getattr(it, "parts", [it])):
            most = 12 * HOUR // plan.per
            if max(values) > most:
                over = sum(value > most for value in values)
                made.warned.append(f"{it.name}: {counted(over, 'service')} longer than 12 hours")


def _codes_text(codes: Iterable[tuple[str, int]]) -> str:
    """Lists the first few words and their numbers."""
    return ", ".join(f"{number} is {word!r}" for word, number in islice(codes, LINES))


def _code_warnings(column: Code) -> Iterator[str]:
    """Yields warnings about a column of words (Code)."""
    new = [item for item in column.codes.items() if column.known is not None and item[0] not in column.known]
    if new:
        yield f"{column.name}: the model has no number for {counted(len(new), 'word')}: {_codes_text(new)}"
    count = len(set(column.codes.values()))
    if count > 8:
        yield f"{column.name} has {count:,} values, but a split by remainder has at most 8 outputs"
