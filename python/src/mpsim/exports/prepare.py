"""Makes a trace from an export of a telephone system, a till or a spreadsheet. If the export is ambiguous, the error names the option to set."""

from __future__ import annotations

import os
from array import array
from itertools import compress, islice
from operator import gt, ne
from typing import TYPE_CHECKING, Any, NamedTuple

from ..names import is_like, name_for
from ..times.calendar import Calendar, length_text, settings_in, tick_of, working_in
from ..times.texts import SECOND, given
from ..times.zones import Zone
from ..traces.trace import fields_up_to
from ..wording import counted
from .arrivals import judge_far, outside_notes, ticks
from .delimited import LINES
from .events import EVENTS, Units
from .opened import table_in
from .notes import note_values
from .parts import Parts
from .plan import Plan
from .renames import judge_renames
from .result import Prepared
from .rows import Rows, TooManyLeft
from .streams import Stream

if TYPE_CHECKING:
    from collections.abc import Collection, Iterable, Iterator, Mapping, Sequence
    from typing import TextIO

    from ..shapes import Path
    from .events import Passage
    from .records import Records
    from .table import Table

# A field with more characters is rejected: an unclosed quote makes one field of the rest.
FIELD = 1 << 17


class _Words(NamedTuple):
    """The arguments of `prepare`."""

    export: Path | bytes | bytearray
    time: str
    format: str | None
    date: str | None
    date_format: str | None
    day: Sequence[str] | None
    zone: str | None
    twice: str | None
    tick: str | None
    begin: str
    source: str | None
    demand: str | Iterable[str]
    end: str | Sequence[str]
    answered: str | Iterable[str]
    constant: str | Iterable[str]
    code: str | Iterable[str]
    empty: str | None
    rename: str | Iterable[str]
    decimal: str | None
    delimiter: str | None
    encoding: str | None
    skip: int
    header: str | None
    model: str | None
    left_out: TextIO | None
    where: str | Iterable[str]
    begins: str | None
    until: str | None
    far: bool
    duplicates: str | None
    left_out_most: str
    sheet: str | None
    fixed: str | None
    wait: str | Iterable[str]
    abandoned: str | Iterable[str]
    unit: str | None
    steps: str | None
    event: str | None
    arrive_event: str | Iterable[str]
    begin_event: str | Iterable[str]
    end_event: str | Iterable[str]
    abandon_event: str | Iterable[str]
    route: str | None
    calendar: Path | None
    outside: str | None


def prepare(
    export: Path | bytes | bytearray,
    time: str,
    *,
    format: str | None = None,
    date: str | None = None,
    date_format: str | None = None,
    day: Sequence[str] | None = None,
    zone: str | None = None,
    twice: str | None = None,
    tick: str | None = None,
    begin: str = "hour",
    source: str | None = None,
    demand: str | Iterable[str] = (),
    end: str | Sequence[str] = (),
    answered: str | Iterable[str] = (),
    constant: str | Iterable[str] = (),
    code: str | Iterable[str] = (),
    empty: str | None = None,
    rename: str | Iterable[str] = (),
    decimal: str | None = None,
    delimiter: str | None = None,
    encoding: str | None = None,
    skip: int = 0,
    header: str | None = None,
    model: str | None = None,
    left_out: TextIO | None = None,
    where: str | Iterable[str] = (),
    begins: str | None = None,
    until: str | None = None,
    far: bool = False,
    duplicates: str | None = None,
    left_out_most: str = "5%",
    sheet: str | None = None,
    fixed: str | None = None,
    wait: str | Iterable[str] = (),
    abandoned: str | Iterable[str] = (),
    unit: str | None = None,
    steps: str | None = None,
    event: str | None = None,
    arrive_event: str | Iterable[str] = (),
    begin_event: str | Iterable[str] = (),
    end_event: str | Iterable[str] = (),
    abandon_event: str | Iterable[str] = (),
    route: str | None = None,
    calendar: Path | None = None,
    outside: str | None = None,
) -> Prepared:
    """Returns the trace (Prepared) made from an export, which is a path or bytes.

    The other arguments are the options of `mpplan prepare`, as texts, or lists of texts for those that may be repeated, except that `begins` is
    --from, `day` is a list of three, `model` is the text of a model, `left_out` is an open file for the rows left out, and `far` is a bool. Raises
    OSError if the export or the calendar can't be read, and ValueError for an invalid option, if another is needed, or if too few rows are left.

    >>> export = b"When;Who;Long\\n02.03.2026 08:00:17;Desk;1,5\\n02.03.2026 08:00:05;Desk;0,5\\n"
    >>> trace = prepare(export, "When", source="Who", demand="Long=talk:min")
    >>> list(trace.rows())
    [('desk', 5, 30), ('desk', 17, 90)]

    A call such as `mpsim.run` takes it as its trace:

    >>> import mpsim
    >>> mpsim.run("model 1\\nsource desk\\nserver agent talk from desk\\n", trace)["agent"].max
    18
    """
    [(_, made)] = _made(None, _Words(**locals()))
    return made


def prepare_parts(export: Path | bytes | bytearray, time: str, by: str, **options: object) -> Iterator[tuple[str, Prepared]]:
    """Yields the traces of the parts of an export, in order of time: the name of each part, such as 2026-03, and its trace (Prepared).

    `by` is "month", "week" (from Monday, named 2026-W10) or "day"; the other arguments are those of `prepare`, and so are the errors. The export is
    read once, and only one part at a time is in memory. Each trace is the one that `prepare` makes of the part's days, except that sources and codes
    keep their order and their numbers over all parts. Rows that are left out are in the account of the first.

    >>> export = b"When,Long\\n2026-03-31T08:00:00,60\\n2026-04-01T08:00:05,90\\n"
    >>> [(name, list(made.rows())) for name, made in prepare_parts(export, "When", "month", demand=["Long=talk"])]
    [('2026-03', [('jobs', 0, 60)]), ('2026-04', [('jobs', 5, 90)])]
    """
    return _made(by, _words(export, time, options, "prepare_parts"))


def passages(export: Path | bytes | bytearray, time: str, **options: object) -> tuple[list[Passage], Zone, list[str]]:
    """Returns how the units of an event log passed its stations (list of Passage), the Zone of their times, and notes (list of str).

    The arguments and the errors are those of `prepare`, with `unit`.

    >>> log = b"when,id,what\\n2026-03-02 08:00:10,a,on\\n2026-03-02 08:00:30,a,off\\n"
    >>> (found,), _, _ = passages(log, "when", unit="id", begin_event="on", end_event="off")
    >>> [(name, (begin - found.arrival) // 10**9, (end - begin) // 10**9) for name, begin, end in found.visits]
    [('service', 0, 20)]
    """
    words = _words(export, time, options, "passages")
    name = "the export" if isinstance(words.export, (bytes, bytearray)) else os.fspath(words.export)
    try:
        with fields_up_to(FIELD), Stream(words.export) as stream:
            table = table_in(stream, words.encoding, words.delimiter, words.skip, words.header, words.sheet, words.fixed)
            plan = _planned(table, Zone(words.zone, words.twice), _tick(words.tick, words.model), words)
            if plan.log is None:
                raise ValueError("it isn't read as an event log: give unit, steps and the events")
            plan.log.keeps = True
            events, most = Rows(plan, words.left_out, EVENTS), given("--left-out-most", percent, words.left_out_most)
            events.read(most)
            units = Units(plan, plan.log, events)
            units.judge_left(most)
            left = [f"{counted(count, 'unit')} left out: {why}" for why, (count, _) in units.left.items()]
            return list(units.passages()), plan.place, [*plan.warned, *left]
    except ValueError as error:
        raise (TooManyLeft if isinstance(error, TooManyLeft) else ValueError)(f"{name}: {error}") from None


def _words(export: Path | bytes | bytearray, time: str, options: Mapping[str, object], caller: str) -> _Words:
    """Returns the arguments of `prepare`, of which some are given. Raises TypeError, as a call of `caller`, for one that it doesn't have."""
    defaults = prepare.__kwdefaults__
    for name in options.keys() - defaults.keys():
        raise TypeError(f"{caller}() got an unexpected argument {name!r}")
    words: dict[str, object] = {**defaults, **options, "export": export, "time": time}
    return _Words._make(map(words.__getitem__, _Words._fields))


def _made(by: str | None, words: _Words) -> Iterator[tuple[str, Prepared]]:
    """Yields the name and the trace of each part, or the whole trace if `by` is None. `words` has the arguments of `prepare`."""
    per, place = _tick(words.tick, words.model), Zone(words.zone, words.twice)
    name = "the export" if isinstance(words.export, (bytes, bytearray)) else os.fspath(words.export)
    try:
        with fields_up_to(FIELD), Stream(words.export) as stream:
            table = table_in(stream, words.encoding, words.delimiter, words.skip, words.header, words.sheet, words.fixed)
            plan = _planned(table, place, per, words)
            most = given("--left-out-most", percent, words.left_out_most)
            if by is not None:
                yield from _in_parts(plan, by, most, words)
                return
            rows = Rows(plan, words.left_out, EVENTS if plan.log else None)
            rows.read(most)
            unnamed = judge_renames(plan.records, plan.export.rows()[0])
            rows.judge_left(most)
            repeats, read = _judge_repeats(rows, words.duplicates), [rows]
            if plan.log:
                rows = Units(plan, plan.log, rows)
                rows.judge_left(most)
                read.append(rows)
            if not words.far:
                judge_far(plan, rows)
            made = _finished(plan, rows, words.begin, repeats, words.duplicates)
            for some in read:
                _note_left(some, made)
            made.warned += unnamed
            yield "", made
    except ValueError as error:
        raise (TooManyLeft if isinstance(error, TooManyLeft) else ValueError)(f"{name}: {error}") from None
    except OverflowError:
        raise ValueError(f"{name}: times are before the year 1 or after the year 9999: is --format right?") from None


def _in_parts(plan: Plan, by: str, most: float, words: _Words) -> Iterator[tuple[str, Prepared]]:
    """Yields the name and the trace of each part of an export."""
    if plan.log:
        raise ValueError("--split-by can't be used with --unit: choose units by their arrivals with --from and --until")
    with Parts(plan, by, words.left_out) as rows:
        rows.read()
        unnamed = judge_renames(plan.records, plan.export.rows()[0])
        rows.judge(most, words.far)
        for part in rows.parts():
            made = _finished(plan, part, words.begin, _judge_repeats(part, words.duplicates), words.duplicates)
            _note_left(part, made)
            made.warned += unnamed
            yield part.label, made
            # The next part is read into the memory of this one.
            del part, made


def _planned(table: Table, place: Zone, per: int, words: _Words) -> Plan:
    """Returns the Plan for a table."""
    plan = Plan(table, place, per, words.format, words.decimal, words.model)
    plan.working(words.calendar, words.outside)
    plan.where(_each(words.where))
    plan.times(words.time, words.date, words.date_format, words.day, _each(words.answered))
    plan.values(_each(words.demand), _each(words.end), _each(words.constant), _each(words.code), words.empty)
    plan.waits(_each(words.wait), _each(words.abandoned))
    kinds = [_each(kind) for kind in (words.arrive_event, words.begin_event, words.end_event, words.abandon_event)]
    plan.events(words.unit, words.steps, words.event, kinds, words.route)
    plan.sources(words.source, _each(words.rename))
    plan.between(words.begins, words.until)
    return plan


def _each(value: str | Iterable[str]) -> list[str]:
    """Returns the values of an option that may be repeated."""
    return [value] if isinstance(value, str) else list(value)


def _tick(tick: str | None, model: str | None) -> int:
    """Returns the nanoseconds of a tick: the one given, else the model's, else a second."""
    known, _, _ = settings_in(model or "")
    per = given("--tick", tick_of, tick) if tick else known or SECOND
    if known is not None and known != per:
        raise ValueError(f"--tick {tick}: in the model a tick is {length_text(known)}")
    return per


def percent(text: str) -> float:
    """Returns the number (float) of a percentage such as `5%` or `2.5`. Raises ValueError."""
    try:
        value = float(text.strip().removesuffix("%"))
    except ValueError:
        value = -1
    if not 0 <= value <= 100:
        raise ValueError("expected a percentage from 0% to 100%")
    return value


def _finished(plan: Plan, rows: Rows, begin: str, repeats: str | None, duplicates: str | None) -> Prepared:
    """Returns the trace made from the rows read. `repeats` is a note on rows that repeat an earlier one, or None."""
    made = Prepared(["source", "time", *(column.name for column in rows.columns)], _order(plan, rows.sources), plan.per, plan.place.name)
    made.working = str(plan.place.working) if plan.place.working else None
    made.told += [*plan.notes, *([repeats] if duplicates and repeats else [])]
    made.warned += [*plan.warned, *([repeats] if repeats and not duplicates else [])]
    at = ticks(plan, rows, begin, made)
    made.told += plan.place.notes()
    _judge_zero(plan, made)
    made.warned += outside_notes(plan)
    note_values(plan, rows, made)
    made.texts = {new: old for old, new in plan.records.names.items() if new in made.names and not is_like(old, new)}
    made.told += [f"source {old!r} is called {new}" for old, new in plan.records.names.items() if old != new and new in made.names]
    made.warned += _alike(plan.records, made.names)
    _sort(made, rows, at)
    if rows.unwanted:
        made.told.append(f"{counted(rows.unwanted, 'row')} excluded by --where, --from or --until")
    if rows.long:
        made.warned.append(f"row {rows.long}: a field has more than {LINES} lines: is a closing quote missing?")
    return made


def _note_left(rows: Rows, made: Prepared) -> None:
    """Notes the rows or the units that are left out."""
    if rows.left:
        left, count = rows.reasons(), sum(count for count, _ in rows.left.values())
        made.left.update((why, count) for why, (count, _) in rows.left.items())
        made.told += [counted(count, rows.what) + f" {'is' if count == 1 else 'are'} left out", *left[:LINES]]
        made.told += [f"and for {len(left) - LINES} other reasons"] if left[LINES:] else []
        made.told += rows.hints()


def _judge_repeats(rows: Rows, duplicates: str | None) -> str | None:
    """Returns a note (str or None) on rows that repeat an earlier one, and removes them if `duplicates` is "drop"."""
    found = rows.repeated()
    if not found:
        return None
    first = rows.row_of(found[0])
    if duplicates == "drop":
        rows.drop(found)
    what = f"{counted(len(found), 'row')} that repeat{'s' if len(found) == 1 else ''} an earlier row, field by field (the first is row {first})"
    return what + {"drop": ": dropped", "keep": ": kept"}.get(duplicates or "", ": kept; --duplicates drop leaves them out")


def _order(plan: Plan, used: Iterable[str]) -> list[str]:
    """Returns the sources in the order of the model, or else of the export."""
    found, known = set(used), plan.records.known
    order = (plan.records.names.values() or used) if known is None else known
    return [item for item in dict.fromkeys(order) if item in found]


def _alike(records: Records, names: Collection[str]) -> Iterator[str]:
    """Yields warnings about sources whose names differ only by a number, which another export may swap."""
    for old, new in records.names.items():
        plain = name_for(old)
        if new not in (plain, records.renamed.get(old)) and new in names:
            other = f"another is {plain}; another export may swap them"
            yield f"source {old!r} is called {new}, since {other}: name both with --rename"


def _judge_zero(plan: Plan, made: Prepared) -> None:
    """Notes if the model gives another time 0 than that of the trace."""
    _, start, zone = settings_in(plan.model or "")
    if plan.is_ticks or not start:
        return
    said, this = ((at and Calendar(plan.per, at, name).begin, name) for at, name in ((start, zone), (made.zero, made.zone)))
    if made.working != (counts := working_in(plan.model or "")):
        made.unlike.append(f"working time is {made.working}, but in the model it is {counts or 'all hours'}")
    if said != this:
        first, second = (f"{at or 'without a day'}{f' in {name}' if name else ''}" for at, name in ((made.zero, made.zone), (start, zone)))
        made.unlike.append(f"time 0 is {first}, but in the model, which hours, days and pages use, it is {second}")


def _sort(made: Prepared, rows: Rows, ticks: array[int]) -> None:
    """Sorts the records by tick, then by source, then by time; equal ones keep the order of the export."""
    rank, order = {it: at for at, it in enumerate(made.names)}, list(range(len(ticks)))
    keys = [time * 64 + rank[it] for time, it in zip(ticks, rows.sources)]
    made.sources, made.times, made.values = rows.sources, ticks, rows.values
    if any(map(gt, rows.stamps, islice(rows.stamps, 1, None))):
        order.sort(key=rows.stamps.__getitem__)
    order.sort(key=keys.__getitem__)
    # Most records are in their place already.
    moved = list(compress(range(len(order)), map(ne, order, range(len(order)))))
    if not moved:
        return
    made.told.append("records are sorted by time, and at equal times by the order of the sources")
    columns: list[Any] = [made.sources, made.times, *made.values]
    for column in columns:
        for at, value in zip(moved, [column[order[at]] for at in moved]):
            column[at] = value
