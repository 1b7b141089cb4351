"""Decides how to read the columns of an export: what is given, what is detected, and what must be asked for."""

from __future__ import annotations

import re
from difflib import get_close_matches
from typing import TYPE_CHECKING

from ..limits import COLUMNS, GREATEST_VALUE
from ..model import columns, sources
from ..names import TAKEN, is_name, name_for
from ..times.calendar import working_in
from ..times.formats import found_format, judged_format
from ..times.lengths import Lengths, found_decimal
from ..times.moments import Moments
from ..times.texts import clock, given, iso, length
from ..times.working import WorkingTime, openings_in, read_openings
from ..times.zones import Zone
from ..wording import listed
from .codes import codes_in
from .conditions import parsed
from .events import BEGIN, OPTIONS, Log
from .events import END as ENDS
from .expressions import Expression, terms
from .logs import event_column, found_units
from .records import Dates, Numbers, Records, Times
from .renames import rename_of
from .values import ABANDONED, TIME, WAIT, Abandoned, Code, Constant, Demand, End, Sum, Wait

if TYPE_CHECKING:
    from collections.abc import Iterable, Sequence
    from typing import Union

    from ..shapes import Path
    from .conditions import Condition
    from .events import Kind
    from .table import Table

    Column = Union[Demand, Sum, End, Expression, Constant, Code, Wait, Abandoned, Kind]

# What becomes of jobs that arrive outside of working time, the default first.
OUTSIDE = "move", "refuse"


class Plan:
    """How to read the columns of an Export, in a Zone, with a tick (int, nanoseconds). `notes` and `warned` (lists of str) are notes on what was
    detected. The texts are options of `mpplan prepare`; `model` is a model's text or None. Raises ValueError for an invalid option, and if another
    is needed."""

    warned: list[str]
    columns: list[Column]
    conditions: list[Condition | Log]
    gone: list[Condition]
    log: Log | None

    def __init__(self, export: Table, place: Zone, per: int, format: str | None, decimal: str | None, model: str | None) -> None:
        self.export, self.place, self.per, self.decimal, self.model = export, place, per, decimal, model
        self.format = judged_format(format) if format else None
        self.notes, self.warned, self.columns, self.conditions = list(export.notes), [], [], []
        self.gone = []
        self.known, self.log, self.is_ragged = codes_in(model or ""), None, False
        self._sample = export.sample

    def working(self, calendar: Path | None, outside: str | None) -> None:
        """Sets which time counts, by the calendar at a path, or else by that of the model; and what becomes of jobs that arrive outside of it: "move"
        (to the next opening) or "refuse"."""
        if outside not in (None, *OUTSIDE):
            raise ValueError(f"--outside {outside}: expected one of {', '.join(OUTSIDE)}")
        said = working_in(self.model or "")
        openings = read_openings(calendar) if calendar is not None else openings_in(said) if said else None
        if openings:
            self.place.working = WorkingTime(openings, self.place)
            self.notes += [] if calendar is not None else ["working time is that of the model"]
        elif outside:
            raise ValueError("--outside requires --calendar, or a model with working time")
        self.outside = outside or OUTSIDE[0]

    def where(self, words: Iterable[str]) -> None:
        """Sets the conditions on rows. Formats are then detected from the rows that meet them."""
        self.conditions = [parsed(word, self.export, self._mark) for word in words]
        if self.conditions:
            self._sample = [row for row in self._sample if all(condition.is_met(row) for condition in self.conditions)] or self._sample

    def _texts(self, column: int) -> list[str]:
        return [row[column] for row in self._sample]

    def _moments(self, column: int, form: str | None, option: str = "--format") -> Moments:
        name = self.export.header[column]
        if form is None:
            try:
                form = found_format(self._texts(column))
            except ValueError as error:
                raise ValueError(f"column {name!r}: {error} ({option})") from None
            note = f"column {name!r} is read as {form}"
            self.notes += [] if note in self.notes else [note]
        return Moments(form, self.place)

    def _more_times(self, column: int) -> Times:
        """Returns another column of times, given its index. It uses the given format if its texts have it."""
        name = self.export.header[column]
        texts = [text for text in self._texts(column) if text.strip()][:100]
        form = self.format if self.format and 10 * sum(map(Moments(self.format, Zone()).is_one, texts)) >= 9 * len(texts) else None
        how = self._moments(column, form)
        if self.time.how.is_of_day and how.form == "excel":
            how.make_of_day()
        if (how.form == "ticks") != self.is_ticks:
            raise ValueError(f"column {name!r} is read as {how.form}, but column {self.export.header[self.time.column]!r} as {self.time.how.form}")
        return Times(column, how, self.place, arrival=self.time)

    def _dates(self, date: str | None, date_format: str | None, day: Sequence[str] | None) -> tuple[Dates | Numbers | None, str | None]:
        """Returns the column or columns with the day of a time, or None, and the option that names them (str)."""
        if date is not None and day is not None:
            raise ValueError("--date and --day exclude each other: give one of them")
        if date is not None:
            at = self.export.column(date)
            return Dates(at, self._moments(at, date_format and judged_format(date_format), "--date-format")), "--date"
        if day is None:
            return None, None
        columns = list(map(self.export.column, day))
        if len(set(columns)) != 3 or len(columns) != 3:
            raise ValueError(f"--day {' '.join(day)}: expected three columns: the year, the month and the day")
        return Numbers(columns), "--day"

    def times(self, time: str, date: str | None, date_format: str | None, day: Sequence[str] | None, answered: Iterable[str]) -> None:
        """Sets the columns of arrival times and of service beginnings."""
        column = self.export.column(time)
        how = self._moments(column, self.format)
        dates, option = self._dates(date, date_format, day)
        if dates:
            if not how.is_of_day and how.form != "excel":
                raise ValueError(f"column {time!r} isn't only a time of day, so {option} can't be used")
            how.make_of_day()
        self.has_day, self.is_ticks = not how.is_of_day or dates is not None, how.form == "ticks"
        if self.place.name and (self.is_ticks or not self.has_day):
            raise ValueError(f"column {time!r} has {'ticks' if self.is_ticks else 'no day'}, so --zone can't be used")
        if self.place.working and (self.is_ticks or not self.has_day):
            has = "ticks" if self.is_ticks else "no day"
            raise ValueError(f"column {time!r} has {has}, so working time can't be counted: give --date, or a --model without working time")
        if date_format and not date:
            raise ValueError("--date-format requires --date")
        self.time = Times(column, how, self.place, dates)
        self.answered = [self._more_times(self.export.column(name)) for name in answered]

    def readers(self) -> list[Times]:
        """Returns all columns of times."""
        parts = [part for column in self.columns for part in getattr(column, "parts", [column])]
        ends = [part.times for part in parts if isinstance(part, End)]
        return [self.time, *self.answered, *ends, *(times for part in parts if isinstance(part, Expression) for _, times in part.times)]

    def _named(self, name: str | None, column: int | None = None) -> str:
        """Returns the name of a column of the trace, by default made from its name in the export."""
        taken, old = [column.name for column in self.columns], None if column is None else self.export.header[column]
        made = name or name_for(old or "", taken)
        if not is_name(made) or made in taken:
            why = "is already taken" if made in taken else "is reserved"
            if made not in (*taken, *TAKEN):
                why = "is invalid: use a lower-case letter, then lower-case letters, digits and underscores, at most 32"
            raise ValueError(f"the column's name {made!r} {why}")
        if not name and made != old:
            self.notes.append(f"column {old!r} is called {made}")
        return made

    def _ticks(self, option: str, text: str) -> int:
        ticks, left = divmod(given(option, length, text), self.per)
        if left or ticks > GREATEST_VALUE:
            raise ValueError(f"{option} {text} is {'not a whole number of' if left else 'more than 2^36'} ticks")
        return ticks

    def values(self, demand: Iterable[str], end: Sequence[str], constant: Iterable[str], code: Iterable[str], empty: str | None) -> None:
        """Sets the columns of the trace."""
        missing = None if empty is None else self._ticks("--empty", empty)
        for word in demand:
            self._demand(word, missing)
        if self.answered and not end:
            raise ValueError("--answered requires --end")
        if len(self.answered) not in (0, 1, len(end)):
            raise ValueError(f"--answered is given {len(self.answered)} times for {len(end)} of --end: give it once, or once per --end")
        for number, word in enumerate(end, 1):
            column, name, _ = self.export.parse(word)
            times = self._more_times(column)
            begin = min(number, len(self.answered))
            self._add(End(name or self._named(name, column), times, 1 if self.is_ticks else self.per, missing, begin))
        for word in constant:
            name, equals, value = word.partition("=")
            if not equals:
                raise ValueError(f"--constant {word}: expected NAME=LENGTH, e.g. wrap=90s")
            self.columns.append(Constant(self._named(name), self._ticks(f"--constant {name}", value)))
        for item in self.columns:
            if isinstance(item, Sum):
                self.notes.append(f"{item.name} is the sum of {' and '.join(repr(self.export.header[part.column]) for part in item.parts)}")
        for word in code:
            column, name, _ = self.export.parse(word)
            name = self._named(name, column)
            self.columns.append(Code(name, column, self.known.get(name)))

    def waits(self, wait: Sequence[str], abandoned: Sequence[str]) -> None:
        """Sets the column of waits, and which jobs gave up."""
        parts: list[Demand | End] = []
        unsure: dict[int, str] = {}
        for word in wait:
            column, name, unit = self.export.parse(word, has_unit=True)
            if unit == TIME or unit is None and self._is_time(column):
                parts.append(End(name or WAIT, self._more_times(column), 1 if self.is_ticks else self.per))
            else:
                parts.append(Demand(name or WAIT, column, self._lengths("--wait", word, column, unit)))
                unsure.update({column: f"--wait {word}"} if unit is None else {})
        if parts:
            self.columns.append(Wait(self._named(parts[0].name), parts, unsure, self.time.clocks()))
        if abandoned:
            self.gone = [parsed(word, self.export, self._mark, "--abandoned") for word in abandoned]
            self.columns.append(Abandoned(self._named(ABANDONED), self.gone))
            self.notes += [] if wait else ["jobs that gave up have no wait: --wait COLUMN gives one"]

    def judge_columns(self, names: Sequence[str]) -> None:
        """Raises ValueError if columns with these names are too many for a trace, or lack one that the model names."""
        if len(names) > COLUMNS:
            raise ValueError(f"{len(names)} columns; the limit of a trace is {COLUMNS}" + (f": {listed(names)}" if self.log else ""))
        lacking = [item for item in columns(self.model or "") if item not in names]
        if lacking:
            given = "station" if self.log else "--demand, --end, --constant or --code"
            raise ValueError(f"the model names {', '.join(lacking)}, which no {given} provides")

    def _demand(self, word: str, empty: int | None) -> None:
        """Adds a column of service times, or adds it to a column of the same name."""
        try:
            column, name, unit = self.export.parse(word, has_unit=True)
        except ValueError:
            found = terms(word, self.export)
            if found is None:
                raise
            self._add(self._expression(word, *found, empty))
            return
        how = self._lengths("--demand", word, column, unit)
        at = next((at for at, it in enumerate(self.columns) if it.name == name), None)
        known = [part.column for part in getattr(self.columns[at], "parts", [self.columns[at]])] if at is not None else []
        if column in known:
            raise ValueError(f"--demand {word}: the column {self.export.header[column]!r} is already part of {name}")
        self._add(Demand(name or self._named(name, column), column, how, empty))

    def _add(self, value: Demand | End | Expression) -> None:
        """Adds a column of the trace, or adds it to a column of service times of the same name."""
        at = next((at for at, it in enumerate(self.columns) if it.name == value.name), None)
        if at is None or isinstance(self.columns[at], (Constant, Code)):
            self._named(value.name)
            self.columns.append(value)
        else:
            self.columns[at] = Sum([*getattr(self.columns[at], "parts", [self.columns[at]]), value])

    def _expression(self, word: str, name: str, found: Iterable[tuple[int, int, str | None]], empty: int | None) -> Expression:
        """Returns the Expression with these terms. Columns with a day and a time are times. Those that could be times of day are times if as many of
        them are added as subtracted, but only in rows in which lengths would give the same; one of them is a time if it is balanced by the others."""
        times: list[tuple[int, int]] = []
        lengths: list[tuple[int, int, Lengths]] = []
        unsure: list[tuple[int, int, Lengths]] = []
        for sign, column, unit in found:
            if unit == TIME or unit is None and self._is_time(column):
                times.append((sign, column))
            else:
                how = self._lengths("--demand", self.export.header[column], column, unit)
                (unsure if unit is None and self.time.could_be(self._texts(column)) else lengths).append((sign, column, how))
        is_balanced = sum(sign for sign, _, _ in unsure) == 0
        if unsure and is_balanced or self.time.how.is_of_day or self.is_ticks:
            times += [(sign, column) for sign, column, _ in unsure]
        else:
            lengths, unsure = lengths + unsure, []
        if sum(sign for sign, _ in times) != 0 or len(unsure) > 1 and not is_balanced:
            raise ValueError(f"--demand {word}: as many times must be subtracted as are added; a service time may need its unit, e.g. Wrap:s")
        if self.is_ticks and times:
            raise ValueError(f"--demand {word}: times in ticks can't be subtracted; give service times their unit, e.g. Wrap:ticks")
        return Expression(name, [(sign, self._more_times(column)) for sign, column in times], lengths, self.per, empty, unsure if is_balanced else [])

    def _lengths(self, option: str, word: str, column: int, unit: str | None) -> Lengths:
        """Returns how to read a column of lengths; `word` is the value of an option, or the part of it, to which a unit can be added."""
        return Lengths(unit or "s", self._mark(column), self.per, f"{option} {word}")

    def _is_time(self, column: int) -> bool:
        """Returns whether a column is that of --time or --answered, or most of its texts have the form of --time, which has a day."""
        if column in [times.column for times in (self.time, *self.answered)]:
            return True
        return not self.time.how.is_of_day and not self.is_ticks and self.time.is_like(self._sample, column)

    def _mark(self, column: int) -> str | None:
        try:
            return self.decimal or found_decimal(dict.fromkeys(self._texts(column)))
        except ValueError as error:
            raise ValueError(f"column {self.export.header[column]!r}: {error} (--decimal)") from None

    def events(self, unit: str | None, steps: str | None, event: str | None, kinds: Sequence[Sequence[str]], route: str | None) -> None:
        """Sets how the rows of an event log are gathered into records. `kinds` has the names of the events (lists of str) that --arrive-event,
        --begin-event, --end-event and --abandon-event give."""
        if unit is None:
            values: list[object] = [steps, event, route, *kinds]
            for option in (option for option, value in zip(("--steps", "--event", "--route", *OPTIONS), values) if value):
                raise ValueError(f"{option} requires --unit")
            if hint := found_units(self.export.header, self._sample, self._used()):
                self.warned.append(hint)
            self.judge_columns([it.name for it in self.columns])
            return
        found: dict[str, int] = {}
        for option, kind, words in zip(OPTIONS, range(len(kinds)), kinds):
            for word in words:
                if word in found:
                    raise ValueError(f"the event {word!r} is given twice ({option})")
                found[word] = kind
        if self.gone or any(isinstance(it, Wait) for it in self.columns):
            raise ValueError("--wait and --abandoned can't be used with --unit: the events give them (--abandon-event)")
        services = [it for it in self.columns if not isinstance(it, (Code, Constant))]
        if bool(kinds[BEGIN]) != bool(kinds[ENDS]) or found and not kinds[BEGIN]:
            raise ValueError("--begin-event and --end-event are given together: without the one, the length of a service is unknown")
        if found and services:
            raise ValueError(f"{services[0].name}: the events give the services: leave --demand and --end out")
        if not found and len(services) != 1:
            how = "add columns up by giving them one name" if services else "give --begin-event and --end-event, --end, or --demand"
            raise ValueError(f"each row of --unit {unit} needs one service time, but has {len(services) or 'none'}: {how}")
        if not found and event:
            raise ValueError("--event requires --begin-event and --end-event")
        if route:
            self._named(route)
        step = None if steps is None else self.export.column(steps)
        at = None
        if found:
            at = self.export.column(event) if event is not None else event_column(self.export.header, self._sample, found)
            self.notes += [] if event is not None else [f"column {self.export.header[at]!r} has the events"]
        self.log = Log(self.export.column(unit), step, at, found, route)
        self.is_ragged = bool(found) and not self.export.has_header
        self.columns += self.log.columns()
        self.conditions.append(self.log)

    def _used(self) -> set[int]:
        """Returns the indices of the columns that are read as times or services."""
        dates = self.time.dates
        days = dates.columns if isinstance(dates, Numbers) else [dates.column] if dates else []
        return {*days, *(item.column for item in (self.time, *self.answered, *self.columns) if not isinstance(item, Code))}

    def sources(self, source: str | None, rename: Iterable[str]) -> None:
        """Sets the sources, which completes the plan."""
        header, known = self.export.header, sources(self.model) if self.model else None
        column: int | None = None
        only: str | None = source or "jobs"
        renamed: dict[str, str] = {}
        for old, new in map(rename_of, rename):
            if old in renamed:
                raise ValueError(f"--rename {old} is given twice")
            renamed[old] = new
        if source is not None and (source in header or re.fullmatch(r"#[1-9]\d{0,4}", source)):
            column, only = self.export.column(source), None
        elif not is_name(only or "") or source and source.casefold() in map(str.casefold, header):
            raise ValueError(f"no column {source!r} for --source; it has {listed(header)}")
        elif known is not None and only not in known:
            raise ValueError(f"the model has no source {only} (--source)")
        elif source:
            self.notes.append(f"all records get the source {source}")
            if like := get_close_matches(source, header, 1, 0.8):
                self.warned.append(f"no column is called {source!r}, but one is called {like[0]!r} (--source)")
        if renamed and column is None:
            raise ValueError("--rename requires a column for --source")
        self.records = Records(len(header), self.time, self.answered, self.columns, column, only, renamed, known)
        self.records.gone = self.gone
        self.records.conditions, self.records.ended = self.conditions, self._in_order_of()
        # The rows from which formats were detected aren't needed any more.
        self._sample = self.export.sample = []

    def _in_order_of(self) -> Times | None:
        """Returns the ends of services (Times) if the rows are in order of those and not of the arrivals, which matters for --twice order; else
        None."""
        parts = [part for column in self.columns if column.is_service for part in getattr(column, "parts", [column])]
        ends = [part.times for part in parts if isinstance(part, End)]
        ends += [times for part in parts if isinstance(part, Expression) for sign, times in part.times if sign > 0]
        ends = list({times.column: times for times in ends if not times.how.is_of_day}.values())
        if self.place.twice != "order" or self.time.dates or len(ends) != 1:
            return None
        found = [times.descents(self._texts(times.column)) for times in (self.time, ends[0])]
        if found[1] < found[0]:
            self.notes.append(f"rows are in order of {self.export.header[ends[0].column]!r}")
            return ends[0]
        return None

    def between(self, begins: str | None, until: str | None) -> None:
        """Sets the times between which jobs arrive."""
        # The jobs of an event log are judged by when they arrive.
        of = self.log or self.records
        of.begins, of.ends = (self._bound(option, text) if text else None for option, text in (("--from", begins), ("--until", until)))

    def _bound(self, option: str, text: str) -> int:
        """Returns the moment of --from or --until."""
        if self.is_ticks:
            raise ValueError(f"{option} {text}: it can't be used with times in ticks")
        if not self.has_day:
            return given(option, clock, text)
        wall, offset = given(option, iso, text)
        return wall - offset if offset is not None else self.place.first(wall)
