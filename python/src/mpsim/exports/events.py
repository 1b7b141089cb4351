"""Event logs: exports with a row per event, whose rows are gathered into one record per unit."""

from __future__ import annotations

from array import array
from collections import Counter
from itertools import groupby, islice
from operator import gt, lt
from typing import TYPE_CHECKING, NamedTuple

from ..limits import GREATEST_VALUE, RECORDS
from ..model import columns
from ..names import name_for
from ..times.texts import Unread
from ..wording import counted, listed, quoted
from .delimited import LINES
from .rows import Rows
from .values import ABANDONED, WAIT, Code, Constant, other_length

if TYPE_CHECKING:
    from collections.abc import Iterable, Iterator, Mapping, Sequence

    from .plan import Column, Plan

    # A station that a unit visits, and the number of the visit.
    Visit = tuple[int, int]

# The most rows of an event log.
EVENTS = 1 << 24
# What an event does to its unit: it arrives, a service begins or ends, it gives up; or a whole step.
ARRIVE, BEGIN, END, ABANDON, STEP = range(5)
OPTIONS = "--arrive-event", "--begin-event", "--end-event", "--abandon-event"


class Made(NamedTuple):
    """A column of a trace that is made of events, by its name."""

    name: str


class Log:
    """How the events of an export become records: the columns (int) of the unit, of the station (`steps`, None if there is one) and of the kind of
    event (None if each row is a step with its service); `kinds` (dict) says what an event of a name does (ARRIVE and so on). `route` is the name of a
    column with the order of stations, or None. `begins` and `ends` are moments between which units arrive, or None."""

    others: Counter[str]
    broken: set[str]
    met: set[str]
    begins: int | None
    ends: int | None
    # As a condition on rows, it is of no column.
    column = -1
    # Whether the units are kept for `Units.passages`.
    keeps = False

    def __init__(self, unit: int, steps: int | None, event: int | None, kinds: Mapping[str, int], route: str | None) -> None:
        self.unit, self.steps, self.event, self.kinds, self.route = unit, steps, event, kinds, route
        self.units, self.stations = _Text("unit", unit), _Text("steps", -1 if steps is None else steps)
        self.others, self.broken, self.met, self.begins, self.ends = Counter(), set(), set(), None, None

    def columns(self) -> list[Column]:
        """Returns columns to read with each row: the unit, the station, and what the event does."""
        return [self.units, Constant("steps", 0) if self.steps is None else self.stations, Kind(self)]

    def holds(self, row: Sequence[str]) -> bool:
        """Returns whether a row is an event that counts."""
        return self.event is None or row[self.event].strip() in self.kinds

    def is_met(self, row: Sequence[str]) -> bool:
        """Returns whether a row is an event that counts."""
        return self.holds(row)

    def excluded(self, row: Sequence[str]) -> None:
        """Counts a row that is excluded by its event."""
        if self.event is not None and not self.holds(row):
            self.others[row[self.event].strip()] += 1

    def leave(self, row: Sequence[str]) -> None:
        """Notes that a row can't be read, so that its unit is left out."""
        if len(row) > self.unit:
            self.broken.add(row[self.unit].strip())


class _Text(Code):
    """A column of texts as numbers, none of them empty."""

    def of(self, row: Sequence[str], begun: Sequence[int]) -> int:
        """Returns 0, as Code.of does. Raises Unread for an empty text."""
        if not row[self.column].strip():
            raise Unread("empty")
        return 0

    def many(self, columns: Sequence[Sequence[str]], begun: Sequence[Sequence[int]]) -> list[int]:
        """Returns nothing yet, as Code.many does. Raises Unread if a text is empty."""
        if not all(map(str.strip, columns[self.column])):
            raise Unread("one by one")
        return []


class Kind:
    """What the event of a row does, as a column of numbers."""

    name, is_service = "event", False

    def __init__(self, log: Log) -> None:
        self._log = log
        self.column: int = -1 if log.event is None else log.event

    def of(self, row: Sequence[str], begun: Sequence[int]) -> int:
        """Returns what the event of a row does (int)."""
        if self._log.event is None:
            return STEP
        word = row[self._log.event].strip()
        self._log.met.add(word)
        return self._log.kinds[word]

    def many(self, columns: Sequence[Sequence[str]], begun: Sequence[Sequence[int]]) -> list[int]:
        """Returns what the events of rows, given as columns, do (list of int)."""
        if self._log.event is None:
            return [STEP] * len(columns[0])
        words = [word.strip() for word in columns[self._log.event]]
        self._log.met.update(words)
        return list(map(self._log.kinds.__getitem__, words))


class Incomplete(ValueError):
    """A unit to leave out, with the reason."""


class Unit(NamedTuple):
    """A unit: the index of its first event, when it arrives, its visits (list of pairs of a station and a length in nanoseconds or ticks), how long
    it waited, whether it gave up, and when each visit begins and ends, in the time that counts (list of pairs of int, nanoseconds)."""

    first: int
    arrival: int
    visits: list[tuple[int, int]]
    wait: int
    abandoned: bool
    spans: list[tuple[int, int]]


class Passage(NamedTuple):
    """How a unit passed its stations: when it arrived, and the column, the begin and the end of each visit (list of tuples of str and two int), all
    in the time that counts (nanoseconds, or ticks if the log has ticks); its codes by column (dict of str to int); and whether it gave up."""

    arrival: int
    visits: list[tuple[str, int, int]]
    codes: dict[str, int]
    abandoned: bool


class Units(Rows):
    """The records that the events in `rows` (Rows, with the columns of a Log at their end) make: one per unit, in order of their arrivals. Raises
    ValueError if they need another option."""

    # What is counted in messages.
    what = "unit"

    def __init__(self, plan: Plan, log: Log, rows: Rows) -> None:
        super().__init__(plan)
        self._log = log
        self._events, self.long, self._outside = rows, rows.long, 0
        self._writer, self._tick = rows._writer, 1 if plan.is_ticks else plan.per
        self.unwanted = rows.unwanted - sum(log.others.values())
        self._units, self._stations, self._kinds = rows.values[-3:]
        self._service = next((values for it, values in zip(plan.columns, rows.values) if _is_service(it)), array("q"))
        self._names = {number: text for text, number in log.units.codes.items()}
        found = list(self._gathered())
        self._found = found if log.keeps else []
        if len(found) > RECORDS:
            raise ValueError(f"{len(found):,} units, but a trace has at most {RECORDS:,} records: choose a part with --from and --until")
        self._fill(found, [(it, values) for it, values in zip(plan.columns[:-3], rows.values) if not _is_service(it)])

    def _gathered(self) -> Iterator[Unit]:
        """Yields the units that are complete."""
        stamps = self._events.stamps
        rises, falls = (sum(map(compare, islice(stamps, 1, None), stamps)) for compare in (gt, lt))
        # A file with its newest rows first is in order from its end.
        places = range(len(stamps)) if falls <= rises else range(len(stamps) - 1, -1, -1)
        order = sorted(sorted(places, key=stamps.__getitem__), key=self._units.__getitem__)
        for unit, events in groupby(order, self._units.__getitem__):
            for some in self._stays(list(events)):
                begin = stamps[some[0]]
                if (self._log.begins is not None and begin < self._log.begins) or (self._log.ends is not None and begin >= self._log.ends):
                    self._outside += 1
                    continue
                try:
                    if self._names[unit] in self._log.broken:
                        raise Incomplete("a row of the unit can't be read")
                    yield self._unit(some)
                except Incomplete as error:
                    self._leave_unit(some[0], str(error))

    def _stays(self, events: list[int]) -> Iterator[list[int]]:
        """Yields the events of each stay of a unit, which begins when it arrives."""
        cuts = [at for at, event in enumerate(events) if self._kinds[event] == ARRIVE]
        if cuts[:1] != [0]:
            cuts = [0, *cuts]
        for begin, end in zip(cuts, [*cuts[1:], len(events)]):
            yield events[begin:end]

    def _unit(self, events: list[int]) -> Unit:
        """Returns the Unit that some events in order of time make. Raises Incomplete."""
        log, kinds, stamps = self._log, self._kinds, self._events.stamps
        arrival = stamps[events[0]]
        visits: list[tuple[int, int]] = []
        spans: list[tuple[int, int]] = []
        count = self.plan.place.counted
        open_at: dict[int, tuple[int, int]] = {}
        gone: int | None = None
        begun: int | None = None
        if ARRIVE in log.kinds.values() and kinds[events[0]] != ARRIVE:
            raise Incomplete("the unit never arrives")
        for event in events:
            kind, station, moment = kinds[event], self._stations[event], stamps[event]
            if gone is not None:
                raise Incomplete("an event after the unit gave up")
            if kind == STEP:
                visits.append((station, self._service[event]))
                spans.append((count(moment), count(moment) + self._service[event] * self._tick))
            elif kind == BEGIN:
                if station in open_at:
                    raise Incomplete("a service begins twice before it ends")
                open_at[station] = len(visits), moment
                visits.append((station, moment))
                spans.append((count(moment), count(moment)))
                begun = moment if begun is None else begun
            elif kind == END:
                if station not in open_at:
                    raise Incomplete("a service ends that hasn't begun")
                at, begin = open_at.pop(station)
                visits[at] = station, self._length(event, begin, moment)
                spans[at] = spans[at][0], count(moment)
            elif kind == ABANDON:
                gone = moment
        if open_at:
            raise Incomplete("a service doesn't end")
        if gone is not None and visits:
            raise Incomplete("the unit gave up after a service")
        if gone is None and not visits:
            raise Incomplete("no service begins")
        until = begun if gone is None else gone
        wait = 0 if until is None or ABANDON not in log.kinds.values() else self._length(events[0], arrival, until)
        return Unit(events[0], arrival, visits, wait, gone is not None, spans if log.keeps else [])

    def _length(self, event: int, begin: int, end: int) -> int:
        """Returns the ticks from one moment to another. Raises ValueError if they may be other moments of an hour that occurs twice."""
        least = other_length(self.plan.place, begin, end)
        if least is not None:
            two = f"{self._ticks(least)} or {self._ticks(self.plan.place.length(begin, end))} ticks"
            what = f"row {self._events.row_of(event)}: the service or the wait is {two} long, since an hour occurs twice"
            raise ValueError(f"{what}: give --twice order, for rows in order of time")
        return self._ticks(self.plan.place.length(begin, end))

    def _ticks(self, length: int) -> int:
        ticks = (2 * length + self._tick) // (2 * self._tick)
        if ticks > GREATEST_VALUE:
            raise Incomplete("a service above 2^36 ticks")
        return ticks

    def _leave_unit(self, event: int, why: str) -> None:
        number, name = self._events.row_of(event), self._names[self._units[event]]
        self._count_left(why, f"row {number}, unit {quoted(name)}")
        if self._writer:
            row = [""] * len(self.plan.export.header)
            row[self._log.unit] = name
            self._writer.writerow([number, why, *row])

    def _fill(self, found: Sequence[Unit], others: Sequence[tuple[Column, array[int]]]) -> None:
        """Makes the columns of the trace."""
        events = self._events
        routes = [_route(unit.visits) for unit in found]
        names = self._column_names(routes, [it.name for it, _ in others])
        at = {key: number for number, key in enumerate(names)}
        self.sources = [events.sources[unit.first] for unit in found]
        self.stamps, self._firsts = array("q", (unit.arrival for unit in found)), array("q", (unit.first for unit in found))
        stations = [array("q", bytes(8 * len(found))) for _ in names]
        for number, (unit, route) in enumerate(zip(found, routes)):
            for key, (_, ticks) in zip(route, unit.visits):
                stations[at[key]][number] = ticks
        made: list[tuple[Column | Made, array[int]]] = [*zip(map(Made, names.values()), stations)]
        for it, values in others:
            made.append((it, array("q", (0 if unit.abandoned and it.is_service else values[unit.first] for unit in found))))
            self._note_differing(it, values)
        if ABANDON in self._log.kinds.values():
            made.append((Made(WAIT), array("q", (unit.wait for unit in found))))
            made.append((Made(ABANDONED), array("q", (unit.abandoned for unit in found))))
        if self._log.route:
            made.append(self._route_column(self._log.route, routes))
        self._names_of = names
        made += self._absent(made, len(found))
        self.columns, self.values = [it for it, _ in made], [values for _, values in made]
        self.plan.judge_columns([it.name for it in self.columns])
        self._note(found, routes, list(names))

    def _column_names(self, routes: Sequence[Sequence[Visit]], names: Sequence[str]) -> dict[Visit, str]:
        """Returns the name of the column for each visit, in the order in which units make them; `names` are those of other columns."""
        places: dict[Visit, list[int]] = {}
        for route in routes:
            for place, key in enumerate(route):
                some = places.setdefault(key, [0, 0])
                some[0] += place
                some[1] += 1
        words = {number: text for text, number in self._log.stations.codes.items()}
        taken = [*names, WAIT, ABANDONED]
        found: dict[int, str] = {}
        for station in sorted({station for station, _ in places}):
            found[station] = "service" if self._log.steps is None else name_for(words[station], taken)
            taken.append(found[station])
            if self._log.steps is not None and found[station] != words[station]:
                self.plan.notes.append(f"station {words[station]!r} is called {found[station]}")
        order = sorted(places, key=lambda key: (places[key][0] / places[key][1], key))
        made: dict[Visit, str] = {}
        for station, visit in order:
            made[station, visit] = found[station] if visit == 1 else name_for(f"{found[station]}_{visit}", taken)
            taken.append(made[station, visit])
        return made

    def _absent(self, made: Sequence[tuple[Column | Made, array[int]]], count: int) -> Iterator[tuple[Made, array[int]]]:
        """Yields columns of 0 for second and later visits that the model names and no unit makes."""
        have = {it.name for it, _ in made}
        for name in columns(self.plan.model or ""):
            base, _, number = name.rpartition("_")
            if name not in have and base in have and number.isdigit():
                self.plan.notes.append(f"{name}: no unit comes this often: 0 ticks")
                yield Made(name), array("q", bytes(8 * count))

    def _route_column(self, name: str, routes: Sequence[Sequence[Visit]]) -> tuple[Code, array[int]]:
        words = {number: text for text, number in self._log.stations.codes.items()}
        code = Code(name, 0, self.plan.known.get(name))
        texts = (" > ".join(words[station] for station, _ in route) for route in routes)
        return code, array("q", [code.code([text]) for text in texts])

    def _note_differing(self, it: Column, values: Sequence[int]) -> None:
        """Warns if a column that should be the unit's differs between its events."""
        seen: dict[int, int] = {}
        differing = {unit for unit, value in zip(self._units, values) if seen.setdefault(unit, value) != value}
        if differing:
            self.plan.warned.append(f"{it.name}: {counted(len(differing), 'unit')} with several values: that of the first event counts")

    def _note(self, found: Sequence[Unit], routes: Sequence[Sequence[Visit]], order: Sequence[Visit]) -> None:
        plan, log = self.plan, self._log
        plan.notes.append(f"{counted(len(self._units), 'event')} of {counted(len(found) + sum(count for count, _ in self.left.values()), 'unit')}")
        if log.others:
            plan.notes.append(f"{counted(sum(log.others.values()), 'row')} with other events: {listed(sorted(log.others)[:LINES])}")
        for option, kind in zip(OPTIONS, range(4)):
            lacking = [word for word, its in log.kinds.items() if its == kind and word not in log.met]
            plan.warned += [f"no row has the event {quoted(word)} ({option})" for word in lacking]
        passed = Counter(key for route in routes for key in route)
        lost = sum(unit.abandoned for unit in found)
        for key, it in zip(order, self.columns):
            if skipped := len(found) - passed[key] - lost:
                plan.notes.append(f"{it.name}: {counted(skipped, 'unit')} without it: 0 ticks")
        plan.notes += [f"{counted(lost, 'unit')} gave up"] if lost else []
        plan.notes += [f"{counted(self._outside, 'unit')} excluded by --from or --until"] if self._outside else []
        rank = {key: number for number, key in enumerate(order)}
        other = [at for at, route in enumerate(routes) if any(rank[late] < rank[early] for early, late in zip(route, route[1:]))]
        if other:
            name = self._names[self._units[found[other[0]].first]]
            more = "" if log.route else ": --route NAME writes the order as a column for a split"
            plan.warned.append(f"{counted(len(other), 'unit')} in another order of stations (the first is unit {quoted(name)}){more}")

    def passages(self) -> Iterator[Passage]:
        """Yields the Passage of each unit, in the order of the records."""
        codes = [(it.name, values) for it, values in zip(self.columns, self.values) if isinstance(it, Code)]
        for number, unit in enumerate(self._found):
            visits = [(self._names_of[key], *span) for key, span in zip(_route(unit.visits), unit.spans)]
            arrival = self.plan.place.counted(unit.arrival)
            yield Passage(arrival, visits, {name: values[number] for name, values in codes}, unit.abandoned)

    def row_of(self, at: int) -> int:
        """Returns the number of the row with the first event of a record, by its index."""
        return self._events.row_of(self._firsts[at])

    def repeated(self) -> list[int]:
        """Returns no records: rows that repeat an earlier one are judged among the events."""
        return []


def _is_service(it: Column) -> bool:
    return not isinstance(it, (Code, Constant, Kind))


def _route(visits: Sequence[tuple[int, int]]) -> list[Visit]:
    """Returns the station and the number of the visit (pairs, from 1) of each visit in order.

    >>> _route([(0, 5), (1, 5), (0, 7)])
    [(0, 1), (1, 1), (0, 2)]
    """
    counts: Counter[int] = Counter()
    found = []
    for station, _ in visits:
        counts[station] += 1
        found.append((station, counts[station]))
    return found
