"""Looks at an export as a whole: what each of its columns contains, and the options with which `prepare` makes a trace from it."""

from __future__ import annotations

import os
import re
from array import array
from collections.abc import Callable, Iterator, Mapping, Sequence
from fractions import Fraction
from typing import Any, NamedTuple, Optional, Union

from ..limits import RECORDS, SOURCES
from ..progress import Progress, uncollected
from ..times.formats import found_format, is_of_day
from ..times.lengths import Lengths, duration, found_decimal
from ..times.moments import Moments
from ..times.texts import DAY, HOUR, MINUTE, SECOND, Cache
from ..times.zones import Zone
from ..traces.trace import fields_up_to
from ..wording import counted, quoted
from .logs import log_options, queue_header
from .opened import table_in
from .prepare import FIELD, prepare
from .streams import Stream

HEADS = "column", "kind", "empty", "different", "least", "greatest", "example"
# Different texts of a column are counted up to this number.
DIFFERENT = 10_000
# Names of columns, in the languages of many exports.
_SERVICE = re.compile(r"talk|handl|service|durat|dauer|gespr|bearbeit|acw|wrap|hold|billsec|work|process|setup|durée|duraci", re.I)
_NO_SERVICE = re.compile(r"wait|warte|queue.?time|ring|delay|\bid\b|number|nummer|port\b|cause|seq", re.I)
_SOURCE = re.compile(r"queue|skill|split|depart|abteil|schlange|source|line|type|group|gruppe|service|station|arbeitsplatz|protocol", re.I)
_UNITS = ((r"\bms\b|millis", "ms"), (r"\bmin\b|minute", "min"), (r"\bµs\b|\bus\b|micros", "us"), (r"\bh\b|hours|stunden", "h"))
_EPOCHS = ("unix", 10**9, 4 * 10**9), ("unixms", 10**12, 4 * 10**12)


class Column(NamedTuple):
    """What a column of an export contains: its kind ("time", "date", "time of day", "length", "number", "text", "empty" or "unknown") and the format
    of its times, the number of empty fields and of different texts, the least and the greatest value (texts), an example, and, if the kind or the
    format can't be known, why."""

    name: str
    kind: str
    form: Optional[str]
    empty: int
    different: int
    least: Optional[str]
    greatest: Optional[str]
    example: str
    doubt: Optional[str]

    def row(self) -> list[Union[str, int, None]]:
        """Returns what HEADS names."""
        kind = f"{self.kind} ({self.form})" if self.form else self.kind
        different: Union[str, int] = f"over {DIFFERENT}" if self.different > DIFFERENT else self.different
        return [self.name, kind, self.empty, different, self.least, self.greatest, self.example]


class Inspection(NamedTuple):
    """An export as `inspect` sees it: its columns, notes (lists of str), and the options of `prepare` as in a recipe, or None if they can't be
    known."""

    columns: list[Column]
    notes: list[str]
    options: Optional[dict[str, Any]]


def inspected(export: Union[str, os.PathLike[str]], **file: Any) -> Inspection:
    """Returns what an export contains (Inspection). `file` has those options of `prepare` that say how to read the file: decimal, delimiter,
    encoding, fixed, header, sheet and skip. The options found have been tried. Raises OSError if the file can't be read, and ValueError if it isn't a
    table, and for what isn't a file.

    >>> import os, tempfile
    >>> with tempfile.TemporaryDirectory() as folder:
    ...     with open(os.path.join(folder, "calls.csv"), "w") as file:
    ...         _ = file.write("Start,Queue,Talk\\n2026-03-02 08:00,b,40\\n2026-03-02 08:01,a,30\\n2026-03-02 08:02,a,20\\n")
    ...     found = inspected(file.name)
    >>> [column.kind for column in found.columns], found.options
    (['time', 'text', 'number'], {'time': 'Start', 'source': 'Queue', 'demand': ['Talk']})
    """
    if not os.path.isfile(export):
        raise ValueError(f"{os.fspath(export)}: it is read twice, so it must be a file")
    decimal = file.get("decimal")
    try:
        with fields_up_to(FIELD), Stream(export) as stream:
            table = table_in(stream, **{name: value for name, value in file.items() if name != "decimal"})
            if table.has_header and (header := queue_header(table.header)):
                file["header"] = header
                return inspected(export, **file)
            looks = [_Look(name, [row[at] for row in table.sample], decimal) for at, name in enumerate(table.header)]
            notes, sample = list(table.notes), table.sample
            notes += _read(table, looks)
    except ValueError as error:
        raise ValueError(f"{os.fspath(export)}: {error}") from None
    columns = [look.column() for look in looks]
    notes += [f"column {look.name!r}: {counted(look.unread, 'field')} of another form" for look in looks if look.unread]
    notes += [f"column {column.name!r} can't be told: {column.doubt}" for column in columns if column.doubt]
    options, why = _proposed(looks)
    if options is not None:
        given = {name: value for name, value in file.items() if value}
        if gathered := _gathered(looks, sample, options):
            notes.append(_of_units(gathered))
        first, says = (None, "") if gathered is None else _tried(export, {**gathered, **given})
        notes += [f"the rows can't be gathered: {says}"] if gathered and first is None else []
        options, why = (first, says) if first else _tried(export, {**options, **given})
    return Inspection(columns, [*notes, *([f"{'no command can be proposed' if options is None else 'warning'}: {why}"] if why else [])], options)


def _gathered(looks: Sequence[_Look], sample: Sequence[Sequence[str]], options: Mapping[str, Any]) -> Optional[dict[str, Any]]:
    """Returns options that gather the rows of a log into records, made from those for a record per row; None if it isn't a log."""
    clocks = [(at, look) for at, look in enumerate(looks) if look.name in (options["time"], options.get("date"))]
    rows, moments = [], []
    for row in sample:
        parts = [look.value_of(row[at]) for at, look in clocks]
        if None not in parts:
            rows.append(row)
            moments.append(sum(parts))
    used = [at for at, look in enumerate(looks) if look.kind in ("time", "date", "time of day", "length") or look.name == options["time"]]
    found = log_options([look.name for look in looks], rows, moments, used, "demand" in options or "end" in options)
    if found is None:
        return None
    made = {name: options[name] for name in ("time", "date", "format") if name in options}
    others = {*made.values(), *(value for value in found.values() if isinstance(value, str))}
    _add_source(made, [look for look in looks if look.kind == "text" and look.name not in others])
    if "event" in found:
        return {**made, **found}
    services = [look for look in looks if look.name + _unit(look) in options.get("demand", [])]
    demand = [look.name + ("=service" if services[1:] else "") + _unit(look) for look in services]
    steps = {name: options[name] for name in ("end", "answered", "where") if name in options}
    return {**made, **found, **({"demand": demand} if demand else {}), **steps}


def _of_units(options: Mapping[str, Any]) -> str:
    """Returns a note on how rows are gathered into records."""
    per = f"one record per {options['unit']!r}" + (f", one column per {options['steps']!r}" if "steps" in options else "")
    if "event" not in options:
        return f"rows look like steps: {per}; without --unit and --steps each row is a record"
    begins, ends = (" or ".join(options[name]) for name in ("begin-event", "end-event"))
    return f"rows look like events: {per}; a service begins with {begins} and ends with {ends}"


def _tried(export: Union[str, os.PathLike[str]], options: dict[str, Any]) -> tuple[Optional[dict[str, Any]], str]:
    """Returns options of `prepare` as they work on an export, with the rows that may be left out, or None; and what to say about them."""
    try:
        made = prepare(export, left_out_most="100%", **{name.replace("-", "_"): value for name, value in options.items()})
    except ValueError as error:
        return None, str(error)
    left = sum(made.left.values())
    percent = -(-100 * left // (left + len(made)))
    if percent <= 5:
        return options, ""
    says = f"{left:,} of {counted(left + len(made), 'row')} would be left out: {', '.join(made.left)}"
    return ({**options, "left-out-most": f"{percent}%"} if percent <= 50 else None), says


class _Look:
    """What is known of a column: first from a sample of its texts, then from all."""

    def __init__(self, name: str, texts: Sequence[str], decimal: Optional[str]) -> None:
        self.name = name
        some = [text.strip() for text in texts if text.strip()]
        self.kind, self.form, self.doubt, self.read = _kind_of(name, some, decimal)
        self.empty, self.filled, self.unread = 0, 0, 0
        # A day whose format can't be known, and no time of it.
        self.is_day = bool(self.doubt) and not any(":" in text for text in some)
        self.texts: set[str] = set()
        self.values = array("q")
        self.least: Any = None
        self.greatest: Any = None
        self._seen = Cache(self._value)
        self.example = next((text for text in some if self._seen[text] is not None), some[0] if some else "")

    def value_of(self, text: str) -> Any:
        """Returns the value of a field; None if it can't be read."""
        return self._seen[text.strip()]

    def _value(self, text: str) -> Any:
        try:
            return self.read(text) if self.read else None
        except (ValueError, OverflowError):
            return None

    def see(self, texts: Sequence[str]) -> None:
        """Adds some fields of the column."""
        for text in texts:
            if not text.strip():
                self.empty += 1
                continue
            self.filled += 1
            if len(self.texts) <= DIFFERENT:
                self.texts.add(text)
            value = self._seen[text]
            if value is None:
                self.unread += self.read is not None
                continue
            if self.least is None or value < self.least:
                self.least = value
            if self.greatest is None or value > self.greatest:
                self.greatest = value
            if self.kind in ("time", "time of day"):
                self.values.append(value)

    def mean(self) -> float:
        """Returns the mean of the values that were kept."""
        return sum(self.values) / len(self.values)

    def column(self) -> Column:
        """Returns the Column."""
        least, greatest = ((None if value is None else _shown(self.kind, value)) for value in (self.least, self.greatest))
        return Column(self.name, self.kind, self.form, self.empty, len(self.texts), least, greatest, self.example[:80], self.doubt)


def _kind_of(name: str, texts: Sequence[str], decimal: Optional[str]) -> tuple[str, Optional[str], Optional[str], Optional[Callable[[str], Any]]]:
    """Returns the kind of a column from some of its texts, the format of its times, why it can't be known, and how to read a text."""
    if not texts:
        return "empty", None, None, None
    numbers = sum(bool(re.fullmatch(r"[+-]?[\d.,'\s\u00a0\u202f]*\d", text)) for text in texts)
    try:
        form = found_format(texts)
    except ValueError as error:
        if 10 * numbers >= 9 * len(texts):
            return _number_of(texts, decimal)
        if 10 * sum(duration(text) is not None for text in texts) >= 9 * len(texts):
            return _number_of(texts, decimal, "length")
        is_date = any(word in str(error) for word in ("could begin", "two-digit", "isn't written like", "hour above"))
        return ("unknown", None, str(error), None) if is_date else ("text", None, None, None)
    how = Moments(form, Zone())
    if not is_of_day(form):
        if all(how.of(text) % DAY == 0 for text in texts[:1000] if how.is_one(text)):
            return "date", form, None, how.of
        return "time", form, None, how.of
    greatest = max(how.of(text) for text in texts if how.is_one(text))
    has_seconds = 10 * sum(text.count(":") == 2 for text in texts) >= 9 * len(texts)
    is_length = _SERVICE.search(name) or _NO_SERVICE.search(name) or greatest < 4 * HOUR
    if has_seconds and is_length:
        return "length", None, None, lambda text: Lengths("s", ".", 1).length(text)[0]
    if not has_seconds and (is_length or greatest < 10 * HOUR and any(re.match(r"\d:", text) for text in texts)):
        return "unknown", None, f"{quoted(texts[0])} could be a time of day, h:mm or m:ss", None
    return "time of day", form, None, how.of


def _number_of(
    texts: Sequence[str], decimal: Optional[str], kind: str = "number"
) -> tuple[str, Optional[str], Optional[str], Optional[Callable[[str], Any]]]:
    """Returns what `_kind_of` does, for a column of numbers, or of lengths with units."""
    try:
        mark = decimal or found_decimal(dict.fromkeys(texts))
    except ValueError as error:
        return kind, None, str(error), None
    how, per = Lengths("s", mark or ".", 1), SECOND if kind == "number" else 1
    return kind, None, None, lambda text: Fraction(*how.length(text)) / per


def _shown(kind: str, value: Any) -> str:
    """Returns a value of a column as a text."""
    if kind in ("time", "date"):
        return Zone().shown(value)[: 10 if kind == "date" else None]
    if kind == "number":
        return str(value) if value.denominator == 1 else f"{float(value):g}"
    return f"{value // HOUR}:{value // MINUTE % 60:02}:{value // SECOND % 60:02}"


def _read(table: Any, looks: Sequence[_Look]) -> Iterator[str]:
    """Reads all rows of a table, and yields notes on them."""
    rows, first = table.rows()
    count, odd, repeats = 0, 0, 0
    seen: set[int] = set()
    with uncollected(), Progress(table.size, "rows") as progress:
        some: list[list[str]] = []
        for row in rows:
            if not row:
                continue
            count += 1
            if len(row) < len(looks):
                odd += 1
                continue
            key = hash(tuple(row))
            repeats += key in seen
            if len(seen) < RECORDS:
                seen.add(key)
            some.append(row)
            if len(some) == 1024:
                _see(looks, some)
                some = []
                progress(count)
        _see(looks, some)
    yield counted(count, "row") + (f", {odd:,} of them with too few fields" if odd else "")
    if repeats:
        yield f"{counted(repeats, 'row')} that repeat{'s' if repeats == 1 else ''} an earlier row, field by field: --duplicates drop leaves them out"
    for look in looks:
        if look.kind == "time" and len(look.values) > 2:
            ordered = sorted(look.values)
            gap, after = max((later - earlier, earlier) for earlier, later in zip(ordered, ordered[1:]))
            yield f"the longest gap of {look.name!r} is {_shown('length', gap)}, after {_shown('time', after)}"


def _see(looks: Sequence[_Look], rows: Sequence[Sequence[str]]) -> None:
    for look, texts in zip(looks, zip(*rows)):
        look.see(texts)


def _proposed(looks: Sequence[_Look]) -> tuple[Optional[dict[str, Any]], str]:
    """Returns the options of `prepare` for columns, or None and why there are none."""
    options: dict[str, Any] = {}
    clear = [look for look in looks if look.name and [other.name for other in looks].count(look.name) == 1]
    times, clocks = (sorted((look for look in clear if look.kind == kind and look.values), key=_Look.mean) for kind in ("time", "time of day"))
    days, doubts = [look for look in clear if look.kind == "date"], [look for look in looks if look.kind == "unknown" and look.is_day]
    if times:
        options["time"] = times[0].name
    elif clocks and doubts and not days:
        return None, f"the day of {clocks[0].name!r} is in {doubts[0].name!r}, whose format can't be told: --date-format"
    elif clocks:
        options["time"] = clocks[0].name
        if days:
            options["date"] = days[0].name
        times = clocks
    else:
        epochs = ((look, form) for look in clear if look.kind == "number" for form, least, end in _EPOCHS if _is_within(look, least, end))
        look, form = next(epochs, (None, None))
        if look is None:
            is_doubtful = any(other.kind == "unknown" for other in looks)
            return None, "no column is a time" + (" for sure" if is_doubtful else "; if one has ticks, name it with --time and --format ticks")
        options.update({"time": look.name, "format": form})
    used = {options["time"], options.get("date")}
    _add_source(options, [look for look in clear if look.kind == "text" and look.name not in used])
    services = [look for look in clear if look.name not in used and look.kind in ("length", "number") and look.doubt is None]
    services = [look for look in services if _SERVICE.search(look.name) and not _NO_SERVICE.search(look.name)]
    if services:
        options["demand"] = [look.name + _unit(look) for look in services]
    elif times[1:]:
        options.update({"end": [times[-1].name], **({"answered": [times[-2].name]} if times[2:] else {})})
        services = times[1:]
    if conditions := [f"{look.name}!=" for look in services if look.empty]:
        options["where"] = conditions
    return options, ""


def _is_within(look: _Look, least: int, end: int) -> bool:
    return look.least is not None and least <= look.least <= look.greatest < end


def _unit(look: _Look) -> str:
    """Returns the unit in the name of a column of numbers, as in an option; empty for seconds."""
    return next((f":{unit}" for pattern, unit in _UNITS if re.search(pattern, look.name, re.I)), "") if look.kind == "number" else ""


def _add_source(options: dict[str, Any], texts: Sequence[_Look]) -> None:
    """Adds the column of texts that names the sources, if there is one with few different texts."""
    few = [look for look in texts if 2 <= len(look.texts) <= SOURCES and 2 * len(look.texts) < max(look.filled, 5) and not look.empty]
    named = [look for look in few if _SOURCE.search(look.name)]
    if found := (named or few)[:1]:
        options["source"] = found[0].name
