"""Recognises logs with a row per event or per step: which columns have the units, the stations and the events, and what the events do."""

from __future__ import annotations

import re
from collections import Counter
from itertools import permutations
from typing import TYPE_CHECKING

from ..wording import listed
from .events import BEGIN, END

if TYPE_CHECKING:
    from collections.abc import Iterable, Mapping, Sequence
    from typing import Any

# Rows examined.
SAMPLE = 2000
# The most stations, and the most kinds of event.
STATIONS, KINDS = 64, 8
# A queue log as Asterisk writes it, without a header, and what its events do.
QUEUE_HEADER = "time,call,queue,agent,event,data1,data2,data3"
ENTERS, CONNECTS, GIVES_UP = "ENTERQUEUE", "CONNECT", "ABANDON"
COMPLETES = "COMPLETECALLER", "COMPLETEAGENT", "TRANSFER", "BLINDTRANSFER", "ATTENDEDTRANSFER"
_QUEUE = re.compile(r"QUEUESTART|CONFIGRELOAD|ENTERQUEUE|CONNECT|ABANDON|COMPLETE\w+|(?:ADD|REMOVE)MEMBER|RINGNOANSWER|EXIT\w+|(?:UN)?PAUSE|AGENT\w+")
# Names of columns of stations, and of events, in several languages.
_STATION = re.compile(r"station|machine|maschine|platz|work|arbeit|resource|step|schritt|operation|activity|platz|poste|puesto", re.I)
_BEGIN = re.compile(r"start|begin|enter|load|anfang|an$|in$|on$|d[ée]but|inicio", re.I)


def queue_header(first: Sequence[str]) -> str | None:
    """Returns the names of the columns of a queue log as Asterisk writes it, separated by commas, if the first row of a table is one of its rows.

    >>> queue_header(["1772438410", "10.1", "support", "NONE", "ENTERQUEUE", "", "+49301", "1"])
    'time,call,queue,agent,event,data1,data2,data3'
    """
    return QUEUE_HEADER if len(first) > 4 and first[0].isdigit() and _QUEUE.fullmatch(first[4]) else None


def found_units(header: Sequence[str], sample: Sequence[Sequence[str]], used: Iterable[int]) -> str | None:
    """Returns a hint (str) if rows look like events: a column, not one of those `used`, has each of its values in a few rows that differ in another
    column of few values. Returns None otherwise.

    >>> rows = [[str(at // 3), "cut drill pack".split()[at % 3]] for at in range(60)]
    >>> found_units(["serial", "station"], rows, [])
    "rows look like events, since most values of 'serial' are in several: --unit serial --steps station"
    """
    found = _steps(header, _texts(header, sample, used))
    if found is None:
        return None
    return f"rows look like events, since most values of {found['unit']!r} are in several: --unit {found['unit']} --steps {found['steps']}"


def log_options(
    header: Sequence[str], sample: Sequence[Sequence[str]], moments: Sequence[int], used: Iterable[int], has_services: bool
) -> dict[str, Any] | None:
    """Returns those options of `prepare` (dict, as in a recipe) that gather the rows of a log into one record per unit; None if it isn't a log.

    `moments` has the time of each row of the sample; the columns (indices) `used` are times or lengths; `has_services` says whether each row has the
    length of a service. If it has none, an event begins a service and another ends it.

    >>> rows = [[f"u{at // 4}", "cut drill".split()[at // 2 % 2], "on off".split()[at % 2]] for at in range(40)]
    >>> log_options(["serial", "station", "what"], rows, range(40), [], False)
    {'unit': 'serial', 'steps': 'station', 'event': 'what', 'begin-event': ['on'], 'end-event': ['off']}
    """
    texts = _texts(header, sample, used)
    queues = _of_queues(header, texts)
    if queues or has_services:
        return queues or _steps(header, texts)
    return _events(header, texts, moments[:SAMPLE])


def _texts(header: Sequence[str], sample: Sequence[Sequence[str]], used: Iterable[int]) -> dict[int, list[str]]:
    """Returns the fields of each column that may have units, stations or events, by its index."""
    known = set(used)
    places = [at for at, name in enumerate(header) if name and at not in known and header.count(name) == 1]
    return {at: [row[at].strip() for row in sample[:SAMPLE]] for at in places}


def _of_queues(header: Sequence[str], texts: Mapping[int, Sequence[str]]) -> dict[str, Any] | None:
    """Returns the options for a queue log: the unit is the column with most values that calls have when they come and when they are answered."""
    for event, words in texts.items():
        met = set(words)
        if not {ENTERS, CONNECTS} <= met or not met.intersection(COMPLETES):
            continue
        found = []
        for at, fields in texts.items():
            entered, connected = ({text for text, word in zip(fields, words) if word == kind} for kind in (ENTERS, CONNECTS))
            if at != event and "" not in entered and len(connected - entered) <= 0.1 * len(connected):
                found.append((len(entered), -at))
        if found:
            options = {"unit": header[-max(found)[1]], "event": header[event], "arrive-event": [ENTERS], "begin-event": [CONNECTS]}
            options["end-event"] = [word for word in COMPLETES if word in met]
            return {**options, **({"abandon-event": [GIVES_UP]} if GIVES_UP in met else {})}
    return None


def _units(header: Sequence[str], texts: Mapping[int, Sequence[str]], least: int, most: int) -> list[int]:
    """Returns the columns whose values are mostly in several rows, but not in more than `most` on average: those of stations by their names come
    last, the most different values first. Fewer than `least` values are none."""
    found = []
    for at, fields in texts.items():
        seen = Counter(fields)
        several = sum(count for count in seen.values() if count > 1)
        if len(seen) >= least and "" not in seen and several >= 0.8 * len(fields) and len(fields) <= most * len(seen):
            found.append((bool(_STATION.search(header[at])), -len(seen), at))
    return [at for *_, at in sorted(found)]


def _rank(header: Sequence[str], fields: Sequence[str], at: int) -> tuple[bool, bool, int]:
    """Returns how unlikely a column has stations: those of such a name come first, and words before numbers."""
    return not _STATION.search(header[at]), all(text.isdigit() for text in fields), at


def _steps(header: Sequence[str], texts: Mapping[int, Sequence[str]]) -> dict[str, Any] | None:
    """Returns the columns of the unit and of the station if each row is a step of its unit."""
    for unit in _units(header, texts, 5, 20):
        count, found = len(set(texts[unit])), []
        for at, fields in texts.items():
            kinds, pairs = len(set(fields)), len(set(zip(texts[unit], fields)))
            if at != unit and 2 <= kinds <= min(STATIONS, count / 2) and pairs >= 0.9 * len(fields):
                found.append(at)
        if found:
            return {"unit": header[unit], "steps": header[min(found, key=lambda at: _rank(header, texts[at], at))]}
    return None


def _events(header: Sequence[str], texts: Mapping[int, Sequence[str]], moments: Sequence[int]) -> dict[str, Any] | None:
    """Returns the options for a log of events that begin and end services; None if no two events do so by turns."""
    falls = sum(later < earlier for earlier, later in zip(moments, moments[1:]))
    places = range(len(moments)) if 2 * falls <= len(moments) else range(len(moments) - 1, -1, -1)
    order = sorted(places, key=moments.__getitem__)
    for unit in _units(header, texts, 3, 200):
        ways: list[tuple[tuple[int, bool], dict[str, Any]]] = []
        several = [at for at, fields in texts.items() if at != unit and len(set(zip(texts[unit], fields))) >= 1.5 * len(set(texts[unit]))]
        stations = sorted((at for at in several if 2 <= len(set(texts[at])) <= STATIONS), key=lambda at: _rank(header, texts[at], at))
        for event in several:
            if not 2 <= len(set(texts[event])) <= KINDS:
                continue
            for steps in [*(at for at in stations if at != event), None]:
                keys = list(zip(texts[unit], texts[unit if steps is None else steps]))
                if found := _pair([(keys[at], texts[event][at]) for at in order]):
                    options = {"unit": header[unit], **({} if steps is None else {"steps": header[steps]}), "event": header[event]}
                    rank = sum(word in found for word in texts[event]), not _STATION.search(header[event])
                    ways.append((rank, {**options, "begin-event": [found[0]], "end-event": [found[1]]}))
                    break
        if ways:
            # The events that explain most rows; those of a line of two stations may be stations too.
            return max(ways, key=lambda way: way[0])[1]
    return None


def _pair(events: Sequence[tuple[object, str]]) -> tuple[str, str] | None:
    """Returns the two words that begin and end a service: those that take turns for nine in ten keys of `events` (pairs of a key and a word, in order
    of time). If several pairs do, it is the one whose first word is a beginning's, if there is one such. Returns None otherwise."""
    words: dict[object, list[str]] = {}
    for key, word in events:
        words.setdefault(key, []).append(word)
    found = []
    for begin, end in permutations(sorted({word for _, word in events}), 2):
        turns = Counter(_takes_turns([word for word in some if word in (begin, end)], begin) for some in words.values())
        if turns[True] >= max(9 * turns[False], len(words) / 2):
            found.append((begin, end))
    named = [pair for pair in found if _BEGIN.search(pair[0])] if len(found) > 1 else found
    return named[0] if len(named) == 1 else None


def _takes_turns(some: Sequence[str], begin: str) -> bool | None:
    """Returns whether words are alternately a beginning and not, the first one a beginning; None if there is only a beginning, as at the end of a
    log."""
    return None if some == [begin] else bool(some) and all((word == begin) == (at % 2 == 0) for at, word in enumerate(some))


def event_column(header: Sequence[str], rows: Sequence[Sequence[str]], kinds: Mapping[str, int]) -> int:
    """Returns the index of the column of these rows with these kinds of event (dict): the only one that has both a beginning and an end. Raises
    ValueError."""
    found = []
    for at in range(len(header)):
        met = {kinds.get(row[at].strip()) for row in rows}
        found += [at] if {BEGIN, END} <= met else []
    if len(found) != 1:
        names = " and ".join(repr(header[at]) for at in found)
        raise ValueError(f"{names or 'no column'} {'have' if found else 'has'} the events {listed(list(kinds))}: give --event")
    return found[0]
