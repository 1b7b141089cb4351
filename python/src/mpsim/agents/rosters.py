"""Reads rosters of agents, draws the patience of callers, and reports what a roster does per interval of the day."""

from __future__ import annotations

import csv
import math
import random
import re
from typing import TYPE_CHECKING

from ..files import bytes_of
from ..times.texts import DAY, clock, given, length, moment
from ..times.working import weekdays_in
from .groups import Agent

if TYPE_CHECKING:
    from collections.abc import Collection, Iterable

    from ..shapes import Path
    from ..times.calendar import Calendar
    from ..traces.trace import Trace

HEAD = ["agent", "queues", "from", "to"]


def read_roster(path: Path, days: Calendar, last: int, queues: Collection[str]) -> tuple[list[Agent], list[str]]:
    """Returns the agents (list of Agent), in the order in which they first appear, and their names, from a CSV file with the header
    `agent,queues,from,to` and a row per interval of availability.

    `queues` are names separated by spaces; empty means all. `from` and `to` are both ticks, or both dates with times such as 2026-03-02T08:00, or a
    pattern: weekdays and a time of day such as `mon-fri 08:00` or `mon,wed 08:00`, and the time of day at which the interval ends, on the next day if
    it isn't later. A pattern holds on each such day of the Calendar up to tick `last` (int), and on the day before its first: what a night shift of
    that day has after tick 0 counts. `queues` of the argument are the names that exist.
    Fields are separated by commas, or by semicolons if the header's are. Raises OSError if the file can't be read, and ValueError for an invalid row,
    with its number (the header is row 1), and if intervals of an agent overlap.

    >>> import tempfile
    >>> from mpsim.agents.rosters import read_roster
    >>> from mpsim.times.calendar import Calendar
    >>> with tempfile.NamedTemporaryFile("w") as file:
    ...     print("agent,queues,from,to\\nann,phone,mon-fri 08:00,16:00", file=file, flush=True)
    ...     read_roster(file.name, Calendar(10**9, "2026-03-02T00:00"), 90000, ["phone", "mail"])
    ([Agent(intervals=[(28800, 57600), (115200, 144000)], queues=['phone'])], ['ann'])
    """
    lines = bytes_of(path).decode("utf-8-sig", "surrogateescape").splitlines()
    mark = ";" if lines and ";" in lines[0] else ","
    # Numbered as a spreadsheet does: the header is row 1.
    (_, head), *rows = [(number, row) for number, row in enumerate(csv.reader(lines, delimiter=mark), 1) if row] or [(1, [])]
    if [it.strip() for it in head] != HEAD:
        raise ValueError(f"{path}: a roster begins with {','.join(HEAD)}, not with {','.join(head)!r}")
    dates = [day for day, _, _ in days.midnights(last)]
    # A shift of the evening before the first day may last into it.
    dates = [dates[0] - 1, *dates]
    found: dict[str, tuple[str, list[tuple[int, int]]]] = {}
    for number, row in rows:
        try:
            name, served, since, until = map(str.strip, row)
            mine, intervals = found.setdefault(name, (served, []))
            if mine != served:
                raise ValueError(f"{name} serves {mine or 'all queues'!r} in an earlier row")
            for queue in served.split():
                if queue not in queues:
                    raise ValueError(f"no queue {queue!r}; the trace has {', '.join(queues)}")
            intervals += _intervals(since, until, days, dates)
        except ValueError as error:
            why = f"{len(row)} fields instead of 4" if len(row) != len(HEAD) else str(error)
            raise ValueError(f"{path}: row {number}: {why}") from None
    agents = []
    for name, (served, intervals) in found.items():
        intervals.sort()
        for (_, end), (begin, _) in zip(intervals, intervals[1:]):
            if begin < end:
                when = days.shown(begin) if days.is_dated else begin
                raise ValueError(f"{path}: intervals of {name} overlap at {when}")
        agents.append(Agent(intervals, served.split() or None))
    return agents, list(found)


def _intervals(begin: str, end: str, days: Calendar, dates: Iterable[int]) -> list[tuple[int, int]]:
    """Returns the intervals (list of pairs of int, ticks) of a row."""
    if begin.isdigit() and end.isdigit():
        found = [(int(begin), int(end))]
    elif re.match(r"\d{4}-", begin):
        found = [(max(0, days.tick_of_date(begin)), max(0, days.tick_of_date(end)))]
    else:
        on, _, time = begin.rpartition(" ")
        since, until = clock(time), clock(end)
        until += DAY * (until <= since)
        weekdays = _weekdays(on, days)
        chosen = [day * DAY for day in dates if weekdays is None or moment(day * DAY).weekday() in weekdays]
        found = [(max(0, days.tick_at(days.place.first(day + since))), days.tick_at(days.place.first(day + until))) for day in chosen]
        return [it for it in found if it[0] < it[1]]
    if found[0][1] <= found[0][0]:
        raise ValueError(f"the interval from {begin} to {end} is empty")
    return found


def _weekdays(text: str, days: Calendar) -> set[int] | None:
    """Returns the weekdays of a text, as `weekdays_in` does. Raises ValueError for weekdays without dates."""
    try:
        found = weekdays_in(text)
    except ValueError:
        raise ValueError(f"{text!r} isn't a date, a number of ticks, or weekdays such as mon-fri") from None
    if found is not None and not days.is_dated:
        raise ValueError(f"the weekdays {text!r} need the date of time 0: give --start")
    return found


def counts_roster(text: str, days: Calendar, last: int) -> list[Agent]:
    """Returns the agents (list of Agent) of a text such as `8:00=3,10:00=5,18:00=0`: numbers of agents from times of day on, each day of a Calendar
    up to tick `last`. Nobody is there before the first time; the last number holds until midnight. Raises ValueError for an invalid text.

    >>> from mpsim.agents.rosters import counts_roster
    >>> from mpsim.times.calendar import Calendar
    >>> [agent.intervals for agent in counts_roster("8:00=1,10:00=2,18:00=0", Calendar(10**9), 0)]
    [[(28800, 36000), (36000, 64800)], [(36000, 64800)]]
    """
    steps = []
    for part in text.split(","):
        time, mark, number = part.partition("=")
        if not mark or not re.fullmatch(r"\d{1,5}", number.strip()):
            raise ValueError("expected times of day and numbers of agents, such as 8:00=3,10:00=5,18:00=0")
        steps.append((clock(time), int(number)))
    if any(one[0] >= other[0] for one, other in zip(steps, steps[1:])):
        raise ValueError("the times of day aren't in rising order")
    steps.append((DAY, 0))
    intervals: list[list[tuple[int, int]]] = [[] for _ in range(max(count for _, count in steps))]
    for day, _, _ in days.midnights(last):
        for (since, count), (until, _) in zip(steps, steps[1:]):
            begin, end = (days.tick_at(days.place.first(day * DAY + it)) for it in (since, until))
            if max(0, begin) < end:
                for mine in intervals[:count]:
                    mine.append((max(0, begin), end))
    return [Agent(mine) for mine in intervals]


def queues_in(trace: Trace, column: str, words: dict[str, int]) -> list[str]:
    """Returns the queue of each record (list of str) of a trace from the values of a column: the word that stands for the value, if `words` (dict of
    word to number) has one without spaces, else the value itself. Raises ValueError for an unknown column.

    >>> from mpsim.agents.rosters import queues_in
    >>> from mpsim.traces.trace import Trace
    >>> trace = Trace("t.csv", ["source", "time", "kind"], [["door", "0", "1"], ["door", "9", "2"]])
    >>> queues_in(trace, "kind", {"orders": 1, "other things": 2})
    ['orders', '2']
    """
    if column not in trace.header[2:]:
        raise ValueError(f"{trace.path}: no column {column!r}; it has {', '.join(trace.header[2:]) or 'none'}")
    names = {str(number): word for word, number in words.items() if word and not re.search(r"\s", word)}
    place = trace.header.index(column, 2)
    return [names.get(row[place], row[place]) for row in trace.rows]


def patience_in(text: str, trace: Trace, tick: int, seed: int) -> tuple[list[int], bool]:
    """Returns the patience (list of int, ticks) of each record of a trace from the value of --patience: a length of time, the name of a column, or
    `exp:240s` for random ones with this mean, drawn with a seed (int). Returns as well whether they are drawn. Raises ValueError for another
    value.

    >>> from mpsim.agents.rosters import patience_in
    >>> from mpsim.traces import Trace
    >>> trace = Trace("t.csv", ["source", "time", "patience"], [["door", "0", "30"], ["door", "9", "60"]])
    >>> patience_in("patience", trace, 10**9, 1), patience_in("2min", trace, 10**9, 1)
    (([30, 60], False), ([120, 120], False))
    """
    if text in trace.header[2:]:
        return trace.numbers(text), False
    kind, mark, mean = text.rpartition(":")
    if mark and kind != "exp":
        raise ValueError(f"--patience {text}: expected a time such as 240s, a column, or exp:240s")
    value = given("--patience", length, mean) // tick
    if not mark:
        return [value] * len(trace.rows), False
    draw = random.Random(seed)
    return [round(-value * math.log(1 - draw.random())) for _ in trace.rows], True
