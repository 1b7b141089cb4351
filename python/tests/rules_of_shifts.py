"""The rules of shifts, written independently of `mpsim.agents.shifts`: a checker of rosters that never chooses, and a search through all choices for
small needs. Both go by minutes, not by intervals."""

import csv
import functools
import itertools
import re
from fractions import Fraction

WEEK = ["mon", "tue", "wed", "thu", "fri", "sat", "sun"]


def minute(text):
    return int(text[:2]) * 60 + int(text[3:5])


def lasts(text):
    found = re.fullmatch(r"([\d.]+)(h|min)", text)
    return int(Fraction(found[1]) * (60 if found[2] == "h" else 1))


def rows_of(text):
    return list(csv.DictReader(text.splitlines()))


def begins_of(form):
    """Returns the minutes of the day at which shifts of a row of forms may begin."""
    found = set()
    for part in form["begin"].split():
        times, _, step = part.partition("/")
        first, _, last = times.partition("-")
        found |= {at for at in range(minute(first), minute(last or first) + 1, lasts(step) if step else 1)}
    return found


def pauses_of(form, begin):
    """Returns the minutes at which the break of a shift that begins at this minute may begin; None stands for no break."""
    if not form["break"]:
        return [None]
    first, last = form["between"].split("-")
    found, end, rest = [], begin + lasts(form["length"]), lasts(form["break"])
    for at in range(begin, end - rest + 1):
        if ":" in first:
            # The hours are those of the day, or go on after midnight.
            inside = {number for number in range(minute(first), minute(last) + 1440 * (minute(last) <= minute(first)) + 1)}
            is_inside = any({at % 1440 + more, (at % 1440) + rest + more} <= inside for more in (0, 1440))
        else:
            is_inside = begin + lasts(first) <= at and at + rest <= begin + lasts(last)
        if is_inside:
            found.append(at)
    return found


def cost_of(form):
    paid = lasts(form["length"]) - (lasts(form["break"]) if form["break"] else 0)
    return Fraction(form["cost"]) if form["cost"] else Fraction(paid, 60)


def broken(need, forms, roster, column="agents", every=60):
    """Returns the rules (list of str) that a roster breaks, and its cost (Fraction), for the texts of the three files. Days of the need are weekdays,
    or any day without such a column."""
    found, cost = [], Fraction(0)
    forms, is_week = {row["form"]: row for row in rows_of(forms)}, "weekday" in need.splitlines()[0]
    cycle = 1440 * (7 if is_week else 1)
    day_of = lambda text: WEEK.index(text.split()[0]) * 1440 if is_week else 0
    there, uses, mine = [0] * cycle, {}, {}
    for row in rows_of(roster):
        begin = day_of(row["from"]) + minute(row["from"].split()[-1])
        span = (minute(row["to"]) - begin) % 1440 or 1440
        if row["queues"] or not re.fullmatch(r"(mon|tue|wed|thu|fri|sat|sun) \d\d:\d\d" if is_week else r"\d\d:\d\d", row["from"]):
            found.append("form of a row")
        mine.setdefault(row["agent"], []).append((begin, span))
    for agent, spans in mine.items():
        form, length = forms[agent.rsplit(" ", 1)[0]], lasts(forms[agent.rsplit(" ", 1)[0]]["length"])
        rest = lasts(form["break"]) if form["break"] else 0
        taken, begun, left = set(), set(), list(spans)
        while left:
            begin, span = left.pop(0)
            pause = begin + span if rest else None
            if rest and span != length - rest:
                after, more = left.pop(0) if left else (begin, 0)
                if (after - pause) % cycle != rest:
                    found.append("length of the break")
                span += more
            elif rest and begin % 1440 not in begins_of(form):
                # The break comes first.
                pause = begin = begin - rest
            day = begin // 1440 * 1440
            uses[day, form["form"]] = uses.get((day, form["form"]), 0) + 1
            cost += cost_of(form)
            if day in begun:
                found.append("two shifts on a day")
            begun.add(day)
            if begin - day not in begins_of(form):
                found.append("begin")
            if rest and pause - day not in pauses_of(form, begin - day):
                found.append("break outside its hours")
            if span + rest != length:
                found.append("length")
            for number in range(begin, begin + length):
                if number % cycle in taken:
                    found.append("two shifts at once")
                taken.add(number % cycle)
        for begin, span in spans:
            for number in range(begin, begin + span):
                there[number % cycle] += 1
    for (_, name), count in uses.items():
        if forms[name]["most"] and count > int(forms[name]["most"]):
            found.append("too many of a form")
    for row in rows_of(need):
        begin = (WEEK.index(row["weekday"][:3].lower()) * 1440 if is_week else 0) + minute(row["from"])
        if min(there[begin : begin + every]) < int(row[column]):
            found.append(f"too few at {begin}")
    return found, cost


def cheapest(need, forms, column="agents", every=60):
    """Returns the least cost (Fraction) of a roster for a need of any day; None if no roster covers it. It tries all shifts, with a break at every
    minute."""
    need, forms = rows_of(need), rows_of(forms)
    times = [minute(row["from"]) for row in need]
    kinds = set()
    for place, form in enumerate(forms):
        for begin in begins_of(form):
            for pause in pauses_of(form, begin):
                away = range(0) if pause is None else range(pause, pause + lasts(form["break"]))
                there = {at % 1440 for at in range(begin, begin + lasts(form["length"])) if at not in away}
                kinds.add((place, tuple(there.issuperset(range(time, time + every)) for time in times)))
    kinds = sorted(it for it in kinds if any(it[1]))

    @functools.lru_cache(None)
    def rest(lacks, left):
        first = next((at for at, lack in enumerate(lacks) if lack), None)
        if first is None:
            return Fraction(0)
        found = []
        for place, covers in kinds:
            if covers[first] and left[place] != 0:
                fewer = tuple(max(0, lack - is_there) for lack, is_there in zip(lacks, covers))
                more = rest(fewer, (*left[:place], left[place] - 1, *left[place + 1 :]))
                if more is not None:
                    found.append(more + cost_of(forms[place]))
        return min(found, default=None)

    return rest(tuple(int(row[column]) for row in need), tuple(int(form["most"]) if form["most"] else -1 for form in forms))


def first_in_order(highs, holds, objective):
    """Returns the values that `mpsim.agents.solvers.canonical` must return: of all values, the least sum of `objective`, then the least sum, then the
    greatest sum of the first half, of the first and the third quarter, and so on; None if no values hold."""
    ranges, halves = [(0, len(highs))], []
    while ranges:
        first, last = ranges.pop()
        if last - first > 1:
            halves.append((first, (first + last) // 2))
            ranges += [((first + last) // 2, last), (first, (first + last) // 2)]
    every = [it for it in itertools.product(*(range(high + 1) for high in highs)) if holds(it)]
    key = lambda it: (sum(a * b for a, b in zip(objective, it)), sum(it), [-sum(it[first:last]) for first, last in halves])
    return list(min(every, key=key)) if every else None
