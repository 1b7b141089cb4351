#!/usr/bin/env python3
"""Runs each day of a month of calls separately, from 8 o'clock, so that nights and weekends don't count. The calls are drawn here, more of them on
Mondays; `mpplan prepare` makes a trace from recorded ones."""

import random

from mpsim.times.calendar import Calendar
from mpsim.traces import Trace
from mpsim.sweeps.days import by_calendar, days

MODEL = "model 1\nsource calls\nserver desk talk from calls\n"
DAY, HOUR, SECOND = 86400, 3600, 10**9


def drawn():
    """The records of March 2026, from Monday to Friday."""
    draw = random.Random(1)
    for day in range(31):
        weekday = (day + 6) % 7
        now = day * DAY + 8 * HOUR
        while weekday < 5 and now < day * DAY + 18 * HOUR:
            yield ["calls", str(now), str(1 + round(draw.expovariate(1 / 150)))]
            now += round(draw.expovariate(1 / (200 if weekday == 0 else 300)))


trace = Trace("calls", ["source", "time", "talk"], list(drawn()))
pieces, _ = by_calendar(trace.times(), Calendar(SECOND, "2026-03-01T00:00"), "8:00")
month, over = days(MODEL, trace, pieces)
print("day         calls  wait  p90   util")
for day, report in month.reports().items():
    desk = report["desk"]
    print(f"{day} {desk.in_:6} {desk.mean_wait:5.0f} {desk.p90:4} {desk.util:6.2f}")
