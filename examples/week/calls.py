#!/usr/bin/env python3
"""Draws trace.csv, a week of calls that come at random, from Monday to Saturday, from 8 to 18 o'clock, at a rate that depends on the hour. They last
an exponential time. Times are in seconds after the midnight before Monday.

    ./calls.py [SEED] >trace.csv        default: seed 1
"""

import random
import sys

# How many calls come in each hour of the day, from 8 to 18, on average.
CALLS = [8, 14, 18, 16, 10, 8, 12, 16, 12, 6]
DAY, HOUR, OPENS = 86400, 3600, 8
TALK = 150  # the mean time for which a call is talked about


def drawn(seed):
    """The times of the calls and how long each is talked about."""
    draw = random.Random(seed)
    for day in range(6):
        most, now = max(CALLS), 0.0
        while (now := now + draw.expovariate(most / HOUR)) < len(CALLS) * HOUR:
            # Of calls at the greatest rate so many stay as the hour has.
            if draw.random() * most < CALLS[int(now) // HOUR]:
                yield day * DAY + OPENS * HOUR + int(now), 1 + round(draw.expovariate(1 / TALK))


print("source,time,talk")
for time, talk in drawn(int(sys.argv[1]) if len(sys.argv) > 1 else 1):
    print(f"calls,{time},{talk}")
