#!/usr/bin/env python3
"""Simulates eight weeks of a call centre, and writes what its telephone system would export. It uses nothing of mpsim, so that it can judge it.

    ./calls.py [--seed N] [--export FILE] [--levels FILE]        default: seed 1

Writes export.csv, a row per call, and levels.csv, the true service level of each half-hour and queue: how many calls came, and how many of them were
answered within 20 seconds. Both go to the working directory, unless the options name other files.

The desk is open from 8:00 to 18:00, Monday to Friday, from 2 March to 24 April 2026. Calls come at random, at a rate per queue and half-hour, and
more often on Mondays. Calls to sales are answered before calls to service. Each caller hangs up after a random time. The agents of roster.csv answer
them: the one who has been free longest takes the next call. All times are in milliseconds here; the export has tenths of a second.
"""
import argparse
import csv
import datetime
import heapq
import pathlib
import random

HERE = pathlib.Path(__file__).resolve().parent
FIRST, WEEKS = datetime.date(2026, 3, 2), 8
OPENS, HOUR, MINUTE, SECOND = 8, 3600_000, 60_000, 1000
# Calls per half-hour from 8:00 to 18:00, on average; the mean handling time and the mean patience in seconds.
QUEUES = {
    "sales": ([6, 9, 14, 17, 18, 18, 15, 12, 9, 9, 12, 14, 15, 15, 14, 12, 9, 8, 6, 5], 240, 150),
    "service": ([9, 14, 20, 24, 26, 24, 21, 17, 14, 14, 17, 20, 21, 21, 18, 15, 14, 11, 8, 6], 180, 240),
}
# The least rank is answered first.
RANKS = {"sales": 0, "service": 1}
BUSY = [1.15, 1.0, 0.95, 0.95, 0.9]  # Monday to Friday
WITHIN = 20
DAYS = ["mon", "tue", "wed", "thu", "fri"]


def calls_of(draw, load):
    """Returns the calls of a day at random, by the factor of its load: arrival (ms after midnight), queue, handling time and patience (ms)."""
    found = []
    for queue, (rates, handling, patience) in QUEUES.items():
        now, most = 0.0, max(rates) * load / (30 * MINUTE)
        while (now := now + draw.expovariate(most)) < len(rates) * 30 * MINUTE:
            # Of calls at the greatest rate, a half-hour keeps its share.
            if draw.random() * max(rates) < rates[int(now // (30 * MINUTE))]:
                # Between constant and exponential.
                work = 10 + sum(draw.expovariate(2 / handling) for _ in range(2))
                found.append((OPENS * HOUR + int(now), queue, int(SECOND * work), int(SECOND * draw.expovariate(1 / patience))))
    return sorted(found)


def agents_of(path, weekday):
    """Returns when the agents of a roster are there on a weekday (0 is Monday): a list per agent of pairs of ms after midnight."""
    found = {}
    for row in csv.DictReader(path.read_text().splitlines()):
        days, begin = row["from"].split()
        first, _, last = days.partition("-")
        if DAYS.index(first) <= weekday <= DAYS.index(last or first):
            times = [int(text[:2]) * HOUR + int(text[3:]) * MINUTE for text in (begin, row["to"])]
            found.setdefault(row["agent"], []).append(tuple(times))
    return list(found.values())


def served(calls, agents, ranks, takes_first=False):
    """Returns the wait of each call and whether it was answered (pairs), for calls as `calls_of` returns them, agents as `agents_of` does, and ranks
    by queue. An agent takes a call inside an interval, and completes it: the one who has been free longest or, if `takes_first`, the first one who is
    free. It goes from moment to moment, and looks at everybody each time."""
    free = [0] * len(agents)
    waiting, found = [], [None] * len(calls)
    moments = [it[0] for it in calls] + [begin for spans in agents for begin, _ in spans]
    heapq.heapify(moments)
    arriving, now = 0, None
    while moments:
        before, now = now, heapq.heappop(moments)
        if now == before:
            continue

        def begin_calls():
            while waiting:
                # An agent is free since the end of a call or the beginning of an interval.
                there = [(begin, at) for at, spans in enumerate(agents) for begin, end in spans if begin <= now < end]
                able = [(0 if takes_first else max(free[at], begin), at) for begin, at in there if free[at] <= now]
                if not able:
                    return
                call = min(waiting, key=lambda it: (ranks[calls[it][1]], calls[it][0], it))
                waiting.remove(call)
                agent = min(able)[1]
                free[agent] = now + calls[call][2]
                heapq.heappush(moments, free[agent])
                found[call] = now - calls[call][0], True

        begin_calls()
        for call in [it for it in waiting if calls[it][0] + calls[it][3] <= now]:
            waiting.remove(call)
            found[call] = calls[call][3], False
        while arriving < len(calls) and calls[arriving][0] == now:
            waiting.append(arriving)
            heapq.heappush(moments, now + calls[arriving][3])
            arriving += 1
        begin_calls()
        for call in [it for it in waiting if calls[it][3] == 0]:
            waiting.remove(call)
            found[call] = 0, False
    return found


def main():
    parser = argparse.ArgumentParser(description=__doc__.split("\n")[0])
    parser.add_argument("--seed", type=int, default=1)
    parser.add_argument("--export", default="export.csv")
    parser.add_argument("--levels", default="levels.csv")
    args = parser.parse_args()
    draw, levels, rows = random.Random(args.seed), {}, []
    for number in range(7 * WEEKS):
        day = FIRST + datetime.timedelta(number)
        if day.weekday() >= len(DAYS):
            continue
        calls = calls_of(draw, BUSY[day.weekday()])
        outcomes = served(calls, agents_of(HERE / "roster.csv", day.weekday()), RANKS)
        for (arrive, queue, work, _), (wait, is_answered) in zip(calls, outcomes):
            clock = f"{arrive // HOUR:02}:{arrive // MINUTE % 60:02}:{arrive // SECOND % 60:02}.{arrive % SECOND // 100}"
            rows.append([f"{day} {clock}", queue, wait // 100 / 10, work // 100 / 10 if is_answered else "", "no" if is_answered else "yes"])
            level = levels.setdefault((arrive // (30 * MINUTE), queue), [0, 0])
            level[0] += 1
            level[1] += is_answered and wait <= WITHIN * SECOND
    with open(args.export, "w", newline="") as file:
        csv.writer(file, lineterminator="\n").writerows([["Arrived", "Queue", "Wait", "Handling", "Abandoned"], *rows])
    with open(args.levels, "w", newline="") as file:
        every = [[f"{at // 2:02}:{at % 2 * 30:02}", queue, *level] for (at, queue), level in sorted(levels.items())]
        csv.writer(file, lineterminator="\n").writerows([["from", "queue", "offered", "within"], *every])


if __name__ == "__main__":
    main()
