#!/usr/bin/env python3
"""Simulates a plant of six stations and writes the log that its machines would write. It knows nothing of mpsim.

usage: plant.py [-s SEED] [-d DAYS] [--faster STATION] [--more STATION] [--roomy] [--apart] [--truth] >log.csv

Units are sawn, milled (two machines), washed, drilled, assembled (two machines) and tested. Each station has room for a few units before it: when
the next one has no room, a finished unit stays at its machine, which begins no other. Mills and the drill break down. One unit in twelve fails the
test and is assembled and tested again; such units wait on a shelf of any size, and go first. Two shifts work from Monday to Thursday and one on
Friday; one day is a holiday.

--faster makes the services of a station shorter by 10 %, --more gives it another machine; both may be repeated. --roomy lets any number of units
wait, and --apart gives failed units machines of their own. --truth prints the figures of the plant instead of the log. Every unit, machine and
breakdown has its random numbers to itself, so a change changes nothing else.
"""

import argparse
import heapq
import random
import sys
from datetime import datetime, timedelta

STATIONS = "saw", "mill", "wash", "drill", "assemble", "test"
MACHINES = {"saw": 1, "mill": 2, "wash": 1, "drill": 1, "assemble": 2, "test": 1}
# Units that may wait before a station.
ROOM = {"mill": 8, "wash": 4, "drill": 12, "assemble": 6, "test": 20}
# Seconds of service, by type.
MEANS = {
    "oak": {"saw": 460, "mill": 1000, "wash": 400, "drill": 500, "assemble": 960, "test": 410},
    "pine": {"saw": 400, "mill": 860, "wash": 400, "drill": 420, "assemble": 900, "test": 410},
}
BETWEEN = 600
# Mean hours between breakdowns of a machine, and mean minutes of a repair.
BREAKDOWNS = {"mill": (9, 35), "drill": (12, 50)}
FAILS = 1 / 12
MONDAY, HOLIDAY = datetime(2026, 3, 2), datetime(2026, 3, 10)


def shifts(days):
    """Yields when work begins and ends on each day."""
    for number in range(days):
        day = MONDAY + timedelta(days=number)
        if day.weekday() < 5 and day != HOLIDAY:
            yield day + timedelta(hours=6), day + timedelta(hours=14 if day.weekday() == 4 else 22)


class Plant:
    """A plant in seconds of working time, of which nobody sees the nights."""

    def __init__(self, seed, days, faster=(), more=(), roomy=False, apart=False):
        self.seed, self.faster, self.room = seed, faster, {} if roomy else ROOM
        self.apart = ("assemble_2", "test_2") if apart else ()
        self.machines = {name: count + list(more).count(name) for name, count in MACHINES.items()}
        self.machines.update(dict.fromkeys(self.apart, 1))
        self.end = int(sum((end - begin).total_seconds() for begin, end in shifts(days)))
        self.queues = {name: [] for name in self.machines}
        self.shelf = []
        # Each machine: None, or [unit, when it is done].
        self.work = {name: [None] * count for name, count in self.machines.items()}
        self.downs = {(name, number): self._downs(name, number) for name in BREAKDOWNS for number in range(self.machines[name])}
        self.log, self.visits, self.left, self.times = [], {}, {}, {}

    def _draw(self, *words):
        return random.Random(":".join(map(str, (self.seed, *words))))

    def _downs(self, name, number):
        """Returns when a machine breaks down and is repaired."""
        draw, found, now = self._draw("down", name, number), [], 0.0
        hours, minutes = BREAKDOWNS[name]
        while now < 2 * self.end:
            now += draw.expovariate(1 / (hours * 3600))
            repaired = now + draw.expovariate(1 / (minutes * 60))
            found.append((round(now), round(repaired)))
            now = repaired
        return found

    def service(self, unit, name, visit):
        """Returns the seconds of work on a unit."""
        name = name.split("_")[0]
        mean = MEANS[self.types[unit]][name] * (0.9 if name in self.faster else 1)
        return max(1, round(mean * self._draw("service", unit, name, visit).gammavariate(8, 1 / 8)))

    def _done(self, name, number, now, work):
        """Returns when work that begins now is done by a machine that is sometimes down."""
        for begin, end in self.downs.get((name, number), ()):
            if end <= now:
                continue
            if begin <= now:
                now = end
            elif now + work > begin:
                work -= begin - now
                now = end
            else:
                break
        return now + work

    def run(self):
        draw, now, events = self._draw("orders"), 0.0, []
        self.types, self.nightly = [], set()
        while (now := now + draw.expovariate(1 / BETWEEN)) < self.end:
            second, shown = round(now), clock(round(now), False)
            if len(self.types) % 40 == 9 and shown.hour == 6:
                # Some orders come at night; work on them can't begin before the shift does.
                second -= shown.minute * 60 + shown.second
                self.nightly.add(len(self.types))
            events.append((second, 0, len(self.types)))
            self.types.append("oak" if draw.random() < 0.6 else "pine")
        heapq.heapify(events)
        self.events = events
        while events:
            now, kind, what = heapq.heappop(events)
            if kind == 0:
                self.times[what] = now
                self.log.append((now, what, "saw", "RELEASE"))
                self.queues["saw"].append(what)
            else:
                name, number = what
                self.log.append((now, self.work[name][number][0], name.split("_")[0], "END"))
            # All that ends now ends before anything moves.
            if not events or events[0][0] > now:
                while self._moves(now) or self._begins(now):
                    pass
        return self

    def _moves(self, now):
        """Moves one finished unit on, if there is one with room before it."""
        for name in reversed(self.machines):
            done = [(end, number) for number, item in enumerate(self.work[name]) if item and (end := item[1]) <= now]
            for _, number in sorted(done):
                unit = self.work[name][number][0]
                if name == "test" and self.visits[unit, "test"] == 1 and self._draw("fails", unit).random() < FAILS:
                    (self.queues["assemble_2"] if self.apart else self.shelf).append(unit)
                elif name.startswith("test"):
                    self.left[unit] = now
                else:
                    after = "test_2" if name == "assemble_2" else STATIONS[STATIONS.index(name) + 1]
                    if len(self.queues[after]) >= self.room.get(after, self.end) and None not in self.work[after]:
                        continue
                    self.queues[after].append(unit)
                self.work[name][number] = None
                return True
        return False

    def _begins(self, now):
        """Begins one service, if a machine and a unit are there."""
        for name in self.machines:
            queue = self.shelf if name == "assemble" and self.shelf else self.queues[name]
            if queue and None in self.work[name]:
                number, unit = self.work[name].index(None), queue.pop(0)
                visit = self.visits[unit, name] = self.visits.get((unit, name), 0) + 1
                visit += name in self.apart
                end = self._done(name, number, now, self.service(unit, name, visit))
                self.work[name][number] = [unit, end]
                self.log.append((now, unit, name.split("_")[0], "START"))
                heapq.heappush(self.events, (end, 1, (name, number)))
                return True
        return False

    def truth(self):
        """Returns the units that left by the last order per hour, and the 90th percentile of the seconds of working time from the order on."""
        first, last = min(self.times.values()), max(self.times.values())
        leads = sorted(end - self.times[unit] for unit, end in self.left.items())
        return 3600 * sum(end <= last for end in self.left.values()) / (last - first), leads[-(-9 * len(leads) // 10) - 1]


def clock(second, is_end, days=400):
    """Returns the time on the wall of a second of working time; the last second of a shift ends with it."""
    for begin, end in shifts(days):
        length = int((end - begin).total_seconds())
        if second < length or is_end and second == length:
            return begin + timedelta(seconds=second)
        second -= length
    raise ValueError("too many days")


def main():
    parser = argparse.ArgumentParser(description=__doc__, formatter_class=argparse.RawDescriptionHelpFormatter)
    parser.add_argument("-s", "--seed", type=int, default=4)
    parser.add_argument("-d", "--days", type=int, default=26)
    parser.add_argument("--faster", action="append", default=[], choices=STATIONS)
    parser.add_argument("--more", action="append", default=[], choices=STATIONS)
    parser.add_argument("--roomy", action="store_true")
    parser.add_argument("--apart", action="store_true")
    parser.add_argument("--truth", action="store_true")
    args = parser.parse_args()
    plant = Plant(args.seed, args.days, args.faster, args.more, args.roomy, args.apart).run()
    if args.truth:
        print("per hour {:.3f}, p90 {}".format(*plant.truth()))
        return
    print("time;serial;station;event;type")
    for second, unit, name, event in plant.log:
        shown = clock(second, event == "END")
        if event == "RELEASE" and unit in plant.nightly:
            shown = shown.replace(hour=5)
        print(f"{shown};{unit + 1001};{name};{event};{plant.types[unit]}")


if __name__ == "__main__":
    sys.exit(main())
