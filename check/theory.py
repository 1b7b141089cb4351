#!/usr/bin/env python3
"""Compares mpsim with queueing theory on random jobs. With --write it writes docs/VALIDATION.md and docs/validation.svg.

usage: check/theory.py [--jobs N] [--seeds S..] [--only TITLE] [--write]
The defaults are a million jobs per run, seeds 1, 2 and 3, and all sections; nothing is written without --write. TITLE is the title of a section, or a
part of it.

The tolerance isn't chosen. The jobs of a run are divided into 31 batches, in order of arrival. The first is left out, because the network starts empty;
the means of the other 30 give a standard error. A figure holds if it is at most 4.5 standard errors from theory. If all is well, one run of this program
in a hundred has a figure that is further off. Each figure is printed; the status is 1 if one doesn't hold.

The programs are found as by the Python package: those of MPSIM_PROGRAMS, or those of this clone. A seed takes some four minutes of processor time, most
of it to read the output of mpsim.
"""
import argparse
import heapq
import math
import pathlib
import random
import sys
from itertools import accumulate
from typing import NamedTuple

ROOT = pathlib.Path(__file__).resolve().parent.parent
sys.path.insert(0, str(ROOT / "python" / "src"))
import mpsim

# Batches that count, and how many standard errors a figure may be off: of Student's t with 29 degrees of freedom 1 of 9,800 values is further out, and
# three seeds have 117 figures.
BATCHES, ALLOWED = 30, 4.5
# The ticks of a mean service.
TICKS = 1_000_000
SECTIONS = {}


class Figure(NamedTuple):
    """A figure: its name, the formula, the value by theory, the measured value and its standard error."""

    what: str
    formula: str
    theory: float
    measured: float
    error: float

    @property
    def off(self):
        """The number of standard errors by which the measured value is above theory."""
        difference = self.measured - self.theory
        return difference / self.error if self.error else math.copysign(math.inf, difference) if difference else 0.0

    @property
    def holds(self):
        return abs(self.off) <= ALLOWED


class Sample:
    """The random jobs of a section, and the figures that are told of their runs; also points of the picture, where they are wanted."""

    def __init__(self, title, seed, jobs, drawn):
        self.draw, self.jobs, self.drawn = random.Random(f"{title} {seed}").random, jobs, drawn
        self.figures, self.points, self.nodes, self.visits, self.off_little = [], {}, 0, 0, []

    def arrivals(self, between):
        """Times at which jobs come at random, with so many ticks between them on average."""
        return list(accumulate(self.exponential(between)))

    def exponential(self, mean):
        draw = self.draw
        return [round(-mean * math.log(1.0 - draw())) for _ in range(self.jobs)]

    def two_exponentials(self, mean, square):
        """Each value is exponential, of one of two means, so that the variance is `square` times the mean's square."""
        share, draw = 0.5 * (1 + math.sqrt((square - 1) / (square + 1))), self.draw
        means = mean / (2 * share), mean / (2 - 2 * share)
        return [round(-means[draw() >= share] * math.log(1.0 - draw())) for _ in range(self.jobs)]

    def uniform(self, high):
        draw = self.draw
        return [int(high * draw()) for _ in range(self.jobs)]

    def run(self, model, times, *columns, sources=None):
        """A run with the visits. The columns are a, b and so on; jobs come from `door`, where no list of sources is given."""
        report = mpsim.run(model, trace_of(times, *columns, sources=sources), jobs=True)
        for node in report.nodes:
            self.little(node, report.visits[node.name])
        return report

    def little(self, node, visits):
        """Little's law: the number in a node, summed over time, is the sum of the times in it. Who is lost is there for no time."""
        stays = sum(visits.raw_depart) - sum(visits.arrive)
        if node.lost:
            stays = sum(depart - arrive for arrive, wait, depart in zip(visits.arrive, visits.raw_wait, visits.raw_depart) if wait >= 0)
        self.nodes, self.visits = self.nodes + 1, self.visits + len(visits)
        self.off_little += [node.name] * (stays != node.area)

    def tell(self, what, formula, theory, values, unit=1):
        """A figure that is a mean, of these values in the order in which the jobs came."""
        mean, error = mean_of(values)
        self.figures.append(Figure(what, formula, theory, mean / unit, error / unit))

    def tell_percentile(self, what, formula, theory, waits, percent, density, unit=TICKS):
        """A percentile. The share that waits no longer than theory's has a standard error, and over the density of the waits there it is that of
        the percentile."""
        _, error = mean_of([wait <= theory * unit for wait in waits])
        kept = sorted(waits[len(waits) // (BATCHES + 1) :])
        self.figures.append(Figure(what, formula, theory, kept[-(-percent * len(kept) // 100) - 1] / unit, error / density))


def trace_of(times, *columns, sources=None):
    rows = zip(sources or ["door"] * len(times), map(str, times), *[map(str, column) for column in columns])
    return ",".join(["source", "time", *"abcd"[: len(columns)]]) + "\n" + "".join(",".join(row) + "\n" for row in rows)


def mean_of(values):
    """The mean of all batches but the first, and its standard error."""
    size = len(values) // (BATCHES + 1)
    means = [sum(values[begin : begin + size]) / size for begin in range(size, (BATCHES + 1) * size, size)]
    mean = sum(means) / BATCHES
    return mean, math.sqrt(sum((it - mean) ** 2 for it in means) / (BATCHES - 1) / BATCHES)


def section(title, says):
    """Puts a function that makes the runs of a section among the sections, with what is told of it."""

    def keep(work):
        SECTIONS[title] = work, says
        return work

    return keep


def stays_of(visits):
    return [depart - arrive for arrive, depart in zip(visits.arrive, visits.depart)]


def lost_of(visits):
    return [wait < 0 for wait in visits.raw_wait]


SERVER = "model 1\nsource door\nserver desk a from door\n"


@section("M/M/1", "Poisson arrivals, exponential services, load ρ = 0.8.")
def one_server(it):
    load = 0.8
    waits = it.run(SERVER, it.arrivals(TICKS / load), it.exponential(TICKS)).visits["desk"].wait
    it.tell("mean wait", "ρ / (1 - ρ)", load / (1 - load), waits, TICKS)
    it.tell("share that waits", "ρ", load, [wait > 0 for wait in waits])
    for percent, rest in (90, 0.1), (99, 0.01):
        theory = math.log(load / rest) / (1 - load)
        it.tell_percentile(f"p{percent} of the wait", f"ln(ρ / {rest}) / (1 - ρ)", theory, waits, percent, rest * (1 - load))
    if it.drawn:
        it.points["longer"] = [(ticks, *mean_of([wait > ticks * TICKS for wait in waits])) for ticks in range(0, 45, 2)]


@section(
    "M/D/1 and M/G/1",
    "Pollaczek and Khinchine, load 0.8. c² is the squared coefficient of variation of the services.",
)
def any_services(it):
    load = 0.8
    services = {
        "constant services": (0, [TICKS] * it.jobs),
        "services uniform from 0 to 2": (1 / 3, it.uniform(2 * TICKS)),
        "hyperexponential services, c² = 4": (4, it.two_exponentials(TICKS, 4)),
    }
    for name, (square, column) in services.items():
        waits = it.run(SERVER, it.arrivals(TICKS / load), column).visits["desk"].wait
        it.tell(f"mean wait, {name}", "ρ (1 + c²) / (2 (1 - ρ))", load * (1 + square) / (2 * (1 - load)), waits, TICKS)


@section(
    "Stations in a row",
    "Burke: the departures from M/M/1 are a Poisson process with the rate of the arrivals, so each of three servers in a row behaves as M/M/1 by itself. "
    "Times between departures are in mean times between arrivals.",
)
def in_a_row(it):
    loads, names = (0.5, 0.7, 0.8), ("first", "second", "third")
    model = "model 1\nsource door\nserver first a from door\nserver second b from first\nserver third c from second\n"
    times = it.arrivals(TICKS)
    visits = it.run(model, times, *[it.exponential(load * TICKS) for load in loads]).visits
    for name, load in zip(names, loads):
        it.tell(f"mean time in the {name}, load {load}", "S / (1 - ρ)", load / (1 - load), stays_of(visits[name]), TICKS)
    through = [depart - arrive for arrive, depart in zip(times, visits["third"].depart)]
    it.tell("mean time in all three", "their sum", sum(load / (1 - load) for load in loads), through, TICKS)
    departs = visits["third"].depart
    gaps = [(after - before) / TICKS for before, after in zip(departs, departs[1:])]
    it.tell("square of the time between departures", "2", 2, [gap * gap for gap in gaps])
    it.tell("share of these times above 1", "1 / e", math.exp(-1), [gap > 1 for gap in gaps])
    it.tell("product of two successive times", "1", 1, [before * after for before, after in zip(gaps, gaps[1:])])


@section(
    "Splits by chance",
    "A Jackson network: two sources, three servers and a split by a random column. Each server behaves as M/M/1 by itself.",
)
def by_chance(it):
    model = "model 1\nsource door\nsource web\nserver front a from door\nsplit ways cut d 500000 from front\nserver left b from ways\n"
    model += "server last c from left ways.1 web\n"
    # Three of four jobs come by the door, and of these 4 of 10 go left; all come to the last server.
    shares, loads = {"front": 0.75, "left": 0.3, "last": 1}, {"front": 0.6, "left": 0.75, "last": 0.9}
    columns = [it.exponential(loads[name] / shares[name] * TICKS) for name in shares]
    ways = [0 if it.draw() < 0.4 else 1_000_000 for _ in range(it.jobs)]
    sources = ["door" if it.draw() < 0.75 else "web" for _ in range(it.jobs)]
    visits = it.run(model, it.arrivals(TICKS), *columns, ways, sources=sources).visits
    for name, load in loads.items():
        it.tell(f"mean time in `{name}`, load {load}", "S / (1 - ρ)", load / shares[name] / (1 - load), stays_of(visits[name]), TICKS)


@section("M/M/1/K", "A loss station with K places, load 0.8: the share of jobs that find all places taken.")
def few_places(it):
    load = 0.8
    times, services = it.arrivals(TICKS / load), it.exponential(TICKS)
    for places in 1, 3, 8:
        visits = it.run(f"model 1\nsource door\nloss desk {places} a from door\n", times, services).visits["desk"]
        theory = (1 - load) * load**places / (1 - load ** (places + 1))
        it.tell(f"share lost, K = {places}", "(1 - ρ) ρᴷ / (1 - ρᴷ⁺¹)", theory, lost_of(visits))


def erlang_b(lines, load):
    lost = 1.0
    for line in range(1, lines + 1):
        lost = load * lost / (line + load * lost)
    return lost


@section(
    "Erlang B",
    "The share of calls that find all 30 lines taken, at 25 erlangs. The distribution of holding times makes no difference.",
)
def no_line_free(it):
    load, lines, model = 25, 30, "model 2\nsource door\ntrunk lines {lines} a from door\n"
    holding = {
        "exponential": it.exponential(load * TICKS),
        "constant": [load * TICKS] * it.jobs,
        "uniform": it.uniform(2 * load * TICKS),
        "hyperexponential, c² = 10": it.two_exponentials(load * TICKS, 10),
    }
    for name, column in holding.items():
        times = it.arrivals(TICKS)
        visits = it.run(model.format(lines=lines), times, column).visits["lines"]
        it.tell(f"share lost, holding times {name}", "B(30, 25)", erlang_b(lines, load), lost_of(visits))
        if it.drawn and name in ("exponential", "constant"):
            models, trace = mpsim.variants(model, lines=range(15, 41, 5)), trace_of(times, column)
            it.points[name] = [(lines, mpsim.run(text, trace)["lines"].share_lost) for lines, text in models.items()]


def queued(times, services, servers):
    """How long each job waits at several servers with one queue: until the first of them is free."""
    free, waits = [0] * servers, []
    for time, service in zip(times, services):
        begin = max(time, free[0])
        heapq.heapreplace(free, begin + service)
        waits.append(begin - time)
    return waits


@section(
    "Erlang C",
    "Ten agents with one queue, at a load of 0.85 each. No node is such a queue: these figures test the recurrence (`queued` of `check/theory.py`) for the "
    "wait of each call. A delay holds the call that long, and a trunk group of ten serves it. It loses no call: ten agents are enough for these waits.",
)
def one_queue(it):
    agents, load = 10, 8.5
    times, talk = it.arrivals(TICKS), it.exponential(load * TICKS)
    model = f"model 2\nsource door\ndelay line b from door\ntrunk pool {agents} a from line\n"
    visits = it.run(model, times, talk, queued(times, talk, agents)).visits
    waits, blocked = stays_of(visits["line"]), erlang_b(agents, load)
    share = blocked / (1 - load / agents * (1 - blocked))
    it.tell("share that waits", "C(10, 8.5)", share, [wait > 0 for wait in waits])
    it.tell("mean wait, in mean calls", "C / (c - a)", share / (agents - load), waits, load * TICKS)
    theory = math.log(share / 0.1) / (agents - load)
    it.tell_percentile("p90 of the wait, in mean calls", "ln(C / 0.1) / (c - a)", theory, waits, 90, 0.1 * (agents - load), load * TICKS)
    it.tell("share lost at the trunk group", "none", 0, lost_of(visits["pool"]))


@section(
    "M/G/∞",
    "A delay with 20 jobs on average. The number that an arrival finds has a Poisson distribution, whatever that of the times: its mean and variance are "
    "equal.",
)
def nobody_waits(it):
    for name, held in ("uniform", it.uniform(40 * TICKS)), ("hyperexponential, c² = 4", it.two_exponentials(20 * TICKS, 4)):
        visits = it.run("model 1\nsource door\ndelay room a from door\n", it.arrivals(TICKS), held).visits["room"]
        gone, found, left = sorted(visits.depart), [], 0
        for before, arrive in enumerate(visits.arrive):
            while gone[left] <= arrive:
                left += 1
            found.append(before - left)
        it.tell(f"jobs found, times {name}", "λ S", 20, found)
        it.tell(f"squared deviation from 20, times {name}", "λ S", 20, [(count - 20) ** 2 for count in found])


@section(
    "Fork and join of two",
    "Flatto and Hahn: the mean time until a job that goes to two M/M/1 servers at once is done at both. It is modelled as one node, and, with half as many "
    "jobs, as a fork and a join.",
)
def two_at_once(it):
    node = "model 1\nsource door\nforkjoin both a | b from door\n"
    network = "model 2\nsource door\nfork parts 2 from door\nserver x a from parts\nserver y b from parts.1\njoin both from x y\n"
    for load in 0.5, 0.8:
        theory, formula = (12 - load) / 8 / (1 - load), "(12 - ρ) / (8 (1 - ρ))"
        times, columns = it.arrivals(TICKS / load), (it.exponential(TICKS), it.exponential(TICKS))
        visits = it.run(node, times, *columns).visits["both"]
        it.tell(f"mean time, load {load}, `forkjoin`", formula, theory, stays_of(visits), TICKS)
        half = it.jobs // 2
        visits = it.run(network, times[:half], *(column[:half] for column in columns)).visits["both"]
        ends = dict(zip(visits.job, visits.depart))
        it.tell(f"mean time, load {load}, `fork` and `join`", formula, theory, [ends[job] - time for job, time in enumerate(times[:half], 1)], TICKS)


@section(
    "Saturated tandems",
    "Two exponential servers in a row. The first always has work; the second has K places, counting the one in service. Hunt found the mean time between "
    "departures in 1956 for K = 1; the same birth and death process gives it for more places.",
)
def never_idle(it):
    for places in 1, 2, 4:
        model = f"model 1\nsource door\ntandem line a / {places} b from door\n"
        departs = it.run(model, [0] * it.jobs, it.exponential(TICKS), it.exponential(TICKS)).visits["line"].depart
        gaps = [after - before for before, after in zip(departs, departs[1:])]
        it.tell(f"time between departures, K = {places}", "(K + 2) / (K + 1)", (places + 2) / (places + 1), gaps, TICKS)


def main():
    parser = argparse.ArgumentParser(usage=argparse.SUPPRESS, add_help=False)
    parser.add_argument("--jobs", type=int, default=1_000_000)
    parser.add_argument("--seeds", type=int, nargs="+", default=[1, 2, 3])
    parser.add_argument("--only", default="")
    parser.add_argument("--write", action="store_true")
    parser.add_argument("-h", "--help", action="store_true")
    words = parser.parse_args()
    if words.help:
        return print(__doc__.strip())
    chosen = [words.only] if words.only in SECTIONS else [title for title in SECTIONS if words.only.lower() in title.lower()]
    found, holds = {title: [] for title in chosen}, bool(chosen)
    for title, samples in found.items():
        for seed in words.seeds:
            sample = Sample(title, seed, words.jobs, words.write and not samples)
            SECTIONS[title][0](sample)
            samples.append(sample)
            for it in sample.figures:
                print(
                    f"{'ok' if it.holds else 'NO'} seed {seed}, {title}: {it.what}: {it.theory:.5g} by theory, {it.measured:.5g}, off {it.off:+.1f}",
                    flush=True,
                )
            for node in sample.off_little:
                print(f"NO seed {seed}, {title}: Little's law at {node}", flush=True)
            holds = holds and all(it.holds for it in sample.figures) and not sample.off_little
    if words.write:
        from theory_page import page, picture

        for name, text in ("VALIDATION.md", page(found, words)), ("validation.svg", picture(found)):
            (ROOT / "docs" / name).write_text(text)
    return 0 if holds else 1


if __name__ == "__main__":
    sys.exit(main())
