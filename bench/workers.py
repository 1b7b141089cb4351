#!/usr/bin/env python3
"""Checks that mpsim isn't slower with more workers, nor slower than an earlier build, on the inputs of bench.py.

usage: workers.py PROGRAM [EARLIER] [--rows N] [--runs R] [--only NAME,..] [--workers N,..]

PROGRAM and EARLIER are built programs. They run as their script runs them, with the memory settings of tools/memory.sh, in form 2. For each input,
both programs run with each number of workers, R times in turn. A row per input and program shows, for each number of workers, the least time and the
least CPU time in seconds, and the peak of resident memory in MB.

PROGRAM is slow if its least time is more than a twentieth above that with the fewest workers, or above that of EARLIER with as many workers. An input
that seems slow runs R times more, twice at most, and the least times of all its runs count. What is slow is reported below the rows of its input, and
the status is 1. The last line has the CPU time of other work, and `steal`.
"""
import argparse
import os
import sys
import tempfile
from collections import namedtuple

from measure import INPUTS, Failed, call, in_turn, least, memory_settings, processors, write_model, write_trace

# How many times as long a run may take, and how often an input that seems slow is run again.
MOST, AGAIN = 1.05, 2


class Way(namedtuple("Way", "program workers")):
    """A way to run an input: the program or the earlier one, with a number of workers."""

    def __str__(self):
        return f"{self.program}, {self.workers} worker{'s' if self.workers > 1 else ''}"


def slow(done):
    """Returns what is slow among the runs of an input, a line for each pair of ways."""
    ways = [way for way in done if way.program == "program"]
    pairs = [(way, ways[0]) for way in ways] + [(way, Way("earlier", way.workers)) for way in ways]
    ratios = [(way, other, least(done[way]) / least(done[other])) for way, other in pairs if other in done]
    return [f"{way}: {ratio:.2f} times as long as {other}" for way, other, ratio in ratios if ratio > MOST]


def runs_of(calls, runs, setting):
    """Returns the runs of an input, with those that repeat it because it seems slow."""
    done = in_turn(calls, runs, setting)
    for _ in range(AGAIN):
        if slow(done):
            done = {way: done[way] + more for way, more in in_turn(calls, runs, setting).items()}
    return done


def rows_of(name, done):
    """Returns the rows of a table for the runs of an input, one per program."""
    cells = {}
    for way, runs in done.items():
        figures = least(runs), min(run.worked for run in runs), max(run.megabytes for run in runs)
        cells.setdefault(way.program, []).append("{:.3f}, {:.3f}, {:.0f} MB".format(*figures))
    return [f"| {name} | {' | '.join([program, *row])} |" for program, row in cells.items()]


def main():
    parser = argparse.ArgumentParser(description=__doc__, formatter_class=argparse.RawDescriptionHelpFormatter)
    parser.add_argument("program")
    parser.add_argument("earlier", nargs="?")
    parser.add_argument("--rows", type=int, default=1_000_000)
    parser.add_argument("--runs", type=int, default=9)
    parser.add_argument("--only", type=lambda names: names.split(","), default=list(INPUTS))
    parser.add_argument("--workers", type=lambda numbers: sorted(map(int, numbers.split(","))), default=[1, 2, 3, 4])
    args = parser.parse_args()
    programs = {"program": args.program, **({"earlier": args.earlier} if args.earlier else {})}
    before, setting, status = processors(), memory_settings(), 0
    print("| Input | Program |", *(f"{Way('', workers)} |".lstrip(", ") for workers in args.workers))
    print("|" + "---|" * (2 + len(args.workers)), flush=True)
    with tempfile.TemporaryDirectory() as folder:
        model, trace = (os.path.join(folder, name) for name in ("model", "trace"))
        for name in args.only:
            write_model(model, INPUTS[name])
            write_trace(trace, INPUTS[name], args.rows // INPUTS[name].visits)
            calls = {Way(it, workers): call(path, model, trace, workers) for workers in args.workers for it, path in programs.items()}
            try:
                done = runs_of(calls, args.runs, setting)
            except Failed as why:
                sys.exit(f"workers: {name}: {why}")
            print(*rows_of(name, done), *slow(done), sep="\n", flush=True)
            status |= bool(slow(done))
    worked, steal = (after - then for after, then in zip(processors(), before))
    print(f"other work {max(0.0, worked - sum(os.times()[:4])):.1f} s, steal {steal:.1f} s")
    return status


if __name__ == "__main__":
    sys.exit(main())
