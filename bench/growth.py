#!/usr/bin/env python3
"""Times mpsim as its input grows, by rows and by nodes, prints the tables of docs/TIMES.md, and makes docs/growth.svg.

usage: growth.py PROGRAM [--runs R] [--rows N,..] [--servers N,..] [--over N] [--workers N,..] [--keep FILE] [--out FILE]
       growth.py --numbers FILE [--out FILE]

PROGRAM is the built program. It is run as its script runs it, with the memory settings of tools/memory.sh, but without the milliseconds that the script
takes. By rows: a server, the call centre and twelve stations in series, which are inputs of bench.py. By nodes: a source and servers in series, as many
as --servers says (at most 63, since a network has 64 nodes), over a trace of --over rows. Each runs with each number of workers, R times in turn, in
form 2. If a run fails, or writes another report than the others of its input, the series ends.

--keep writes the numbers to a file, from which --numbers makes the tables and the picture again; --out names the picture. With the numbers {} it has no marks.
"""
import argparse
import json
import os
import sys
import tempfile
import time

from growth_picture import STYLES, Point, picture, tables
from measure import INPUTS, Failed, call, in_turn, least, memory_settings, processors, servers_in_a_row, write_model, write_trace

PICTURE = os.path.join(os.path.dirname(os.path.dirname(os.path.abspath(__file__))), "docs", "growth.svg")
OVER_ROWS = "server", "call-centre", "twelve"
OVER = 250_000
# The figures of a series, and the value of each if nothing was measured.
NUMBERS = {"runs": 0, "took": 0, "others": 0, "steal": 0, "over": OVER, "rows": [], "nodes": []}


def count(word):
    """A whole number, 1 or more."""
    if int(word) < 1:
        raise ValueError
    return int(word)


def counts(words):
    """Numbers separated by commas, in rising order."""
    return sorted(count(part) for part in words.split(","))


def points_of(args, setting, name, at, model, trace):
    """Returns the points of an input at one size."""
    calls = {f"--workers {workers}": call(args.program, model, trace, workers) for workers in args.workers}
    try:
        runs = in_turn(calls, args.runs, setting)
    except Failed as why:
        sys.exit(f"growth: {STYLES[name].name}, {at:,}, {why}")
    figures = [(round(least(done), 6), round(max(item.megabytes for item in done), 2)) for done in runs.values()]
    points = [Point(name, at, workers, *pair) for workers, pair in zip(args.workers, figures)]
    print(f"{STYLES[name].name}, {at:,}:", *(f"{point.seconds:.4f}" for point in points), file=sys.stderr, flush=True)
    return points


def series(args):
    """Runs everything, and returns the numbers."""
    began, before, setting, rows, nodes = time.monotonic(), processors(), memory_settings(), [], []
    with tempfile.TemporaryDirectory() as folder:
        model, trace = (os.path.join(folder, name) for name in ("model", "trace"))
        for name in OVER_ROWS:
            write_model(model, INPUTS[name])
            for at in args.rows:
                write_trace(trace, INPUTS[name], at)
                rows += points_of(args, setting, name, at, model, trace)
        write_trace(trace, servers_in_a_row(1), args.over)
        for at in args.servers:
            write_model(model, servers_in_a_row(at))
            nodes += points_of(args, setting, "row", at, model, trace)
    took = time.monotonic() - began
    worked, steal = (after - then for after, then in zip(processors(), before))
    others = max(0.0, worked - sum(os.times()[:4]))
    figures = {name: round(it, 2) for name, it in (("took", took), ("others", others), ("steal", steal))}
    return {"runs": args.runs, **figures, "over": args.over, "rows": rows, "nodes": nodes}


def kept(numbers):
    """Returns the text of the numbers, a line per point."""
    parts = []
    for name, value in numbers.items():
        points = ",\n  ".join(json.dumps(item._asdict()) for item in value) if name in ("rows", "nodes") else None
        parts.append(f'"{name}": ' + (json.dumps(value) if points is None else f"[\n  {points}\n ]"))
    return "{\n " + ",\n ".join(parts) + "\n}\n"


def read(path):
    """Reads the numbers from a file written by --keep."""
    try:
        with open(path) as file:
            numbers = {**NUMBERS, **json.load(file)}
        for name in "rows", "nodes":
            numbers[name] = [Point(**number) for number in numbers[name]]
            if not all(number.input in STYLES and min(number.at, number.workers, number.seconds) > 0 for number in numbers[name]):
                raise ValueError
        return numbers
    except (OSError, TypeError, ValueError) as error:
        sys.exit(f"growth: {path}: {error.strerror if isinstance(error, OSError) else 'not what --keep writes'}")


def main():
    parser = argparse.ArgumentParser(description=__doc__, formatter_class=argparse.RawDescriptionHelpFormatter)
    parser.add_argument("program", nargs="?")
    parser.add_argument("--runs", type=count, default=5)
    parser.add_argument("--rows", type=counts, default=[62_500, 125_000, 250_000, 500_000, 1_000_000])
    parser.add_argument("--servers", type=counts, default=[1, 2, 4, 8, 16, 32, 63])
    parser.add_argument("--over", type=count, default=OVER)
    parser.add_argument("--workers", type=counts, default=[1, 2, 3, 4])
    parser.add_argument("--keep")
    parser.add_argument("--numbers")
    parser.add_argument("--out", default=PICTURE)
    args = parser.parse_args()
    if bool(args.program) == bool(args.numbers):
        parser.error("either PROGRAM or --numbers")
    numbers = read(args.numbers) if args.numbers else series(args)
    if args.keep:
        with open(args.keep, "w") as file:
            file.write(kept(numbers))
    with open(args.out, "w") as file:
        file.write(picture(numbers))
    for line in tables(numbers):
        print(line)


if __name__ == "__main__":
    main()
