#!/usr/bin/env python3
"""Compares a trunk group with Erlang's loss formula.

Draws a trace of calls that come at random (a Poisson process) and hold a line for an exponential time, runs mpsim on
it with the model of this folder, and prints the share of lost calls and what the formula gives.

    ./erlang.py [CALLS [SEED]]        default: 100000 calls and seed 1
    ./erlang.py --trace CALLS SEED    prints only the trace
"""

import math
import pathlib
import random
import re
import subprocess
import sys
import tempfile

HERE = pathlib.Path(__file__).resolve().parent
CLONE = HERE.parent.parent / "mpsim"
MPSIM = CLONE if CLONE.exists() else "mpsim"  # that of a release is on the path
HOLD = 180_000.0  # the mean time for which a call holds a line, in ticks of a millisecond
LOAD = 25.0  # how many lines the calls would hold on average if none were lost, in erlangs
PARTS = 50  # number of parts of the trace, whose shares give the spread


def drawn(calls, seed):
    """The times and the holding times of so many calls."""
    draw = random.Random(seed)
    now = 0.0
    for _ in range(calls):
        now += draw.expovariate(LOAD / HOLD)
        yield round(now), round(draw.expovariate(1 / HOLD))


def trace(calls, seed):
    """The text of the trace."""
    return "source,time,hold\n" + "".join(f"calls,{time},{hold}\n" for time, hold in drawn(calls, seed))


def erlang(load, lines):
    """Erlang's loss formula: the share of calls that find all lines taken."""
    share = 1.0
    for line in range(1, lines + 1):
        share = load * share / (line + load * share)
    return share


def main(words):
    """Prints the two shares."""
    if words[:1] == ["--trace"]:
        sys.stdout.write(trace(int(words[1]), int(words[2])))
        return 0
    calls = int(words[0]) if words else 100_000
    seed = int(words[1]) if len(words) > 1 else 1
    lines = int(re.search(r"^trunk \S+ (\d+)", (HERE / "model.txt").read_text(), re.MULTILINE).group(1))
    with tempfile.NamedTemporaryFile("w", suffix=".csv") as file:
        file.write(trace(calls, seed))
        file.flush()
        report = subprocess.run(
            [MPSIM, HERE / "model.txt", file.name, "--jobs"], check=True, capture_output=True, text=True
        ).stdout
    lost = [line.endswith(" lost") for line in report.splitlines() if re.match(r"job \d+ lines ", line)]
    share = sum(lost) / calls
    # Neighbouring calls fare alike, so the spread isn't that of independent calls: it comes from parts of the trace,
    # each much longer than the time for which a call holds its line.
    ends = [calls * part // PARTS for part in range(PARTS + 1)]
    shares = [sum(lost[start:end]) / (end - start) for start, end in zip(ends, ends[1:])]
    spread = math.sqrt(sum((part - share) ** 2 for part in shares) / (PARTS - 1) / PARTS)
    says = erlang(LOAD, lines)
    print(f"{calls} calls, {lines} lines, {LOAD:g} erlangs, seed {seed}")
    print(f"lost by mpsim      {share:.5f}")
    print(f"lost by Erlang     {says:.5f}")
    print(f"difference         {share - says:+.5f}, {(share - says) / spread:+.2f} standard errors of {spread:.5f}")
    return 0


if __name__ == "__main__":
    sys.exit(main(sys.argv[1:]))
