#!/usr/bin/env python3
"""Times mpsim on large inputs, beside a plain Rust yardstick, in one run on one machine.

usage: bench.py PROGRAM [--rows N] [--runs R] [--only NAME,..] [-- WORDS..]

PROGRAM is the built program, or the script that runs it (mpsim). WORDS are added to each call, such as --workers 4. rustc must be available to build
the yardstick. For each input it prints the least and the median time in seconds, the peak of resident memory in MB, and the ratio of the least time to
that of the yardstick, which gets an input with one server and as many rows. The ratio means more than the times. The yardstick writes a report of form
1: if WORDS end with `--report 1` and don't contain `--jobs`, the server's report is compared with it.
"""
import argparse
import os
import statistics
import subprocess
import sys
import tempfile

from measure import INPUTS, least, measure, write_model, write_trace

HERE = os.path.dirname(os.path.abspath(__file__))


def row(name, runs, told=""):
    median = statistics.median(run.seconds for run in runs)
    peak = max(run.megabytes for run in runs)
    print(f"{name:14} least {least(runs):7.3f}  median {median:7.3f}  peak {peak:7.0f} MB{told}", flush=True)


def fault_of(runs, wanted):
    failed = next((run for run in runs if run.status), None)
    if failed:
        return f"  status {failed.status}: {failed.err.decode(errors='replace').strip()}"
    if wanted is not None and runs[0].out != wanted:
        return "  REPORT DIFFERS from the yardstick's"
    return ""


def main():
    parser = argparse.ArgumentParser(description=__doc__, formatter_class=argparse.RawDescriptionHelpFormatter)
    parser.add_argument("program")
    parser.add_argument("--rows", type=int, default=1_000_000)
    parser.add_argument("--runs", type=int, default=3)
    parser.add_argument("--only", default="")
    given = sys.argv[1:]
    end = given.index("--") if "--" in given else len(given)
    args, words = parser.parse_args(given[:end]), given[end + 1 :]
    with tempfile.TemporaryDirectory() as folder:
        stick, model, trace = (os.path.join(folder, name) for name in ("yardstick", "model", "trace"))
        subprocess.run(["rustc", "-O", "-o", stick, os.path.join(HERE, "yardstick.rs")], check=True)
        write_trace(trace, INPUTS["server"], args.rows)
        yard = [measure([stick, trace]) for _ in range(args.runs)]
        row("yardstick", yard)
        for name in filter(None, args.only.split(",")) if args.only else INPUTS:
            write_model(model, INPUTS[name])
            write_trace(trace, INPUTS[name], args.rows // INPUTS[name].visits)
            runs = [measure([args.program, model, trace, *words]) for _ in range(args.runs)]
            fault = fault_of(runs, yard[0].out if name == "server" and words[-2:] == ["--report", "1"] and "--jobs" not in words else None)
            row(name, runs, f"  ratio {least(runs) / least(yard):6.2f}{fault}")


if __name__ == "__main__":
    main()
