#!/usr/bin/env python3
"""Times mpedit beside mpsim: the cost of keeping a run, and of editing one of its rows.

usage: edits.py MPSIM MPEDIT [--rows N] [--runs R] [--only NAME,..]

MPSIM and MPEDIT are the built programs. The inputs are those of bench.py, by the same names. For each input it runs mpsim over the trace, mpedit with
no edit, and mpedit with an edit of one row in the first, the middle and the last hundredth of the trace, which changes its first service time. It
prints the least time and the least CPU time in seconds, the peak of resident memory in MB, and how many blocks were computed again. Both programs read
the trace and write a report, so the cost of an edit is its time less that without edits. A run without edits does everything that an edit does, except
computing blocks again.
"""
import argparse
import os
import tempfile

from measure import INPUTS, measure, write_model, write_trace

# The position of the edited row, as a fraction of the trace.
PLACES = {"first": 0.005, "middle": 0.5, "last": 0.995}


def edit_of(trace, given, rows, place):
    """Returns an edit that changes the first service time of the row at a position of a trace."""
    number = max(1, int(rows * place))
    with open(trace) as lines:
        row = next(line for at, line in enumerate(lines) if at == number).rstrip("\n").split(",")
    row[2] = str((int(row[2]) + 1) % next(iter(given.columns.values())))
    return " ".join(["set", str(number), *row]) + "\n"


def row(name, runs):
    again = runs[0].out.decode().rstrip("\n").rsplit("\n", 1)[-1]
    told = again if again.startswith("again ") else ""
    told = f"status {runs[0].status}" if runs[0].status else told
    least = min(run.seconds for run in runs)
    worked = min(run.worked for run in runs)
    peak = max(run.megabytes for run in runs)
    print(f"  {name:8} least {least:7.3f}  processor {worked:7.3f}  peak {peak:6.0f} MB  {told}", flush=True)


def main():
    parser = argparse.ArgumentParser(description=__doc__, formatter_class=argparse.RawDescriptionHelpFormatter)
    parser.add_argument("mpsim")
    parser.add_argument("mpedit")
    parser.add_argument("--rows", type=int, default=1_000_000)
    parser.add_argument("--runs", type=int, default=5)
    parser.add_argument("--only", default="server,tandem,call-centre")
    args = parser.parse_args()
    with tempfile.TemporaryDirectory() as folder:
        model, trace, edits = (os.path.join(folder, name) for name in ("model", "trace", "edits"))
        for name in args.only.split(","):
            given, rows = INPUTS[name], args.rows // INPUTS[name].visits
            write_model(model, given)
            write_trace(trace, given, rows)
            print(name)
            row("mpsim", [measure([args.mpsim, model, trace]) for _ in range(args.runs)])
            for place in ["none", *PLACES]:
                with open(edits, "w") as out:
                    out.write("" if place == "none" else edit_of(trace, given, rows, PLACES[place]))
                row(place, [measure([args.mpedit, model, trace, edits]) for _ in range(args.runs)])


if __name__ == "__main__":
    main()
