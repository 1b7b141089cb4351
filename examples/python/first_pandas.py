#!/usr/bin/env python3
"""The first lines of a user of pandas: a frame with dates and durations runs as it is. It needs pandas."""

import pandas

import mpsim

MODEL = "model 1\nsource phone\nserver desk talk from phone\n"
calls = pandas.DataFrame({"time": pandas.to_datetime(["2026-03-02 08:00", "2026-03-02 08:01", "2026-03-02 08:01:15"]), "agent": ["ann", "ben", None]})
calls["talk"] = pandas.to_timedelta([240, 90, 300], unit="s")
report = mpsim.run(MODEL, calls.assign(source="phone"), jobs=True)
print(report.to_pandas()[["in", "p90", "max", "util"]])
print(report.visits.to_pandas().groupby("node").wait.mean())
