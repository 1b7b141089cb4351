#!/usr/bin/env python3
"""The first lines of a user of polars, or of any table with Arrow's C stream: a frame with dates and durations runs as it is. It needs polars."""

from datetime import datetime, timedelta

import polars

import mpsim

MODEL = "model 1\nsource phone\nserver desk talk from phone\n"
times = [datetime(2026, 3, 2, 8), datetime(2026, 3, 2, 8, 1), datetime(2026, 3, 2, 8, 1, 15)]
calls = polars.DataFrame({"time": times, "talk": [timedelta(seconds=it) for it in (240, 90, 300)]})
report = mpsim.run(MODEL, calls.with_columns(source=polars.lit("phone")))
print(report["desk"].line())
