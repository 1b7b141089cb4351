#!/usr/bin/env python3
"""Doubles the calls of a week, for two agents and for three. Each call gets a copy a day later at the same time; copies of the last day's calls
come on the first."""

import pathlib

from mpsim.agents.queues import Queue
from mpsim.traces import Trace
from mpsim.traces.scale import scaled

WEEK, DAY = pathlib.Path(__file__).resolve().parent.parent / "week", 86400

today = Trace.read(WEEK / "trace.csv")
for name, trace in ("today", today), ("twice", scaled(today, 2, 1, "shift", DAY)):
    queue = Queue(WEEK / "model.txt", trace, "desk")
    for agents in 2, 3:
        calls = queue.visits(agents)
        told = f"{calls.share_within(20):.1%} answered within 20 s, nine of ten within {calls.percentile(90)} s"
        print(f"{name}, {agents} agents: of {len(calls)} calls {told}")
