#!/usr/bin/env python3
"""Shows what another agent at a desk with one queue changes for the callers of a week."""

import pathlib

from mpsim.agents.queues import Queue
from mpsim.traces import Trace

WEEK = pathlib.Path(__file__).resolve().parent.parent / "week"

queue = Queue(WEEK / "model.txt", Trace.read(WEEK / "trace.csv"), "desk")
for agents in 1, 2:
    calls = queue.visits(agents)
    told = f"{calls.share_within(20):.1%} answered within 20 s, nine of ten within {calls.percentile(90)} s"
    print(f"{agents} agents: {told}, the last after {max(calls.wait)} s")
