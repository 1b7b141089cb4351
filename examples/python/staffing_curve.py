#!/usr/bin/env python3
"""Finds how many agents answer 95 % of the calls of a week within 20 s, and draws the share for each number of agents as text."""

import pathlib

from mpsim.agents.queues import Queue
from mpsim.traces import Trace

WEEK, GOAL = pathlib.Path(__file__).resolve().parent.parent / "week", 0.95

queue = Queue(WEEK / "model.txt", Trace.read(WEEK / "trace.csv"), "desk")
shares = {agents: queue.visits(agents).share_within(20) for agents in range(1, 6)}
for agents, share in shares.items():
    print(f"{agents} {share:6.1%} {'#' * round(50 * share)}")
print(f"for {GOAL:.0%} it takes {min(agents for agents, share in shares.items() if share >= GOAL)}")
