#!/usr/bin/env python3
"""Writes recorded.csv: the week of trace.csv as a telephone system would record it, if each agent of roster.csv logged in up to two minutes late and
callers had random patience.

    ./recorded.py >recorded.csv
"""
import pathlib
import random
import sys

HERE = pathlib.Path(__file__).resolve().parent
sys.path.insert(0, str(HERE.parent.parent / "python" / "src"))

from mpsim.agents import Agent, Group
from mpsim.agents.rosters import read_roster
from mpsim.times.calendar import Calendar
from mpsim.traces import Trace

trace, days = Trace.read(HERE / "trace.csv"), Calendar(10**9, "2026-03-23T00:00:00+01:00", "Europe/Berlin")
times, talk, draw = trace.times(), trace.numbers("talk"), random.Random(5)
agents, _ = read_roster(HERE / "roster.csv", days, max(times), ["calls"])
late = [Agent([(begin + draw.randrange(120), end) for begin, end in agent.intervals]) for agent in agents]
patience = [round(draw.expovariate(1 / 400)) for _ in times]
who, waits = Group(late).assigned(times, talk, None, patience)
print("source,time,talk,wait,gone")
for time, length, agent, wait in zip(times, talk, who, waits):
    print(f"calls,{time},{length if agent else 0},{wait},{int(not agent)}")
