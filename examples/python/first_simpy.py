#!/usr/bin/env python3
"""The first lines of a user who thinks in processes, as in SimPy: a process becomes the path of a job through nodes, and its random numbers become the
columns of a trace. It needs only Python.

    def call(env, lines, desk):
        with lines.request(priority=0) as line:         # lost if all lines are taken: trunk
            yield env.timeout(menu)                      # the line is held for the menu
        yield env.timeout(5)                             # nobody waits at a delay
        with desk.request() as free:                     # a Resource of capacity 1: server
            yield free
            yield env.timeout(talk)
"""

import random

import mpsim

model = mpsim.Model()
lines = model.trunk("lines", 2, "menu", model.source("calls"))
desk = model.server("desk", "talk", model.delay("transfer", 5, lines))

draw, now, calls = random.Random(7), 0, []
for _ in range(1000):
    now += round(draw.expovariate(1 / 60))
    calls.append({"source": "calls", "time": now, "menu": round(draw.uniform(10, 40)), "talk": round(draw.expovariate(1 / 45))})

report = mpsim.run(model, calls)
print(f"lost {report['lines'].share_lost:.1%}; mean wait at the desk {report['desk'].mean_wait:.1f} s; busy {report['desk'].util:.1%}")
