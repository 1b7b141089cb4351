#!/usr/bin/env python3
"""The first lines of a plain script: a model, a trace as rows, and the figures of a node. It needs only Python."""

import mpsim

model = mpsim.Model()
desk = model.server("desk", "talk", model.source("phone"))
calls = [("phone", 0, 240), ("phone", 60, 90), ("phone", 75, 300), ("phone", 400, 30)]
report = mpsim.run(model, calls, jobs=True)
print(report["desk"].line())
print("mean wait", report["desk"].mean_wait, "s;", "within 60 s", report.visits["desk"].share_within(60))
