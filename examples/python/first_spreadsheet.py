#!/usr/bin/env python3
"""The first lines of a user of spreadsheets: calls from a workbook, and a workbook with the figures of each node. It needs openpyxl."""

import os
import tempfile

import openpyxl

import mpsim

room = tempfile.TemporaryDirectory()
folder = room.name
book = openpyxl.Workbook()
for row in [["Start", "Queue", "Minutes"], ["2026-03-02 08:00:00", "Sales", 4], ["2026-03-02 08:01:00", "Help", 1.5], ["2026-03-02 08:01:15", "Sales", 5]]:
    book.active.append(row)
book.save(os.path.join(folder, "calls.xlsx"))

calls = mpsim.prepare(os.path.join(folder, "calls.xlsx"), time="Start", source="Queue", demand="Minutes=talk:min")
model = mpsim.Model.parse(calls.first_lines())
model.server("desk", "talk", *calls.names)
report = mpsim.run(model, calls)

sheet = openpyxl.Workbook()
for row in [["node", "jobs", "longest wait"], *([node.name, node.in_, node.max] for node in report.nodes)]:
    sheet.active.append(row)
sheet.save(os.path.join(folder, "figures.xlsx"))
for row in openpyxl.load_workbook(os.path.join(folder, "figures.xlsx")).active.values:
    print(*row, sep="\t")
