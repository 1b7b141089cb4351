"""Writes edits by which all orders of the 20th day come an hour later.

usage: edits.py TRACE COLUMN..     the columns as the model names them first
"""
import csv
import sys

with open(sys.argv[1], newline="", encoding="utf-8-sig") as trace:
    for number, row in enumerate(csv.DictReader(trace), 1):
        if row["source"] == "web" and int(row["time"]) // 86400 == 19:
            print("set", number, row["source"], int(row["time"]) + 3600, *(row[it] for it in sys.argv[2:]))
