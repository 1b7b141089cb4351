"""Compares few jobs with queueing theory (theory.py): the figures of mpsim agree with it, and those of two wrong programs don't.

docs/VALIDATION.md has the figures of a million jobs; its rows are compared with what is printed now.
"""
import re
import sys

from programs import CHECKS, PROGRAMS, ROOT, Check, executable, run

# A last-come-first-served server instead of every model: its report is complete, and its means alone look right.
LAST_FIRST = """#!/usr/bin/env python3
import sys
rows = [line.split(",") for line in open(sys.argv[2]).read().splitlines()[1:]]
jobs, waiting, free, at, ends = [(int(time), int(service)) for _, time, service in rows], [], 0, 0, {}
while len(ends) < len(jobs):
    free = free if waiting else max(free, jobs[at][0])
    while at < len(jobs) and jobs[at][0] <= free:
        waiting.append(at)
        at += 1
    job = waiting.pop()
    free += jobs[job][1]
    ends[job] = free
count, span, area, busy = len(jobs), free, sum(ends.values()) - sum(time for time, _ in jobs), sum(service for _, service in jobs)
waits = {job: ends[job] - time - service for job, (time, service) in enumerate(jobs)}
print(f"mpsim report 2\\njobs {count} span {span}")
tail = f"p50 0 p90 0 p99 0 busy {busy} area {area} peak 1 util {busy / span:.4f}"
print(f"node door source in {count} out {count} lost 0 held 0 wait 0 max 0 p50 0 p90 0 p99 0 busy 0 area 0 peak 0 util -")
print(f"node desk server in {count} out {count} lost 0 held 0 wait {sum(waits.values())} max {max(waits.values())} {tail}\\nexit desk.0 {count} sojourn {area}")
for job, (time, _) in enumerate(jobs):
    print(f"job {job + 1} door arrive {time} wait 0 depart {time}")
for job, (time, _) in enumerate(jobs):
    print(f"job {job + 1} desk arrive {time} wait {waits[job]} depart {ends[job]}")
"""
# A loss station has one place more than its model says.
PLACE_MORE = """#!/bin/sh
places=$(sed -n 's/^loss desk \\([0-9]*\\).*/\\1/p' "$1")
sed "s/^loss desk $places/loss desk $((places + 1))/" "$1" >"$0.model"
shift
exec "$MPSIM" "$0.model" "$@"
"""


class Theory(Check):
    def figures(self, only, jobs, program=None):
        """Returns the output of theory.py for a section: its status, and whether each figure holds."""
        folder = self.folder / f"programs {only} {bool(program)}".replace("/", "")
        folder.mkdir()
        for name in PROGRAMS:
            (folder / name).symlink_to(executable(name))
        if program:
            (folder / "mpsim").unlink()
            (folder / "mpsim").write_text(program)
            (folder / "mpsim").chmod(0o755)
        settings = {"MPSIM_PROGRAMS": str(folder), "MPSIM": str(executable("mpsim"))}
        ran = run(sys.executable, "-B", CHECKS / "theory.py", "--jobs", str(jobs), "--seeds", "1", "--only", only, settings=settings)
        self.same(f"{ran.command}: what it tells of faults", ran.line, b"")
        return ran, {what: sign == "ok" for sign, what in re.findall(r"^(ok|NO) seed 1, (.*: .*): .* by theory", ran.out.decode(), flags=re.MULTILINE)}

    def test_figures_of_mpsim(self):
        for only, count in ("M/M/1", 4), ("M/M/1/K", 3), ("Saturated tandems", 3), ("M/G/∞", 4), ("Erlang C", 4):
            ran, results = self.figures(only, 31_000)
            self.same(f"{ran.command}\n{ran.out.decode()}", (ran.status, len(results), set(results.values())), (0, count, {True}))

    def test_who_came_last_is_served_first(self):
        """The means are the same, but the percentiles aren't."""
        ran, results = self.figures("M/M/1", 31_000, LAST_FIRST)
        means = ["M/M/1: mean wait", "M/M/1: share that waits"]
        self.same(f"{ran.command}\n{ran.out.decode()}", (ran.status, [result for result in results if results[result]]), (1, means))

    def test_a_place_too_many(self):
        ran, results = self.figures("M/M/1/K", 31_000, PLACE_MORE)
        self.same(f"{ran.command}\n{ran.out.decode()}", (ran.status, results), (1, dict.fromkeys(results, False)))

    def test_rows_of_the_page(self):
        """They are the figures printed now, in the same order, and all hold."""
        ran, results = self.figures("", 3_100)
        page, title, rows = (ROOT / "docs" / "VALIDATION.md").read_text(), "", []
        for line in page.splitlines():
            title = line[3:] if line.startswith("## ") else title
            if line.startswith("| ") and not line.startswith("| What"):
                rows.append(f"{title}: {line.split(' | ')[0][2:]}")
        self.same("docs/VALIDATION.md", rows, list(results))
        self.holds("docs/VALIDATION.md: a figure that doesn't hold", "**no**" not in page and "fails" not in page)
