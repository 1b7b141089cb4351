"""Checks how bench/growth.py draws made-up numbers, and what it runs: a stand-in that records its calls, and mpsim with few rows."""
import json
import os
import re
import sys
import xml.etree.ElementTree as xml

from programs import ROOT, Check, executable, run

GROWTH = ROOT / "bench" / "growth.py"
NAMES = {"server": "a source and a server", "call-centre": "the call centre", "twelve": "twelve stations in a row", "row": "servers in a row"}
SVG = "{http://www.w3.org/2000/svg}"
# Records the servers and rows of its input, and its other arguments, on a line per call in a file beside it; and fails if a file beside it says so.
STAND_IN = """#!/bin/sh
echo "$(grep -c '^server' "$1") $(grep -c '^[a-z]*,[0-9]' "$2") $3 $4 $5 $6" >>"$0.calls"
[ "$6" != "$(cat "$0.fails" 2>&1)" ] || { echo "mpsim: no" >&2; exit 4; }
[ "$6" != "$(cat "$0.differs" 2>&1)" ] || echo other
"""


def made(name, sizes):
    """Points for 1, 2 and 4 workers, each with other numbers."""
    place = list(NAMES).index(name) + 1
    points = [(at, workers, (at + place) / (workers + 1) / sizes[-1], at / sizes[0] + place + workers) for at in sizes for workers in (1, 2, 4)]
    return [dict(zip(("input", "at", "workers", "seconds", "megabytes"), (name, *point))) for point in points]


NUMBERS = {
    "runs": 3,
    "took": 61.2,
    "others": 0.5,
    "steal": 0.1,
    "over": 4000,
    "rows": [point for name in ("server", "call-centre", "twelve") for point in made(name, [1000, 8000, 64000])],
    "nodes": made("row", [1, 4, 16]),
}


class Growth(Check):
    def grows(self, *words):
        """Runs growth.py, and returns the run and its picture."""
        picture = self.folder / "picture.svg"
        picture.unlink(missing_ok=True)
        ran = run(sys.executable, "-B", GROWTH, *words, "--out", picture)
        return ran, picture.read_bytes() if picture.exists() else b""

    def drawn(self, numbers):
        """Returns what is printed for numbers, and their picture."""
        ran, picture = self.grows("--numbers", self.file("numbers.json", json.dumps(numbers)))
        self.same(f"{ran.command}: status and error output", (ran.status, ran.line), (0, b""))
        return ran.out.decode(), picture

    def stand_in(self):
        program = self.file("program", STAND_IN)
        program.chmod(0o755)
        return program

    def refused(self, ran, picture, status, line):
        """No picture is made, nothing is printed, and the last line on stderr says why."""
        self.same(ran.command, (ran.status, ran.line.decode().splitlines()[-1:], ran.out, picture), (status, [line], b"", b""))

    def test_picture_of_made_numbers(self):
        """Each input has a mark for each size with the fewest and the most workers, and all labels are there."""
        _, picture = self.drawn(NUMBERS)
        top = xml.fromstring(picture)
        series = {group.find(f"{SVG}title").text: len(group.findall(f"{SVG}path")) for group in top.iter(f"{SVG}g")}
        self.same("series and their marks", series, {f"{name}, {workers}": 3 for name in NAMES.values() for workers in ("1 worker", "4 workers")})
        points = [len(found.get("points").split()) for group in top.iter(f"{SVG}g") for found in group.findall(f"{SVG}polyline")]
        self.same("points of the lines", points, [3] * 8)
        texts = [item.text for item in top.iter(f"{SVG}text")]
        wanted = ["Seconds over rows", "Seconds over servers, 4,000 rows", "rows of the trace", "servers in series after a source"]
        wanted += ["1,000", "8,000", "64,000", "1", "4", "16", "0.1", "0.2", "0.5"]
        wanted += [*NAMES.values(), "1 worker", "4 workers", "proportional growth"]
        self.same("labels that aren't there", [item for item in wanted if item not in texts], [])
        self.holds("the picture asks for something else", not re.search(rb"href|url\(|<style|<script|currentColor", picture))
        self.holds(f"the picture has {len(picture)} bytes", len(picture) < 30_000)
        ground = top[0]
        self.same("the ground", (ground.tag, ground.get("fill"), ground.get("width")), (f"{SVG}rect", "#fff", top.get("viewBox").split()[2]))

    def test_marks_are_where_the_numbers_are(self):
        """The axes are logarithmic: equal ratios are equal distances, on both axes and in both panels."""
        numbers = {**NUMBERS, "rows": [], "nodes": []}
        for at, seconds in (10, 0.01), (100, 0.1), (1000, 1):
            numbers["rows"].append({"input": "server", "at": at, "workers": 1, "seconds": seconds, "megabytes": 1})
            numbers["nodes"].append({"input": "row", "at": at, "workers": 1, "seconds": seconds, "megabytes": 1})
        top = xml.fromstring(self.drawn(numbers)[1])
        for line in [group.find(f"{SVG}polyline") for group in top.iter(f"{SVG}g")]:
            (left, low), (x, y), (right, high) = ([float(part) for part in point.split(",")] for point in line.get("points").split())
            self.same(f"the middle of {line.get('points')}", (x, y), ((left + right) / 2, (low + high) / 2))
            self.holds("more is further right, and higher", left < right and low > high)
            self.holds(f"{line.get('points')}: from the bottom to the top", (low, high) == (265, 40))

    def test_same_numbers_same_bytes(self):
        self.same("tables and picture", *(self.drawn(numbers) for numbers in (NUMBERS, json.loads(json.dumps(NUMBERS)))))
        other = {**NUMBERS, "nodes": [{**number, "seconds": number["seconds"] * 1.1} for number in NUMBERS["nodes"]]}
        self.holds("other numbers have another picture", self.drawn(other)[1] != self.drawn(NUMBERS)[1])

    def test_tables(self):
        """A row per input and size, a column per number of workers."""
        printed = self.drawn(NUMBERS)[0]
        self.same("how many rows", sum(line.startswith("| ") for line in printed.splitlines()), 1 + 9 + 1 + 3)
        head = "| Run | Rows | 1 worker | 2 workers | 4 workers |"
        first = "| a source and a server | 1,000 | 0.0078, 3 MB | 0.0052, 4 MB | 0.0031, 6 MB |"
        for line in head, first, "| 16 | 0.625, 21 MB | 0.417, 22 MB | 0.250, 24 MB |":
            self.holds(f"{line!r} isn't in\n{printed}", line in printed.splitlines())

    def test_nothing_measured(self):
        printed, picture = self.drawn({})
        self.same("tables", printed, "")
        self.same("what both panels have", [item.text for item in xml.fromstring(picture).iter(f"{SVG}text")].count("not measured yet"), 2)

    def test_numbers_that_are_none(self):
        point = NUMBERS["rows"][0]
        points = {}, [], {**point, "seconds": 0}, {**point, "at": "1"}, {**point, "input": "other"}, {**point, "more": 1}
        for text in "", "[]", "{", *(json.dumps({"rows": [point]}) for point in points):
            with self.subTest(text):
                file = self.file("wrong.json", text)
                self.refused(*self.grows("--numbers", file), 1, f"growth: {file}: not what --keep writes")
        absent = self.folder / "absent"
        self.refused(*self.grows("--numbers", absent), 1, f"growth: {absent}: No such file or directory")

    def test_runs_of_a_series(self):
        """Each size runs this often with each number of workers, in turn; the kept numbers give the same tables and picture."""
        program, kept = self.stand_in(), self.folder / "kept.json"
        words = ["--runs", "2", "--rows", "100,200", "--servers", "1,63", "--over", "50", "--workers", "1,3"]
        ran, picture = self.grows(program, *words, "--keep", kept)
        self.same(ran.command, ran.status, 0)
        sizes = [f"{servers} {rows}" for servers in (1, 1, 6) for rows in (100, 200)] + ["1 50", "63 50"]
        calls = (self.folder / "program.calls").read_text().splitlines()
        self.same("the calls", calls, [f"{size} --report 2 --workers {workers}" for size in sizes for _ in range(2) for workers in (1, 3)])
        numbers = json.loads(kept.read_text())
        points = numbers["rows"] + numbers["nodes"]
        self.same("the points", [(point["at"], point["workers"]) for point in points], [(at, by) for at in [100, 200] * 3 + [1, 63] for by in (1, 3)])
        # The memory of a run at its start isn't that of this interpreter.
        most = max(point["megabytes"] for point in points)
        self.holds(f"the stand-in has {most} MB", most < 8 and all(min(point["megabytes"], point["seconds"]) > 0 for point in points))
        self.same("of what is kept", self.drawn(numbers), (ran.out.decode(), picture))

    def test_runs_that_fail(self):
        """A series ends with the first failed run, and makes no picture."""
        few = ["--runs", "1", "--rows", "100", "--servers", "1", "--over", "100", "--workers", "1,2"]
        for file, printed in ("fails", "status 4: mpsim: no"), ("differs", "another report"):
            program = self.stand_in()
            self.file(f"program.{file}", "2")
            self.refused(*self.grows(program, *few), 1, f"growth: a source and a server, 100, --workers 2: {printed}")
            (self.folder / f"program.{file}").unlink()
        absent = self.folder / "nothing"
        ran, picture = self.grows(absent, *few)
        self.same(ran.command, (ran.status, b"status 127" in ran.line, picture), (1, True, b""))

    def test_mpsim(self):
        program = executable("mpsim")
        if not os.access(program, os.X_OK):
            self.skipTest("mpsim isn't built")
        ran, picture = self.grows(program, "--runs", "1", "--rows", "100,200", "--servers", "1,2,63", "--over", "100", "--workers", "1,4")
        self.same(f"{ran.command}\n{ran.line.decode()}", ran.status, 0)
        groups = [item.find(f"{SVG}title").text for item in xml.fromstring(picture).iter(f"{SVG}g")]
        self.same("the series", groups, [f"{name}, {workers}" for name in NAMES.values() for workers in ("1 worker", "4 workers")])
