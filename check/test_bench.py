"""Checks what bench/workers.py reports, with a stand-in that takes the time it is asked to take, and with mpsim and few rows."""
import os
import sys

from programs import ROOT, Check, executable, run

WORKERS = ROOT / "bench" / "workers.py"
# Sleeps as long as a file beside it says for its number of workers, and records its calls. Other files make it fail or write another report.
STAND_IN = """#!/bin/sh
echo "$3 $4 $5 $6" >>"$0.calls"
sleep "$(cat "$0.$6")"
[ "$6" != "$(cat "$0.fails" 2>&1)" ] || { echo "mpsim: no" >&2; exit 4; }
[ "$6" != "$(cat "$0.differs" 2>&1)" ] || echo other
"""


class Bench(Check):
    def stand_in(self, name, **seconds):
        """A program that takes this many seconds by its number of workers: one=.., two=.. They differ by more than a busy machine adds."""
        program = self.file(name, STAND_IN)
        program.chmod(0o755)
        for workers, wait in zip((1, 2), (seconds["one"], seconds["two"])):
            self.file(f"{name}.{workers}", str(wait))
        return program

    def compared(self, *words):
        return run(sys.executable, "-B", WORKERS, *words, "--runs", "2", "--rows", "20", "--only", "server", "--workers", "1,2")

    def calls(self, name):
        return (self.folder / f"{name}.calls").read_text().splitlines()

    def test_no_slow_run(self):
        ran = self.compared(self.stand_in("quick", one=3, two=0.1))
        self.same(f"{ran.command}\n{ran.out.decode()}", (ran.status, ran.line), (0, b""))
        head, rule, row, last = ran.out.decode().splitlines()
        self.same("the table", (head, rule), ("| Input | Program | 1 worker | 2 workers |", "|---|---|---|---|"))
        seconds = [float(cell.split(",")[0]) for cell in row.split(" | ")[2:]]
        self.holds(row, row.startswith("| server | program | ") and seconds[0] >= 3 and 0.1 <= seconds[1] < seconds[0])
        self.holds(last, last.startswith("other work ") and " s, steal " in last)
        self.same("the calls", self.calls("quick"), [f"--report 2 --workers {workers}" for workers in (1, 2)] * 2)

    def test_more_workers_are_slower(self):
        """It is run again, twice, and then reported."""
        ran = self.compared(self.stand_in("slow", one=0.1, two=1.5))
        told = [line for line in ran.out.decode().splitlines() if line.startswith("program, ")]
        self.same(f"{ran.command}\n{ran.out.decode()}", (ran.status, len(told)), (1, 1))
        self.holds(told[0], told[0].startswith("program, 2 workers: ") and told[0].endswith(" times as long as program, 1 worker"))
        self.same("how many calls", len(self.calls("slow")), 12)

    def test_slower_than_an_earlier_build(self):
        """Each number of workers is compared with as many; that the earlier build is slow by itself doesn't count."""
        later, earlier = self.stand_in("later", one=1.5, two=0.2), self.stand_in("earlier", one=0.1, two=1.5)
        ran = self.compared(later, earlier)
        told = [line for line in ran.out.decode().splitlines() if line.startswith("program, ")]
        self.same(f"{ran.command}\n{ran.out.decode()}", (ran.status, len(told)), (1, 1))
        self.holds(told[0], told[0].startswith("program, 1 worker: ") and told[0].endswith(" times as long as earlier, 1 worker"))
        self.same("how many calls", (len(self.calls("later")), len(self.calls("earlier"))), (12, 12))

    def test_runs_that_fail(self):
        for file, printed in ("fails", "status 4: mpsim: no"), ("differs", "another report"):
            program = self.stand_in("wrong", one=0, two=0)
            self.file(f"wrong.{file}", "2")
            ran = self.compared(program)
            self.same(ran.command, (ran.status, ran.line.decode()), (1, f"workers: server: program, 2 workers: {printed}\n"))
            (self.folder / f"wrong.{file}").unlink()

    def test_mpsim(self):
        """Every input of bench.py is accepted, and its report is the same for any number of workers."""
        program = executable("mpsim")
        if not os.access(program, os.X_OK):
            self.skipTest("mpsim isn't built")
        ran = run(sys.executable, "-B", WORKERS, program, "--runs", "1", "--rows", "400", "--workers", "1,4")
        self.holds(f"{ran.command}: {ran.line.decode()}", ran.status in (0, 1) and not ran.line)
        names = [line.split(" | ")[0] for line in ran.out.decode().splitlines() if " | program | " in line]
        self.holds(str(names), len(names) == len(set(names)) and {"| ten-tandems", "| forty-servers", "| six-links"} < set(names))
