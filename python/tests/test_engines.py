"""mpplan sweep with the real GNU parallel and Slurm, if installed (test_shards.py has scripts instead): what a killed shard leaves, and that the
final table is that of single runs."""

import os
import shlex
import shutil
import signal
import subprocess
import unittest

from ground import heeds_signals, stand_in, wait_for
from test_shards import MPSWEEP, InFolder

SHORT = "mpplan: 1 of 4 shards are missing from the table: mpplan sweep --folder {} --resume runs them"


def is_gnu_parallel():
    """Returns whether `parallel` on the PATH is GNU parallel."""
    return bool(shutil.which("parallel")) and b"GNU parallel" in subprocess.run(["parallel", "--version"], stdout=subprocess.PIPE).stdout


def has_slurm():
    """Returns whether Slurm responds and has a node to run on."""
    if not shutil.which("sbatch"):
        return False
    try:
        words = ["sinfo", "--noheader", "--states=idle,mixed,allocated", "--format=%D"]
        told = subprocess.run(words, stdout=subprocess.PIPE, stderr=subprocess.PIPE, timeout=20)
    except subprocess.TimeoutExpired:
        return False
    return told.returncode == 0 and bool(told.stdout.strip())


class Engine:
    """The tests; `ways` are the options that name the engine."""

    def setUp(self):
        super().setUp()
        for path in self.path.iterdir():
            path.unlink()
        self.programs = self.folder / "programs"
        self.programs.mkdir()

    def test_a_shard_that_is_killed(self):
        """With everything that it started, and then only its mpsweep."""
        words, want = self.variants()
        once = self.folder / "once"
        for way in self.ways:
            for killed in "$PPID", "$$":
                stand_in(self.programs, "mpsweep", f'mkdir {shlex.quote(str(once))} 2>/dev/null && kill -9 {killed}\nexec {MPSWEEP} "$@"')
                at = self.folder / f"a {killed[1:]} {self.ways.index(way)}"
                status, out, lines = self.told(*words, "--folder", at, way, settings={"MPSIM_PROGRAMS": str(self.programs)})
                self.assertEqual(status, 1, lines)
                self.assertIn(SHORT.format(shlex.quote(str(at))), lines)
                self.assertEqual(sum("it left nothing: not started, or killed" in line for line in lines), killed == "$PPID", lines)
                shards = [path.name for path in (at / "0000").glob("*.txt")]
                self.assertEqual(len(shards), 3)
                table = set(want.splitlines())
                self.assertTrue(table.issuperset(out.splitlines()))
                self.assertEqual(self.told("--folder", at, "--resume", way)[:2], (11, want))
                self.assertEqual([path for path in at.rglob("*") if path.suffix in (".part", ".failed")], [])
                once.rmdir()


@unittest.skipUnless(is_gnu_parallel(), "GNU parallel isn't there")
class Parallel(Engine, InFolder):
    ways = "--parallel=--jobs 2", "--parallel=--sshlogin :"

    def test_stopped(self):
        """With Ctrl-C and a signal: nothing remains of the running shards, and none runs on."""
        words, want = self.variants(130)
        # Another run of these tests looks for a sleep of its own.
        long = f"61.{os.getpid()}"
        # As on a busy machine, its caller hears nothing for two seconds.
        late = "(trap '' TERM; sleep 2; kill -CONT $PPID) >/dev/null 2>&1 & kill -STOP $PPID"
        stand_in(
            self.programs, "mpsweep", f"echo scenario 1 status 0; sleep 1; {late}; echo >{shlex.quote(str(self.folder))}/runs; exec sleep {long}"
        )
        for number, status in (signal.SIGINT, 130), (signal.SIGTERM, 143):
            begin = ["--resume"] if self.at.exists() else words
            settings = {"MPSIM_PROGRAMS": str(self.programs)}
            with self.begun(*begin, "--folder", self.at, "--parallel=--jobs 2", settings=settings, preexec_fn=heeds_signals) as process:
                wait_for((self.folder / "runs").exists)
                process.send_signal(number)
                _, line = process.communicate()
            self.assertEqual(process.returncode, status, line)
            left = [item for item in os.listdir("/proc") if item.isdigit() and self.words_of(item) == f"sleep\0{long}\0".encode()]
            self.assertEqual(left, [])
            self.assertEqual([path.name for path in self.at.rglob("*") if path.is_file()], ["plan.json"])
            (self.folder / "runs").unlink()
        self.assertEqual(self.told("--folder", self.at, "--resume", "--parallel")[:2], (11, want))

    def words_of(self, process):
        try:
            with open(f"/proc/{process}/cmdline", "rb") as file:
                return file.read()
        except OSError:
            return b""


@unittest.skipUnless(has_slurm(), "no Slurm answers")
class Slurm(Engine, InFolder):
    ways = "--slurm", "--slurm=--time=10"


if __name__ == "__main__":
    unittest.main()
