"""Runs shards with GNU parallel or Slurm, which decide where and when; each shard is a call of `mpplan`."""

from __future__ import annotations

import os
import re
import shlex
import subprocess
import sys
from typing import TYPE_CHECKING

from ..files import written
from ..processes import undisturbed

if TYPE_CHECKING:
    from collections.abc import Iterable, Sequence

    from ..sweeps.shards import Folder

HERE = os.path.dirname(os.path.abspath(__file__))
START = "import sys; sys.path.insert(0, sys.argv.pop(1)); from mpsim.command import main; sys.exit(main(sys.argv[1:]))"


def command(folder: Folder) -> list[str]:
    """Returns the command line that runs a shard, without its number. It works on every machine that has the directory, the package and the programs
    at the same paths."""
    package = os.path.dirname(os.path.dirname(HERE))
    settings = [f"{item}={os.path.abspath(os.environ[item])}" for item in ("MPSIM_PROGRAMS",) if item in os.environ]
    # Isolated: a csv.py in the current directory isn't run.
    python = [sys.executable, "-I", "-c", START, package]
    return ["env", *settings, *python, "sweep", "--folder", os.path.abspath(folder.path), "--shard"]


def _run(words: Sequence[str], what: str, given: str | None = None) -> None:
    """Runs a command with this input. Its output goes to stderr. Raises ValueError if the command doesn't exist."""
    process = None
    try:
        with undisturbed():
            process = subprocess.Popen(words, stdin=subprocess.PIPE, stdout=2)
        process.communicate(None if given is None else given.encode(errors="surrogateescape"))
    except FileNotFoundError:
        raise ValueError(f"the command {words[0]} isn't on the PATH: {what}") from None
    finally:
        # If `mpplan` is interrupted, the command must start no further shard.
        if process is not None and process.poll() is None:
            process.terminate()
            process.wait()


def by_parallel(folder: Folder, shards: Iterable[int], options: Sequence[str] = ()) -> None:
    """Runs shards with GNU parallel. Its options may name machines (--sshlogin a,b) and the number of jobs at a time (--jobs 4)."""
    # It gets whole command lines, in which it replaces nothing.
    lines = "".join(f"{shlex.join([*command(folder), str(shard)])}\n" for shard in shards)
    # A shard that is stopped removes what it made. By default it has a third of a second for that, which a busy machine may take to wake it.
    patient = ["--termseq", "TERM,60000,KILL,25"]
    _run(["parallel", "--no-notice", "--halt", "never", *patient, *options], "--parallel requires GNU parallel", lines)


def array(folder: Folder, shards: Sequence[int], tasks: int) -> tuple[str, int]:
    """Returns the script of a job array and its number of tasks. Each task runs one or more shards, so that there are no more tasks than Slurm
    allows."""
    each = -(-len(shards) // tasks)
    cases = "".join(f"{at // each + 1}) set -- {' '.join(map(str, shards[at : at + each]))} ;;\n" for at in range(0, len(shards), each))
    script = f"""#!/bin/sh
# A task that begins again, since its machine vanished, leaves out what is done.
case $SLURM_ARRAY_TASK_ID in
{cases}esac
status=0
for shard; do
    {shlex.join(command(folder))} "$shard" || status=$?
done
exit $status
"""
    return script, -(-len(shards) // each)


def _most_tasks() -> int:
    """Returns the greatest number of tasks in an array of this Slurm."""
    try:
        config = subprocess.run(["scontrol", "show", "config"], stdout=subprocess.PIPE, stderr=subprocess.DEVNULL, text=True, check=False).stdout
    except FileNotFoundError:
        config = ""
    found = re.search(r"^MaxArraySize\s*= (\d+)", config, flags=re.MULTILINE)
    return max(int(found[1]) - 1, 1) if found else 1000


def by_slurm(folder: Folder, shards: Sequence[int], options: Sequence[str] = ()) -> None:
    """Runs shards as a Slurm array and waits for its end. The output of the tasks goes to `slurm.out` in the directory."""
    script, tasks = array(folder, shards, _most_tasks())
    path, out = (os.path.join(os.path.abspath(folder.path), item) for item in ("array.sh", "slurm.out"))
    with written(path) as file:
        file.write(script)
    # A single percent sign would begin a Slurm pattern.
    settings = ["--job-name=mpsim", f"--array=1-{tasks}", f"--output={out.replace('%', '%%')}", "--open-mode=append"]
    _run(["sbatch", "--wait", *settings, *options, path], "--slurm requires Slurm")
