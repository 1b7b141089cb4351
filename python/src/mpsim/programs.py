"""Finds the three programs, sets up their environment, and provides the wheel's commands, which answer --help and --version."""

from __future__ import annotations

import functools
import os
import shutil
import subprocess
import sys

from .errors import ProgramError
from .version import __version__

HERE = os.path.dirname(os.path.abspath(__file__))
# The same settings as in tools/memory.sh: the C library takes memory in large pieces, on huge pages if possible, which saves a quarter of the time
# for a million records. They don't change the report. If the address space is limited, of which they would take 64 MB at once, only the last one is
# set: separate heaps for threads could take more memory than the run needs.
TUNABLES = ":".join(
    f"glibc.malloc.{item}" for item in ("hugetlb=1", "mmap_threshold=1073741824", "trim_threshold=1073741824", "top_pad=67108864", "arena_max=1")
)
ONE_HEAP = "glibc.malloc.arena_max=1"


def find(name: str) -> str:
    """Returns the path of a program (str): in the directory that MPSIM_PROGRAMS names; else in the wheel, in the clone around this file, or on the
    PATH; else one compiled from the clone's sources, neither proved nor optimised, as lines on stderr say. Raises ProgramError if there is none.
    build.py proves and builds a clone's programs."""
    given = os.environ.get("MPSIM_PROGRAMS")
    clone = os.path.join(HERE, "..", "..", "..", "crates", name, "out")
    for folder in [given] if given else [os.path.join(HERE, "bin"), clone]:
        file = os.path.abspath(os.path.join(folder, name))
        if os.path.isfile(file) and os.access(file, os.X_OK):
            return file
    found = None if given else _on_path(name) or _compiled(name)
    if found is None:
        where = given or f"this package, in a clone around it (where ./build.py {name} builds it), or on the PATH"
        raise ProgramError(f"no program {name} in {where}; set MPSIM_PROGRAMS to a directory that has it")
    return found


def _on_path(name: str) -> str | None:
    """Returns the path of a program on the PATH, or None. The commands that pip makes don't count: they only call `find`."""
    for folder in filter(None, os.environ.get("PATH", os.defpath).split(os.pathsep)):
        file = shutil.which(name, path=folder)
        if file and not _is_command(file):
            return file
    return None


def _is_command(file: str) -> bool:
    """Returns whether a file is a command of this package that pip made."""
    try:
        with open(file, "rb") as script:
            return b"from mpsim.programs import" in script.read(4096)
    except OSError:
        return False


@functools.lru_cache(maxsize=None)
def _compiled(name: str) -> str | None:
    """Returns the path of a program that tools/unproved.py compiles from the sources of the clone around this file, which takes minutes the first
    time; None if there is no clone or it can't be compiled, as its lines on stderr say."""
    tool = os.path.join(HERE, "..", "..", "..", "tools", "unproved.py")
    if not os.path.isfile(tool):
        return None
    ran = subprocess.run([sys.executable, os.path.abspath(tool), "--path", name], stdin=subprocess.DEVNULL, stdout=subprocess.PIPE, text=True)
    return ran.stdout.strip() or None


def surroundings() -> dict[str, str]:
    """Returns the environment of a program: this process's, with memory settings unless it already has some."""
    import resource

    is_free = resource.getrlimit(resource.RLIMIT_AS)[0] == resource.RLIM_INFINITY
    return {"GLIBC_TUNABLES": TUNABLES if is_free else ONE_HEAP, **os.environ}


def _answer(name: str) -> bool:
    """Prints the help or the version if the only argument asks for it, and returns whether it does, as the scripts of a clone and of a release do."""
    if sys.argv[1:] == ["--help"]:
        with open(os.path.join(HERE, "help", f"{name}.txt"), encoding="ascii") as text:
            print(text.read(), end="")
    elif sys.argv[1:] == ["--version"]:
        print(name, __version__)
    else:
        return False
    return True


def _become(name: str) -> None:
    if _answer(name):
        return
    # The program replaces this process, so that signals, pipes and the status are its own.
    try:
        file = find(name)
    except ProgramError as error:
        sys.exit(str(error))
    os.execve(file, [os.fsencode(word) for word in (name, *sys.argv[1:])], surroundings())


def mpsim() -> None:
    """Runs the wheel's command mpsim."""
    _become("mpsim")


def mpsweep() -> None:
    """Runs the wheel's command mpsweep."""
    _become("mpsweep")


def mpedit() -> None:
    """Runs the wheel's command mpedit."""
    _become("mpedit")
