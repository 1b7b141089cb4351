"""Refuses memory and threads to the programs, one allocation after another, with refuse.c."""
import pathlib
import subprocess
import tempfile

from programs import CHECKS, executable, once, run, shared


@once
def library():
    """Returns the directory of the library that refuses, built with the toolchain's compiler: it is loaded before a program's own libraries."""
    folder = tempfile.mkdtemp(dir=shared())
    kit = pathlib.Path(subprocess.run(["rt", "doc"], stdout=subprocess.PIPE, text=True, check=True).stdout.strip()).parent / "toolchain"
    words = [kit / "bin" / "clang", "--target=x86_64-unknown-linux-gnu", f"--sysroot={kit}", "-fuse-ld=lld", "-nostdlib", "-shared", "-fPIC", "-O1"]
    subprocess.run([*words, "-o", f"{folder}/refuse.so", CHECKS / "refuse.c"], check=True)
    return folder


def refusing(check, name, *words, line=None, **settings):
    """Runs a program with something refused: REFUSED, the number of an allocation, or THREADS, the number of threads allowed. Returns what it did,
    and whether anything was refused."""
    told = check.folder / "told"
    # A path in LD_PRELOAD would end at a space.
    settings = {"LD_LIBRARY_PATH": library(), "LD_PRELOAD": "refuse.so", "TOLD": str(told), **settings}
    ran = run(executable(name), *words, settings=settings, line=line)
    return ran, told.is_file()


def each_refused(check, status, out, name, *words):
    """Refuses each allocation in turn: the program must end with status 8, its error line and no output, or with this status and output, as when
    nothing is refused."""
    number, refused = 0, True
    while refused:
        number += 1
        ran, refused = refusing(check, name, *words, REFUSED=str(number))
        if refused and ran.status == 8:
            check.did(ran, 8, "", f"{name}: out of memory\n")
        else:
            check.did(ran, status, out)
    check.holds(f"{ran.command}\nmakes {number - 1} allocations, wanted 20 or more", number > 20)


def first_refused_mutely(check, name, *words):
    """Refuses the first allocation while stderr is full."""
    ran, _ = refusing(check, name, *words, line="/dev/full", REFUSED="1")
    check.did(ran, 8)
