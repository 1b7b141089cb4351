"""Puts the version into a source distribution, and the version and the three programs into a wheel, which then gets their platform tag."""

import os
import sys

from hatchling.builders.hooks.plugin.interface import BuildHookInterface

PROGRAMS = "mpsim", "mpsweep", "mpedit"
# They need Linux on x86-64 (v2) and, as the only library, glibc 2.34 or later; tests/test_wheel.py checks that against their symbols.
TAG = "py3-none-manylinux_2_34_x86_64"


def is_unpacked(root):
    """Returns whether a directory is an unpacked source distribution, which has a VERSION of its own, and not `python` in a clone."""
    return os.path.isfile(os.path.join(root, "VERSION"))


def version_file(root):
    """Returns the path of VERSION."""
    return os.path.join(root, "VERSION") if is_unpacked(root) else os.path.join(root, "..", "VERSION")


def version():
    """Returns the version (str)."""
    with open(version_file(os.path.dirname(os.path.abspath(__file__))), encoding="ascii") as file:
        return file.read().strip()


class ProgramsHook(BuildHookInterface):
    def initialize(self, version, build_data):
        files = build_data["force_include"]
        if self.target_name == "sdist":
            # hatchling would add what git ignores in a clone, so that other directories gave other bytes.
            build_data["force_include"] = files = {file: name for file, name in files.items() if name not in (".gitignore", ".hgignore")}
            files[version_file(self.root)] = "VERSION"
            return
        files[version_file(self.root)] = "mpsim/VERSION"
        # MPSIM_PROGRAMS names a directory that has all three; otherwise each is taken from where the clone built it.
        folder = os.environ.get("MPSIM_PROGRAMS")
        if not folder and is_unpacked(self.root):
            print("mpsim: a wheel without programs: set MPSIM_PROGRAMS to a directory that has them to put them in", file=sys.stderr)
            return
        for name in PROGRAMS:
            file = os.path.join(folder, name) if folder else os.path.join(self.root, "..", "crates", name, "out", name)
            if not os.access(file, os.X_OK):
                raise SystemExit(f"no program {file}: build it, or set MPSIM_PROGRAMS to a directory that has it")
            files[os.path.realpath(file)] = f"mpsim/bin/{name}"
        build_data["tag"], build_data["pure_python"] = TAG, False
