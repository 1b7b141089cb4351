"""Minimises integer linear programs with a solver of others: `milp` of SciPy, or `glpsol` of GLPK. Nothing here searches.

What a solver returns is checked in whole numbers, so that a rounding error of it is reported and never used. That no smaller objective exists is the
word of the solver."""

from __future__ import annotations

import importlib.util
import os
import shutil
import subprocess
import tempfile
from typing import Dict, List, NamedTuple, Optional

from ..files import named

SOLVERS = SCIPY, GLPK = "scipy", "glpk"
MISSING = "a solver is required: install SciPy 1.9 or later (pip install scipy, or the package python3-scipy) or GLPK (the package glpk-utils)"


class Row(NamedTuple):
    """A constraint: the sum of `parts` (dict of the place of a variable to its coefficient) is at least `low` and at most `high` (int; None for no
    bound)."""

    parts: Dict[int, int]
    low: Optional[int] = None
    high: Optional[int] = None

    def holds(self, values: list[int]) -> bool:
        """Returns whether these values of the variables keep to the constraint."""
        total = sum(count * values[at] for at, count in self.parts.items())
        return (self.low is None or self.low <= total) and (self.high is None or total <= self.high)


class Program(NamedTuple):
    """Constraints on whole numbers: the variables, each from 0 to its number in `highs`, and the rows that they keep to."""

    highs: List[int]
    rows: List[Row]


def solver_named(name: str | None = None) -> str:
    """Returns a solver that is installed: the one of this name, or the first of SOLVERS. Raises ValueError if there is none."""
    there = [it for it in SOLVERS if (shutil.which("glpsol") if it == GLPK else _has_scipy())]
    if name in there or there and name is None:
        return name or there[0]
    raise ValueError(f"the solver {name} isn't installed; {MISSING}" if name else MISSING)


def _has_scipy() -> bool:
    if importlib.util.find_spec("scipy") is None:
        return False
    from scipy import optimize

    return hasattr(optimize, "milp")


def least(program: Program, objective: list[int], solver: str) -> list[int]:
    """Returns values (list of int) of a program's variables with the least sum of `objective` (list of int, per variable). Raises ValueError if the
    solver finds none, or none that holds.

    >>> least(Program([9, 9], [Row({0: 1, 1: 1}, low=3), Row({0: 1}, high=2)]), [1, 2], solver_named())
    [2, 1]
    """
    values = (_by_scipy if solver == SCIPY else _by_glpk)(program, objective)
    if not all(0 <= value <= high for value, high in zip(values, program.highs)) or not all(row.holds(values) for row in program.rows):
        raise ValueError(f"the solver {solver} returns values that break the constraints")
    return values


def canonical(program: Program, objective: list[int], solver: str) -> list[int]:
    """Returns the values (list of int) with the least sum of `objective`, the same ones from each solver. Of several it takes those with the least
    sum of all values; of these, the ones with the greatest sum of the first half of the variables, then of the first quarter, and so on.

    >>> canonical(Program([9, 9, 9], [Row({0: 1, 1: 1, 2: 1}, low=4), Row({0: 1}, high=1)]), [1, 1, 1], solver_named())
    [1, 3, 0]
    """
    best, rows, ones = [], list(program.rows), [1] * len(objective)
    for sums in objective, ones:
        if any(sums):
            best = least(Program(program.highs, rows), sums, solver)
            # No sum is less, so this fixes it. Some versions of HiGHS find nothing if an equation says so.
            rows.append(_row(sums, high=_total(sums, best)))
    ranges = [(0, len(best))]
    # The sum of each range is fixed.
    while ranges:
        first, last = ranges.pop()
        if last - first < 2 or not any(best[first:last]):
            continue
        middle = (first + last) // 2
        half = [int(first <= at < middle) for at in range(len(best))]
        if any(best[middle:last]):
            best = least(Program(program.highs, rows), [-it for it in half], solver)
        rows.append(_row(half, low=_total(half, best)))
        ranges += [(middle, last), (first, middle)]
    return best


def _total(counts: list[int], values: list[int]) -> int:
    return sum(count * value for count, value in zip(counts, values))


def _row(counts: list[int], low: int | None = None, high: int | None = None) -> Row:
    return Row({at: count for at, count in enumerate(counts) if count}, low, high)


def _by_scipy(program: Program, objective: list[int]) -> list[int]:
    from scipy.optimize import Bounds, LinearConstraint, milp
    from scipy.sparse import csr_matrix

    places = [(at, place, count) for at, row in enumerate(program.rows) for place, count in row.parts.items()]
    lines, columns, counts = zip(*places) if places else ((), (), ())
    matrix = csr_matrix((counts, (lines, columns)), shape=(len(program.rows), len(objective)))
    lows = [-float("inf") if row.low is None else row.low for row in program.rows]
    highs = [float("inf") if row.high is None else row.high for row in program.rows]
    limits = LinearConstraint(matrix, lows, highs)
    found = milp(objective, integrality=[1] * len(objective), bounds=Bounds(0, program.highs), constraints=limits, options={"mip_rel_gap": 0})
    if found.status != 0:
        raise ValueError(f"the solver {SCIPY} finds no shifts: {found.message}")
    return [round(value) for value in found.x]


def _by_glpk(program: Program, objective: list[int]) -> list[int]:
    with tempfile.TemporaryDirectory() as folder:
        path, answer = os.path.join(folder, "program.lp"), os.path.join(folder, "answer")
        with named(folder), open(path, "w", encoding="ascii") as file:
            file.writelines(f"{line}\n" for line in _lines(program, objective))
        words = ["glpsol", "--lp", path, "-w", answer]
        ran = subprocess.run(words, stdin=subprocess.DEVNULL, stdout=subprocess.PIPE, stderr=subprocess.STDOUT, text=True)
        lines = []
        if os.path.exists(answer):
            with open(answer, encoding="ascii") as file:
                lines = [line.split() for line in file]
    # A line `s mip ROWS COLUMNS STATUS OBJECTIVE`, whose status is o if the values are optimal, and a line `j COLUMN VALUE` per variable.
    if not any(it[:2] == ["s", "mip"] and it[4] == "o" for it in lines):
        raise ValueError(f"the solver {GLPK} finds no shifts: {' '.join(ran.stdout.split()[-12:])}")
    return [round(float(it[2])) for it in lines if it[0] == "j"]


def _lines(program: Program, objective: list[int]) -> list[str]:
    """Returns the lines of a program in the format of CPLEX. All variables appear in the first sum, which numbers them."""
    lines = ["minimize", "cost:", *_sum(dict(enumerate(objective))), "subject to"]
    for row in program.rows:
        if row.low is not None:
            lines += [*_sum(row.parts), f">= {row.low}"]
        if row.high is not None:
            lines += [*_sum(row.parts), f"<= {row.high}"]
    lines += ["bounds", *(f"0 <= x{at} <= {high}" for at, high in enumerate(program.highs))]
    return [*lines, "general", *(f"x{at}" for at in range(len(objective))), "end"]


def _sum(parts: dict[int, int]) -> list[str]:
    return [f"{count:+d} x{at}" for at, count in parts.items()]
