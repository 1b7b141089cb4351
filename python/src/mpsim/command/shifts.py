"""The command `mpplan shifts`."""

from __future__ import annotations

import csv
from typing import TYPE_CHECKING

from ..agents.forms import read_forms, read_need
from ..agents.shifts import chosen, cost_of, roster_of
from ..agents.solvers import SOLVERS, solver_named
from ..files import written
from ..times.intervals import every_of
from ..times.texts import MINUTE, given, length
from ..wording import counted
from .messages import say

if TYPE_CHECKING:
    from argparse import ArgumentParser, Namespace

EXAMPLE = "mpplan shifts need.csv --forms forms.csv >roster.csv"


def words(parser: ArgumentParser) -> None:
    """Declares the arguments of `mpplan shifts`."""
    parser.add_argument("need", help="the agents needed per interval: a table of mpplan staff as CSV")
    says = "the shifts that are allowed: a CSV file with the columns form, begin, length, break, between, cost and most"
    parser.add_argument("--forms", required=True, metavar="FILE", help=says)
    says = "column of the need with the number of agents, e.g. agents or rostered (the default)"
    parser.add_argument("--column", default="rostered", metavar="COLUMN", help=says)
    says = "length of the intervals of the need; default: the least distance of its times of day"
    parser.add_argument("--every", metavar="LENGTH", help=says)
    says = "least time between two shifts of an agent of the roster, e.g. 11h; default: none"
    parser.add_argument("--rest", metavar="LENGTH", help=says)
    says = "the program that chooses: scipy (SciPy's milp; the default if it is installed) or glpk (glpsol); both give the same roster"
    parser.add_argument("--solver", choices=SOLVERS, help=says)


def main(args: Namespace) -> None:
    """Runs `mpplan shifts`."""
    need = read_need(args.need, args.column, every_of(args.every) // MINUTE if args.every else None)
    forms = read_forms(args.forms)
    rest = given("--rest", length, args.rest) if args.rest else 0
    if rest % MINUTE:
        raise ValueError(f"--rest {args.rest}: not whole minutes")
    shifts = chosen(need, forms, solver_named(args.solver))
    rows = roster_of(shifts, forms, need.kind, rest // MINUTE)
    each = ", ".join(f"{sum(it.form == place for it in shifts)} {form.name}" for place, form in enumerate(forms))
    say(f"{counted(len(shifts), 'shift')} at a cost of {float(cost_of(shifts, forms)):,g}: {each}")
    if args.rest:
        say(f"{counted(len({row[0] for row in rows[1:]}), 'agent')} with at least {args.rest} between two shifts")
    with written() as file:
        csv.writer(file, lineterminator="\n").writerows(rows)
