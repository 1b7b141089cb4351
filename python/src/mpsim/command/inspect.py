"""The command `mpplan inspect`."""

from __future__ import annotations

import shlex
from argparse import ArgumentParser, Namespace
from collections.abc import Mapping
from typing import Any

from ..exports.inspection import HEADS, inspected
from ..exports.recipes import recipe_text
from ..files import judge_outputs, written
from ..tables.sheets import write_table
from .messages import say
from .options import table_words
from .prepare import file_words

EXAMPLE = "mpplan inspect calls.csv --write-recipe calls.toml"


def words(parser: ArgumentParser) -> None:
    """Declares the arguments of `mpplan inspect`."""
    parser.add_argument("export", help="the export: a file that `mpplan prepare` reads")
    file_words(parser.add_argument)
    says = "write the options found as a recipe for `mpplan prepare --recipe`"
    parser.add_argument("--write-recipe", metavar="FILE", help=says)
    table_words(parser)


def main(args: Namespace) -> None:
    """Runs `mpplan inspect`."""
    judge_outputs([args.write_recipe], {"export": [args.export]})
    names = "decimal", "delimiter", "encoding", "fixed", "header", "sheet", "skip"
    found = inspected(args.export, **{name: getattr(args, name) for name in names if getattr(args, name) is not None})
    for note in found.notes:
        say(note)
    if found.options is not None:
        if args.write_recipe:
            with written(args.write_recipe) as file:
                file.write(recipe_text(found.options, "Options of mpplan prepare, found by mpplan inspect"))
        say(f"proposed: {_command(args.export, found.options)}")
    elif args.write_recipe:
        raise ValueError(f"{args.write_recipe} isn't written: the options of {args.export} can't be told")
    write_table([list(HEADS), *(column.row() for column in found.columns)], args.format, args.csv_style)


def _command(export: str, options: Mapping[str, Any]) -> str:
    """Returns the command of these options, as for a shell.

    >>> _command("my calls.csv", {"time": "When", "demand": ["Long:min"], "skip": 2})
    "mpplan prepare 'my calls.csv' --time When --demand Long:min --skip 2"
    """
    given = [(name, item) for name, value in options.items() for item in (value if isinstance(value, list) else [value])]
    return shlex.join(["mpplan", "prepare", export, *(word for name, item in given for word in (f"--{name}", str(item)))])
