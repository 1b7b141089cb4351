"""The option `--recipe`, which takes other options from a file."""

from __future__ import annotations

import argparse
import os
from difflib import get_close_matches
from typing import Any, Optional

from ..exports.recipes import read_recipe
from ..wording import quoted
from .parser import GivenOnce

# What differs from month to month is given on the command line.
OWN = "help", "recipe", "out", "left-out", "first-lines", "out-model"


class Recipe(GivenOnce):
    """Reads the options of the parser's command from a recipe, judged as on the command line, into `recipe` (dict by the names of the arguments). An
    option that the recipe has isn't required any more."""

    def __call__(self, parser: argparse.ArgumentParser, namespace: argparse.Namespace, values: Any, option_string: Optional[str] = None) -> None:
        """Reads the recipe at the path `values`. Raises OSError if it can't be read, and ValueError for an unknown option or an invalid value."""
        super().__call__(parser, namespace, values, option_string)
        known = {word[2:]: action for action in parser._actions for word in action.option_strings if word.startswith("--")}
        namespace.recipe = {}
        for name, value in read_recipe(values).items():
            action = known.get(name)
            if action is None or name in OWN:
                like = get_close_matches(name, [other for other in known if other not in OWN], 1)
                why = "is given on the command line" if action else f"unknown option{f', did you mean {like[0]}?' if like else ''}"
                raise ValueError(f"{values}: {quoted(name)}: {why}")
            try:
                namespace.recipe[action.dest] = _judged(action, value)
            except ValueError as error:
                raise ValueError(f"{values}: {name} = {quoted(str(value))}: {error}") from None
            action.required = False
        for name in ("model", "calendar"):
            if name in namespace.recipe:
                # A path in a file is relative to that file.
                namespace.recipe[name] = os.path.join(os.path.dirname(values), namespace.recipe[name])


def _judged(action: argparse.Action, value: Any) -> Any:
    """Returns the value that an option has on the command line. Raises ValueError if it isn't one of its values."""
    if action.nargs == 0:
        if not isinstance(value, bool):
            raise ValueError("expected true or false")
        return value or None
    kind = int if action.type is int else str
    is_list = action.nargs is not None or isinstance(action, argparse._AppendAction)
    items = value if is_list and isinstance(value, list) else [value]
    if not all(isinstance(item, kind) and not isinstance(item, bool) for item in items) or action.nargs not in (None, len(items)):
        what = {int: "a whole number", str: "a text in quotes"}[kind]
        raise ValueError(f"expected {f'a list of {action.nargs} texts' if action.nargs else f'{what}, or a list of texts' if is_list else what}")
    if action.choices and value not in action.choices:
        raise ValueError(f"expected one of {', '.join(map(str, action.choices))}")
    return items if is_list else value


def apply_recipe(args: argparse.Namespace) -> None:
    """Gives a command's arguments the values of its recipe, except those that were given on the command line."""
    for name, value in (args.recipe or {}).items():
        if getattr(args, name) is None:
            setattr(args, name, value)
