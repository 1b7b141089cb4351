"""Recipes: the options of `mpplan prepare` for the exports of one system, in a TOML file."""

from __future__ import annotations

import importlib
import json
import os
from collections.abc import Mapping
from typing import Any

# What reads TOML: Python's own library from 3.11 on, or a package.
READERS = "tomllib", "tomli", "toml"


def _reader() -> Any:
    """Returns the first of READERS that is installed. Raises ValueError if none is."""
    for name in READERS:
        try:
            return importlib.import_module(name)
        except ImportError:
            continue
    raise ValueError("a recipe requires Python 3.11, or the Python package tomli (pip install tomli, or the package python3-tomli)")


def read_recipe(path: str | os.PathLike[str]) -> dict[str, Any]:
    """Returns the options in a recipe by name, in its order, such as {"time": "Start", "demand": ["Talk=talk"]}. Raises OSError if the file can't be
    read, and ValueError, with its name, if it isn't TOML, and if TOML can't be read here."""
    with open(path, encoding="utf-8-sig", errors="surrogateescape") as file:
        text = file.read()
    try:
        return dict(_reader().loads(text))
    except ValueError as error:
        raise ValueError(f"{os.fspath(path)}: {error}") from None


def recipe_text(options: Mapping[str, Any], comment: str = "") -> str:
    """Returns the text of a recipe with these options, which `read_recipe` reads back. Values are texts, numbers, bools, and lists of texts.

    >>> from mpsim.exports.recipes import recipe_text
    >>> print(recipe_text({"time": "Start", "demand": ["Talk=talk:min"], "skip": 3}, "Calls of a month"), end="")
    # Calls of a month
    time = "Start"
    demand = ["Talk=talk:min"]
    skip = 3
    """
    lines = [f"# {line}" for line in comment.splitlines()]
    return "".join(f"{line}\n" for line in [*lines, *(f"{name} = {_value(value)}" for name, value in options.items())])


def _value(value: Any) -> str:
    """Returns a value as TOML, whose texts are those of JSON except for one control character."""
    return json.dumps(value, ensure_ascii=False).replace("\x7f", "\\u007f")
