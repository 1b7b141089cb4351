"""Groups the records of a trace by the values of a column, such as a flow or a product."""

from __future__ import annotations

import csv
import os
from array import array
from typing import TYPE_CHECKING, NamedTuple

from ..exports.codes import codes_in
from .trace import fields_up_to

if TYPE_CHECKING:
    from collections.abc import Iterable, Sequence

    from ..shapes import Path


class Groups(NamedTuple):
    """The groups of records: the name of the column (str), the label of each group (list of str), and the number of its group for each record
    (sequence of int, from 0)."""

    name: str
    labels: list[str]
    numbers: Sequence[int]


def groups_in(path: Path, name: str, model: str = "") -> Groups:
    """Returns the groups of the records of a trace in a file by the values of a column after the times, which may be any texts. They are in the order
    of the numbers, followed by other texts. If the comments of the model (str) give words for numbers, as `mpplan prepare --code` writes them, these
    are the labels. Raises OSError, and ValueError for an unknown column, or if the file can't be read twice, like a pipe.

    >>> import tempfile
    >>> from mpsim.traces.groups import groups_in
    >>> with tempfile.NamedTemporaryFile("w") as file:
    ...     print("source,time,flow\\ndoor,0,10\\ndoor,1,9\\ndoor,2,10", file=file, flush=True)
    ...     groups_in(file.name, "flow", '# flow: 9 is "mail"\\n')
    Groups(name='flow', labels=['mail', '10'], numbers=array('i', [1, 0, 1]))
    """
    if not os.path.isfile(path):
        raise ValueError(f"{os.fsdecode(path)}: its column {name!r} can't be read after the run: give a file")
    with open(path, encoding="utf-8-sig", errors="surrogateescape", newline="") as file:
        values = _values(os.fsdecode(path), name, filter(None, csv.reader(file)))
    places = {value: place for place, value in enumerate(sorted(set(values), key=_order))}
    words: dict[int, list[str]] = {}
    for word, code in codes_in(model).get(name, {}).items():
        words.setdefault(code, []).append(word)
    labels = [" / ".join(words.get(_number(value), [])) or value for value in places]
    return Groups(name, labels, array("i", map(places.__getitem__, values)))


def _values(path: str, name: str, rows: Iterable[list[str]]) -> list[str]:
    """Returns the values of a column. Equal ones are one text, which saves memory."""
    every, number = iter(rows), 0
    known: dict[str, str] = {}
    try:
        with fields_up_to():
            header: list[str] = next(every, [])
            if name not in header[2:]:
                raise ValueError(f"{path}: no column {name!r}; it has {', '.join(header[2:]) or 'none'}")
            at, values = header.index(name, 2), []
            for number, row in enumerate(every, 1):
                values.append(known.setdefault(row[at], row[at]))
    except csv.Error as error:
        raise ValueError(f"{path}: record {number + 1}: {error}") from None
    except IndexError:
        raise ValueError(f"{path}: record {number}: no column {name!r}") from None
    return values


def _number(text: str) -> int:
    """Returns the number that a text is, or -1."""
    return int(text) if text.isascii() and text.isdigit() and len(text) <= 20 else -1


def _order(text: str) -> tuple[bool, int, str]:
    return _number(text) < 0, _number(text), text
