"""Other names for the sources of an export."""

from __future__ import annotations

from typing import TYPE_CHECKING

from ..names import TAKEN, is_name

if TYPE_CHECKING:
    from collections.abc import Iterable, Sequence

    from .records import Records

# The most sources listed in a message; a wrong column may have one per row.
LISTED = 20


def rename_of(word: str) -> tuple[str, str]:
    """Returns the source in an export and its name in the trace (two str) that a value of --rename gives. Raises ValueError for an invalid one.

    >>> from mpsim.exports.renames import rename_of
    >>> rename_of("Sales & Service=desk")
    ('Sales & Service', 'desk')
    """
    old, equals, new = word.rpartition("=")
    if not equals or not is_name(new):
        why = "is a lower-case letter, then lower-case letters, digits and underscores, at most 32" if new not in TAKEN else "isn't reserved"
        raise ValueError(f"--rename {word}: expected OLD=NEW, where NEW {why}")
    return old.strip(), new


def judge_renames(records: Records, rows: Iterable[Sequence[str]]) -> list[str]:
    """Checks the names given with --rename once all rows are read; names of sources whose rows were all left out are valid too. Returns a note (str)
    for each name that no row has, since a list of names may cover many days. Raises ValueError if no row has any of them."""
    if records.renamed.keys() <= records.names.keys():
        return []
    column = records.source
    found = dict.fromkeys(row[column].strip() for row in rows if column < len(row)) if column is not None else {}
    lacking = [old for old in records.renamed if old not in found]
    if len(lacking) < len(records.renamed):
        return [f"no source {old!r} for --rename" for old in lacking]
    listed = [repr(item) for item in found if item]
    more = f" and {len(listed) - LISTED} more" if listed[LISTED:] else ""
    raise ValueError(f"no source {lacking[0]!r} for --rename; it has {', '.join(listed[:LISTED]) or 'none'}{more}")
