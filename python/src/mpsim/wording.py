"""Words of messages: counts with their nouns, and names and texts in quotes."""

from __future__ import annotations

import html
import itertools
from typing import TYPE_CHECKING

if TYPE_CHECKING:
    from collections.abc import Iterable, Sequence

# The most characters of a field in a message.
SHOWN = 300


def quoted(text: str) -> str:
    """Returns a text of an export for a message, in quotes; of a long one, the beginning."""
    return repr(text) if len(text) <= SHOWN else f"{text[:SHOWN]!r}.."


def listed(texts: Sequence[str]) -> str:
    """Returns the names of columns for a message, quoted; of many or long ones, the first."""
    text = ", ".join(map(quoted, texts[:40])) + (", .." if texts[40:] else "")
    return text if len(text) <= 5 * SHOWN else f"{text[: 5 * SHOWN]}.."


def table_of(header: Sequence[str], rows: Iterable[Sequence[object]], count: int, most: int = 10) -> str:
    """Returns an HTML table (str) of the first rows of `count`, for a notebook. A float gets four digits; None is a dash."""
    shown = [[_cell(value) for value in row] for row in itertools.islice(rows, most)]
    head = "".join(f"<th>{html.escape(name)}</th>" for name in header)
    body = "".join(f"<tr>{''.join(f'<td>{value}</td>' for value in row)}</tr>" for row in shown)
    caption = counted(count, "row") + (f", the first {most}" if count > most else "")
    return f"<table><caption>{caption}</caption><thead><tr>{head}</tr></thead><tbody>{body}</tbody></table>"


def _cell(value: object) -> str:
    return "–" if value is None else f"{value:,.4f}".rstrip("0").rstrip(".") if isinstance(value, float) else html.escape(str(value))


def counted(count: int, word: str) -> str:
    """Returns a count with its noun, such as "1 row" or "2,000 rows".

    >>> counted(1, "row"), counted(2000, "row")
    ('1 row', '2,000 rows')
    """
    return f"{count:,} {word}{'' if count == 1 else 's'}"
