"""Makes names that models allow from the texts of an export: a lower-case letter, then lower-case letters, digits and underscores, at most 32."""

from __future__ import annotations

import re
import unicodedata
from typing import TYPE_CHECKING

if TYPE_CHECKING:
    from collections.abc import Collection

# Letters that Unicode doesn't decompose into a letter and a mark.
_LETTERS = {"ß": "ss", "æ": "ae", "œ": "oe", "ø": "o", "ł": "l", "đ": "d", "ð": "d", "þ": "th", "ı": "i", "&": " and ", "%": " percent "}
_LETTERS |= dict(zip("абвгдезийклмнопрстуфыэіїєґўј", "a b v g d e z i y k l m n o p r s t u f y e i yi ye g u j".split()))
_LETTERS |= {"ё": "yo", "ж": "zh", "х": "kh", "ц": "ts", "ч": "ch", "ш": "sh", "щ": "shch", "ъ": "", "ь": "", "ю": "yu", "я": "ya", "ђ": "dj"}
_LETTERS |= {"љ": "lj", "њ": "nj", "ћ": "c", "џ": "dz"}
_LETTERS |= dict(zip("αβγδεζηθικλμνξοπρσςτυφχψω", "a v g d e z i th i k l m n x o p r s s t y f ch ps o".split()))
# The trace's own columns, and a keyword of models.
TAKEN = "from", "source", "time"
# What a text without letters that can be written in Latin ones is called, with a number.
OTHER = "name"


def is_name(text: str) -> bool:
    """Returns whether a text may name a source or a column.

    >>> is_name("desk_2"), is_name("Desk"), is_name("time")
    (True, False, False)
    """
    return bool(re.fullmatch(r"[a-z][a-z0-9_]{0,31}", text)) and text not in TAKEN


def name_for(text: str, taken: Collection[str] = (), numbers: dict[str, int] | None = None) -> str:
    """Returns a name that resembles a text and isn't among those taken. `numbers` (dict) remembers, between calls, the last number of each name.

    >>> name_for("Verkauf & Büro"), name_for("24h"), name_for("Büro", ["buro"]), name_for("Продажи"), name_for("客服")
    ('verkauf_and_buro', 'x_24h', 'buro_2', 'prodazhi', 'name_1')
    """
    letters = "".join(map(_letter, unicodedata.normalize("NFC", text[:200].lower())))
    plain = unicodedata.normalize("NFKD", letters).encode("ascii", "ignore").decode().lower()
    name = re.sub(r"[^a-z0-9]+", "_", plain).strip("_")
    if not name:
        return _numbered(OTHER, 1, taken, numbers)
    if not name[0].isalpha() or name in TAKEN:
        name = "x_" + name
    name = base = name[:32].rstrip("_")
    return _numbered(base, 2, taken, numbers) if name in taken else name


def _letter(item: str) -> str:
    """Returns a letter in Latin ones, without the accent of a Greek or Cyrillic one; others as they are."""
    return _LETTERS.get(item, _LETTERS.get(unicodedata.normalize("NFD", item)[0], item))


def _numbered(base: str, first: int, taken: Collection[str], numbers: dict[str, int] | None) -> str:
    """Returns the first name with a number, from `first`, that isn't taken."""
    numbers = {} if numbers is None else numbers
    number = numbers.get(base, first - 1)
    while True:
        number += 1
        name = f"{base[: 31 - len(str(number))]}_{number}"
        if name not in taken:
            numbers[base] = number
            return name


def is_like(text: str, name: str) -> bool:
    """Returns whether a name shows its text."""
    return not name.startswith(f"{OTHER}_") or not name_for(text).startswith(f"{OTHER}_")
