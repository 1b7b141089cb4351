"""The numbers that stand for words of an export, kept in a comment of the model so that the next export gets the same ones."""

from __future__ import annotations

import json
import re
from typing import TYPE_CHECKING

from ..times.calendar import with_line

if TYPE_CHECKING:
    from collections.abc import Mapping

# A longer line is omitted: no split uses that many words.
BYTES = 1 << 13
_WORD = r'(?:"(?:[^"\\]|\\.)*")'
_PAIR = rf"(\d{{1,10}}) is ({_WORD})"


def line_of(name: str, codes: Mapping[str, int]) -> str | None:
    """Returns the comment (str) that lists a column's words and their numbers (dict of str to int), or None if it would be too long. `codes_in` reads
    it back.

    >>> from mpsim.exports.codes import line_of
    >>> line_of("kind", {"Störung": 0, "Bestellung": 1})
    '# kind: 0 is "Störung", 1 is "Bestellung"'
    """
    words = {code: word_of(code) for code in codes}
    line = f"# {name}: " + ", ".join(f"{number} is {words[word]}" for word, number in codes.items())
    return line if len(line.encode(errors="surrogateescape")) <= BYTES else None


def word_of(text: str) -> str:
    """Returns a text in quotes for a comment of a model."""
    # Braces would be filled in by a sweep.
    return json.dumps(text, ensure_ascii=False).replace("{", "\\u007b").replace("}", "\\u007d")


def codes_in(text: str) -> dict[str, dict[str, int]]:
    """Returns the number (int) of each word (str) by column (str), from the comments of a model. Several words may share a number. Raises ValueError
    if a word has two.

    >>> from mpsim.exports.codes import codes_in
    >>> codes_in('model 1\\n# kind: 0 is "a", 1 is "b"\\nsource door\\n')
    {'kind': {'a': 0, 'b': 1}}
    """
    found: dict[str, dict[str, int]] = {}
    for line in re.finditer(rf"^# ([a-z][a-z0-9_]*): ({_PAIR}(?:, {_PAIR})*)\r?$", text, re.M):
        codes = found.setdefault(line[1], {})
        for number, word in re.findall(_PAIR, line[2]):
            try:
                word = json.loads(word)
            except ValueError:
                raise ValueError(f"the model's line {line[0].strip()!r}: invalid string {word}") from None
            if codes.setdefault(word, int(number)) != int(number):
                raise ValueError(f"the model gives two numbers for the word {word!r} of {line[1]}")
    return found


def with_codes(text: str, name: str, codes: Mapping[str, int]) -> str:
    """Returns a model's text with the comment on a column's words replaced or added."""
    line = line_of(name, codes)
    return text if line is None else with_line(text, rf"# {name}: {_PAIR}.*", line)
