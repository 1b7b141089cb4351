"""Conditions on the rows of an export, such as Direction=inbound or Talk>0."""

from __future__ import annotations

import operator
import re
from fractions import Fraction
from typing import TYPE_CHECKING

from ..times.lengths import Lengths
from ..times.texts import Cache, Unread
from ..wording import listed

if TYPE_CHECKING:
    from collections.abc import Callable, Sequence

    from .table import Table

_ORDERS = {"<=": operator.le, ">=": operator.ge, "<": operator.lt, ">": operator.gt}


class Condition:
    """A condition on the column of this index. The signs are = and != (the text of the field), ~ (it contains a text, in capitals or not) and <, <=,
    > and >= (a number, or h:mm:ss, as these Lengths read it). An empty field is neither smaller nor greater."""

    SIGNS = "!=", *_ORDERS, "=", "~"

    def __init__(self, column: int, sign: str, value: str, how: Lengths) -> None:
        self.column, self.sign, self.value, self._read = column, sign, value.strip(), how
        if sign in _ORDERS:
            self._bound = self._number(self.value)
        self._met = Cache(self._judge)

    def holds(self, row: Sequence[str]) -> bool:
        """Returns whether a row meets the condition. Raises Unread or Asks if its field isn't a number but is to be compared."""
        return self._met[row[self.column]]

    def is_met(self, row: Sequence[str]) -> bool:
        """Returns whether a row meets the condition; False if that can't be told."""
        try:
            return self.holds(row)
        except ValueError:
            return False

    def _judge(self, text: str) -> bool:
        text = text.strip()
        if self.sign == "~":
            return self.value.casefold() in text.casefold()
        if self.sign not in _ORDERS:
            return (text == self.value) == (self.sign == "=")
        return bool(text) and _ORDERS[self.sign](self._number(text), self._bound)

    def _number(self, text: str) -> Fraction:
        if not text:
            raise ValueError("expected a number")
        return Fraction(*self._read.length(text))


def parsed(word: str, export: Table, mark: Callable[[int], str | None], option: str = "--where") -> Condition:
    """Returns the Condition that a text such as `Direction=inbound`, the value of an option, gives for an Export; `mark` returns the decimal mark of
    the numbers of a column. Raises ValueError."""
    numbers = re.findall(r"^#[1-9]\d{0,4}", word)
    for name in [*sorted(filter(None, export.header), key=len, reverse=True), *numbers]:
        found = re.match(rf"(?::([\w:@.]+))?\s*({'|'.join(map(re.escape, Condition.SIGNS))})", word[len(name) :])
        if word.startswith(name) and found and (found[1] is None or found[2] in _ORDERS):
            column = export.column(name)
            try:
                unit, sign, is_order = found[1] or "s", found[2], found[2] in _ORDERS
                how = Lengths(unit, mark(column) if is_order else None, 1, f"{option} {name}")
                return Condition(column, sign, word[len(name) + found.end() :], how)
            except (Unread, ValueError) as error:
                raise ValueError(f"{option} {word}: {error}") from None
    signs = ", ".join(Condition.SIGNS)
    raise ValueError(f"{option} {word}: expected COLUMN, one of {signs}, and a value; the columns are {listed(export.header)}")
