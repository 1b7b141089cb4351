"""Service times that are sums and differences of columns, such as talk=End-Answered+Wrap."""

from __future__ import annotations

import re
from fractions import Fraction
from itertools import product
from typing import TYPE_CHECKING

from ..limits import GREATEST_VALUE
from ..times.texts import Asks, Unread
from .values import REPEATED, TIME

if TYPE_CHECKING:
    from collections.abc import Sequence

    from ..times.lengths import Lengths
    from .records import Times
    from .table import Table

_NAME = re.compile(r"\s*([a-z][a-z0-9_]*)\s*=")
_UNIT = re.compile(r":([\w:@.]+)")
_SIGN = re.compile(r"\s*([+-])\s*|\s*$")


def terms(word: str, export: Table) -> tuple[str, list[tuple[int, int, str | None]]] | None:
    """Returns the name (str) of a text such as `talk=End-Answered+Wrap:min`, and its terms: the sign (1 or -1), the index of the column and the unit
    or None of each. Columns may contain signs: the longest name counts. Returns None if the text isn't of this form."""
    begin = _NAME.match(word)
    if not begin:
        return None
    found, at, sign = [], begin.end(), 1
    names = sorted(filter(None, export.header), key=len, reverse=True)
    while True:
        at += len(word[at:]) - len(word[at:].lstrip())
        name = next((name for name in names if word.startswith(name, at) and _rest(word, at + len(name))), None) or _number(word, at)
        rest = None if name is None else _rest(word, at + len(name))
        if name is None or rest is None:
            return None
        unit, end = rest
        found.append((sign, export.column(name), unit))
        if end[1] is None:
            return begin[1], found
        sign, at = -1 if end[1] == "-" else 1, end.end()


def _number(word: str, at: int) -> str | None:
    found = re.compile(r"#\d+").match(word, at)
    return found[0] if found and _rest(word, found.end()) else None


def _rest(word: str, at: int) -> tuple[str | None, re.Match[str]] | None:
    """Returns the unit that follows a column, and the sign or the end after it (a match); None if something else follows."""
    unit = _UNIT.match(word, at)
    end = _SIGN.match(word, unit.end() if unit else at)
    return (unit[1] if unit else None, end) if end else None


class Expression:
    """A sum of columns with signs: `times` (list of pairs of a sign and Times), of which as many are added as subtracted, and `lengths` (list of
    triples of a sign, the index of a column and its Lengths). Those of the times that could be lengths are also in `unsure`, as such. The result is
    rounded to ticks once."""

    is_service = True

    def __init__(
        self,
        name: str,
        times: list[tuple[int, Times]],
        lengths: list[tuple[int, int, Lengths]],
        tick: int,
        empty: int | None,
        unsure: list[tuple[int, int, Lengths]],
    ) -> None:
        self.name, self.times, self.lengths, self.tick, self.empty, self.unsure = name, times, lengths, tick, empty, unsure
        self.column: int = times[0][1].column if times else lengths[0][1]
        self.rounded = 0

    def of(self, row: Sequence[str], begun: Sequence[int]) -> int:
        """Returns the ticks (int) of a row. `begun` has the moment of the arrival first. Raises Unread and Asks."""
        total, at = Fraction(0), self.column
        found: list[int] = []
        try:
            for _, item in self.times:
                at = item.column
                found.append(item.later(row, begun[0]))
            at = self.column
            between = self._between(begun[0], found) if found else 0
            total += between
            self._note_outside(found)
            for sign, at, how in self.lengths:
                if self.empty is not None and not row[at].strip():
                    total += sign * self.empty * self.tick
                else:
                    total += sign * self._length(row[at], how)
            if self.unsure:
                at = self.unsure[0][1]
                self._judge_unsure(row, total, between)
            at = self.column
            if total < 0:
                raise Unread(f"{self.name} is below 0")
        except (Unread, Asks) as error:
            error.column = at
            raise
        ticks = self._ticks(total)
        if ticks > GREATEST_VALUE:
            raise Unread("above 2^36 ticks")
        self.rounded += total % self.tick > 0
        return ticks

    def _length(self, text: str, how: Lengths) -> Fraction:
        length, tick = how.length(text)
        return Fraction(length * self.tick, tick)

    def _judge_unsure(self, row: Sequence[str], total: Fraction, between: int) -> None:
        """Raises Asks if the times of a row, which add `between` to the total, could be lengths and would give another service then."""
        try:
            given = sum((sign * self._length(row[at], how) for sign, at, how in self.unsure), Fraction(0))
            differs = given != between and total - between + given >= 0
        except Unread:
            differs = False
        except Asks:
            differs = True
        if differs:
            asked = self.unsure[0][2].asked
            raise Asks(f"the columns of {self.name} could have times of day or lengths: give each its unit, such as {asked}:{TIME} or {asked}:s")

    def _note_outside(self, found: Sequence[int]) -> None:
        """Notes moments of a row (list of int) outside of working time."""
        working = self.times[0][1].zone.working if self.times else None
        if working and any(not (working.is_end(moment) if sign > 0 else working.is_open(moment)) for (sign, _), moment in zip(self.times, found)):
            working.outside.add((min(found), max(found)))

    def _between(self, arrival: int, found: Sequence[int]) -> int:
        """Returns the sum of these moments (list of int) with their signs, in the time that counts. In an hour that occurs twice each is the first
        not before the arrival, or the second if the sum is below 0 otherwise. Raises Asks if the sum would be smaller with another arrival or another
        of these hours."""
        total, zone = self._sum(found), self.times[0][1].zone
        if not zone.name or 0 <= total < REPEATED and not zone.working:
            return total
        both = [zone.both(moment) for moment in found]
        sums = {begin: self._sums(begin, both) for begin in zone.both(arrival)}
        chosen = next((value for value in sums[arrival] if value >= 0), total)
        least = min((value for values in sums.values() for value in values if value >= 0), default=chosen)
        if least < chosen and zone.twice in ("first", "second"):
            lengths = f"{self._ticks(Fraction(least))} or {self._ticks(Fraction(chosen))} ticks"
            raise Asks(f"its times span {lengths}, since an hour occurs twice: give --twice order, for rows in order of --time or of the ends")
        return chosen

    def _sums(self, begin: int, both: Sequence[Sequence[int]]) -> list[int]:
        """Returns the sums (list of int) for each choice among moments, none before `begin`, the first moments first."""
        readings = [[moment for moment in moments if moment >= begin] or moments[-1:] for moments in both]
        choices = sorted(product(*readings), key=sum)
        return [self._sum(choice) for choice in choices]

    def _sum(self, moments: Sequence[int]) -> int:
        counted = self.times[0][1].zone.counted
        return sum(sign * counted(moment) for (sign, _), moment in zip(self.times, moments))

    def _ticks(self, length: Fraction) -> int:
        return int((2 * length + self.tick) // (2 * self.tick))

    def many(self, columns: Sequence[Sequence[str]], begun: Sequence[Sequence[int]]) -> list[int]:
        """Raises Unread, since each row needs individual treatment."""
        raise Unread("one by one")
