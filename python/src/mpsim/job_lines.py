"""Reads many job lines of one node at once with numpy: eight characters are one number, so a few sums join the digits of all lines."""

from __future__ import annotations

from typing import TYPE_CHECKING

from .node_visits import FIELDS

if TYPE_CHECKING:
    from typing import Any

    from .node_visits import NodeVisits

# The bytes of a number, and the greatest length of a name with the words around it.
_WORD, _NAME = 8, 48
# The separators of a line: how many, those before its numbers, and those after them.
_SEPARATORS, _BEFORE, _AFTER = 9, [0, 3, 5, 7], [1, 4, 6, 8]
_ZEROS = int.from_bytes(b"0" * _WORD, "little")
# To join digits to twos, fours and eights: the bits that count, a factor, and by how many bits to shift the product.
_JOINED = (0x0F0F0F0F0F0F0F0F, 2561, 8), (0x00FF00FF00FF00FF, 6553601, 16), (0x0000FFFF0000FFFF, 42949672960001, 32)


def is_read(visits: NodeVisits, lines: bytes, jobs: int, numpy: Any) -> bool:
    """Appends the visits of job lines, which are whole lines, to those of their node. Returns False, with nothing changed, unless all of them are
    lines as reports have them, of visits that departed, with records from 1 to `jobs` and other numbers below 10^16."""
    # A field has characters in front of it, and each place begins a number.
    text = b"".join((b"\n" * 2 * _WORD, lines, b"\n" * _NAME))
    data = numpy.frombuffer(text, "u1")
    numbers = numpy.ndarray((len(text) - _WORD + 1,), "<u8", text, 0, (1,))
    cuts = numpy.flatnonzero(data <= ord(" "))[2 * _WORD : -_NAME]
    if not len(cuts) or len(cuts) % _SEPARATORS:
        return False
    # A row for each separator, with a column for each line.
    cuts = numpy.ascontiguousarray(cuts.reshape(-1, _SEPARATORS).T)
    lasts, name = cuts[-1], visits.node.encode()
    begins = numpy.concatenate(([2 * _WORD], lasts[:-1] + 1))
    words = (begins, b"job "), (cuts[1], b" %s arrive " % name), (cuts[4], b" wait "), (cuts[6], b" depart "), (lasts, b"\n")
    if not all(_is_at(numbers, places, word, numpy) for places, word in words):
        return False
    # All other characters are digits, if these are as many.
    starts, ends = cuts[_BEFORE] + 1, cuts[_AFTER]
    widths = ends - starts
    digits = int(widths.sum()) + len(lasts) * sum(map(name.count, map(str.encode, "0123456789")))
    if widths.min() < 1 or widths.max() > 2 * _WORD or numpy.count_nonzero(data - ord("0") <= 9) != digits:
        return False
    if ((data[starts] == ord("0")) & (widths > 1)).any():
        return False
    found = _values(numbers, ends, widths, numpy)
    if found[0].min() < 1 or found[0].max() > jobs:
        return False
    for field, values in zip(FIELDS, found):
        column = getattr(visits, field)
        column.frombytes(values.astype(column.typecode).tobytes())
    return True


def _is_at(numbers: Any, places: Any, word: bytes, numpy: Any) -> bool:
    """Returns whether a word is at each of these places."""
    for at in range(0, len(word), _WORD):
        part = word[at : at + _WORD]
        found = numbers[places + at] & numpy.uint64((1 << 8 * len(part)) - 1)
        if (found != numpy.uint64(int.from_bytes(part, "little"))).any():
            return False
    return True


def _values(numbers: Any, ends: Any, widths: Any, numpy: Any) -> Any:
    """Returns the values of digits before these places, of at most sixteen."""
    found = _joined(numbers[ends - _WORD], widths.clip(max=_WORD), numpy)
    if widths.max() > _WORD:
        # Of numbers without digits there, the last one counts for nothing.
        high = _joined(numbers[ends - 2 * _WORD], (widths - _WORD).clip(min=1), numpy)
        found += numpy.where(widths > _WORD, high, 0) * 10**_WORD
    return found


def _joined(digits: Any, widths: Any, numpy: Any) -> Any:
    """Returns the values of the last one to eight digits of texts of eight characters."""
    unused = (8 * (_WORD - widths)).astype("u8")
    found = (digits ^ numpy.uint64(_ZEROS)) >> unused << unused
    for bits, factor, shift in _JOINED:
        found &= numpy.uint64(bits)
        found *= numpy.uint64(factor)
        found >>= numpy.uint64(shift)
    return found.astype("i8")
