"""Reads the columns of a frame through Arrow's C stream (`__arrow_c_stream__`), without Arrow's library."""

from __future__ import annotations

import ctypes
from typing import TYPE_CHECKING

from .columns import Column, lengths, moments

if TYPE_CHECKING:
    from collections.abc import Sequence
    from typing import Any

# The types of numbers: the code of Python's memoryview and the bytes of a value.
NUMBERS = {"c": "b", "C": "B", "s": "h", "S": "H", "i": "i", "I": "I", "l": "q", "L": "Q", "f": "f", "g": "d"}
# Nanoseconds of the units of times, and the codes of their numbers.
UNITS = {"s": 10**9, "m": 10**6, "u": 1000, "n": 1}


class Schema(ctypes.Structure):
    """Arrow's C structure of a type."""


class Array(ctypes.Structure):
    """Arrow's C structure of the values of a type."""


class Stream(ctypes.Structure):
    """Arrow's C structure of a type and arrays of it."""


_Release = ctypes.CFUNCTYPE(None, ctypes.c_void_p)
_Get = ctypes.CFUNCTYPE(ctypes.c_int, ctypes.c_void_p, ctypes.c_void_p)
Schema._fields_ = [
    ("format", ctypes.c_char_p),
    ("name", ctypes.c_char_p),
    ("metadata", ctypes.c_void_p),
    ("flags", ctypes.c_int64),
    ("n_children", ctypes.c_int64),
    ("children", ctypes.POINTER(ctypes.POINTER(Schema))),
    ("dictionary", ctypes.POINTER(Schema)),
    ("release", _Release),
    ("private_data", ctypes.c_void_p),
]
Array._fields_ = [
    ("length", ctypes.c_int64),
    ("null_count", ctypes.c_int64),
    ("offset", ctypes.c_int64),
    ("n_buffers", ctypes.c_int64),
    ("n_children", ctypes.c_int64),
    ("buffers", ctypes.POINTER(ctypes.c_void_p)),
    ("children", ctypes.POINTER(ctypes.POINTER(Array))),
    ("dictionary", ctypes.POINTER(Array)),
    ("release", _Release),
    ("private_data", ctypes.c_void_p),
]
Stream._fields_ = [
    ("get_schema", _Get),
    ("get_next", _Get),
    ("get_last_error", ctypes.CFUNCTYPE(ctypes.c_char_p, ctypes.c_void_p)),
    ("release", _Release),
    ("private_data", ctypes.c_void_p),
]


def numbers_at(pointer: int | None, code: str, begin: int, count: int) -> Sequence[Any]:
    """Returns numbers (list) in memory: `count` of them from number `begin`, of the type of this code of Python's memoryview."""
    size = memoryview(bytes(8)).cast(code).itemsize
    return memoryview(ctypes.string_at((pointer or 0) + begin * size, count * size)).cast(code).tolist() if count else []


def bits_at(pointer: int, begin: int, count: int) -> list[bool]:
    """Returns bits (list of bool) in memory, the lowest of each byte first: `count` of them from bit `begin`."""
    text = ctypes.string_at(pointer, (begin + count + 7) // 8)
    return [bool(text[at >> 3] >> (at & 7) & 1) for at in range(begin, begin + count)]


def of_format(name: str, form: str, values: Sequence[Any]) -> Column:
    """Returns the column for numbers of a type (Arrow's text for it), which may be times. Missing ones are None."""
    if form[:2] == "tD":
        return Column("length", [None if it is None else it * UNITS[form[2]] for it in values])
    if form[:2] == "ts":
        return Column("moment", [None if it is None else it * UNITS[form[2]] for it in values], form[4:] != "")
    return Column("other", list(values))


def columns_of_stream(frame: Any, names: Sequence[str] | None) -> dict[str, Column]:
    """Returns the columns (dict of Column) of an object with `__arrow_c_stream__`; only those of these names, if given. Raises ValueError for one
    whose type is neither a text, a number nor a time."""
    capsule = frame.__arrow_c_stream__()
    pointer = ctypes.pythonapi.PyCapsule_GetPointer
    pointer.restype, pointer.argtypes = ctypes.c_void_p, [ctypes.py_object, ctypes.c_char_p]
    # The capsule releases the stream when it goes.
    address = pointer(capsule, b"arrow_array_stream")
    stream, schema = Stream.from_address(address), Schema()
    _must(stream, address, stream.get_schema(address, ctypes.addressof(schema)))
    try:
        fields = [schema.children[at].contents for at in range(schema.n_children)]
        if schema.format != b"+s":
            raise ValueError("the Arrow stream has no columns")
        wanted = [at for at, field in enumerate(fields) if names is None or field.name.decode() in names]
        parts: dict[int, list[Any]] = {at: [] for at in wanted}
        while True:
            array = Array()
            _must(stream, address, stream.get_next(address, ctypes.addressof(array)))
            if not array.release:
                break
            try:
                for at in wanted:
                    parts[at] += _values(fields[at], array.children[at].contents, array.offset, array.length)
            finally:
                array.release(ctypes.addressof(array))
        return {fields[at].name.decode(): of_format(fields[at].name.decode(), fields[at].format.decode(), parts[at]) for at in wanted}
    finally:
        schema.release(ctypes.addressof(schema))


def _must(stream: Any, address: int, error: int) -> None:
    if error:
        said = stream.get_last_error(address)
        raise ValueError(f"the Arrow stream can't be read: {said.decode(errors='replace') if said else f'error {error}'}")


def _values(field: Any, array: Any, offset: int, count: int) -> list[Any]:
    """Returns `count` values of an array from number `offset`, None for missing ones."""
    begin, form = array.offset + offset, field.format.decode()
    if field.dictionary:
        codes = _plain(field, array, form, begin, count)
        texts = _values(field.dictionary.contents, array.dictionary.contents, 0, array.dictionary.contents.length)
        return [None if code is None else texts[code] for code in codes]
    return _plain(field, array, form, begin, count)


def _plain(field: Any, array: Any, form: str, begin: int, count: int) -> list[Any]:
    if form == "n" or not count:
        return [None] * count
    data = array.buffers[1] if array.n_buffers > 1 else None
    if form in NUMBERS:
        values = list(numbers_at(data, NUMBERS[form], begin, count))
    elif form == "b":
        values = list(map(int, bits_at(data, begin, count)))
    elif form[:2] in ("ts", "tD"):
        values = list(numbers_at(data, "q", begin, count))
    elif form in ("u", "U"):
        ends = numbers_at(data, "i" if form == "u" else "q", begin, count + 1)
        values = [ctypes.string_at(array.buffers[2] + first, last - first).decode() if last > first else "" for first, last in zip(ends, ends[1:])]
    elif form == "vu":
        values = [_viewed(array, data + 16 * at) for at in range(begin, begin + count)]
    else:
        raise ValueError(f"column {field.name.decode()!r} has Arrow's type {form!r}, which is neither a text, a number nor a time")
    if array.null_count and array.buffers[0]:
        return [value if there else None for value, there in zip(values, bits_at(array.buffers[0], begin, count))]
    return values


def _viewed(array: Any, address: int) -> str:
    """Returns the text of a view: up to 12 bytes are in the view itself, others in one of the buffers."""
    (size,) = numbers_at(address, "i", 0, 1)
    if size <= 12:
        return ctypes.string_at(address + 4, size).decode()
    number, begin = numbers_at(address + 8, "i", 0, 2)
    return ctypes.string_at(array.buffers[2 + number] + begin, size).decode()
