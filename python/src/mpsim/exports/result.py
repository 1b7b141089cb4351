"""A trace made from an export, and the first lines of its model."""

from __future__ import annotations

from array import array
from itertools import chain
from typing import TYPE_CHECKING

from ..times.calendar import first_lines, with_settings, with_working, working_line
from ..wording import table_of
from .codes import line_of, with_codes, word_of

if TYPE_CHECKING:
    from collections.abc import Iterator, Sequence

# The most bytes of a trace.
BYTES = 1 << 27
# Rows are processed in chunks that fit the processor's cache.
CHUNK = 1 << 10


class Prepared:
    """A trace made from an export.

    `header` (list of str) has the column names; `sources` (list of str), `times` (array of int, ticks) and `values` (list of arrays of int) are the
    records in output order; `names` are the sources in the order of the model. `told` and `warned` (lists of str) say what was done, `unlike` (list
    of str) where the first lines of the model differ from those of this trace, and `left` (dict) how many rows were left out, by reason. `tick` (int,
    nanoseconds), `zero` (ISO 8601 text or None), `zone` (str or None) and `working` (text of openings, or None if all hours count) define the ticks;
    `codes` has the number of each word by column (dict of
    dicts), `texts` the text of each source whose name doesn't show it (dict)."""

    codes: dict[str, dict[str, int]]
    sources: list[str]
    told: list[str]
    warned: list[str]
    unlike: list[str]
    left: dict[str, int]
    texts: dict[str, str]
    zero: str | None
    working: str | None
    times: array[int]
    values: list[array[int]]

    def __init__(self, header: list[str], names: list[str], tick: int, zone: str | None) -> None:
        self.header, self.names, self.tick, self.zone, self.codes = header, names, tick, zone, {}
        self.sources, self.times, self.values = [], array("q"), [array("q") for _ in header[2:]]
        self.told, self.warned, self.unlike, self.left, self.texts, self.zero = [], [], [], {}, {}, None
        self.working = None

    def __repr__(self) -> str:
        return f"<Prepared of {len(self)} records, columns {', '.join(self.header)}>"

    def _repr_html_(self) -> str:
        return table_of(self.header, self.rows(), len(self))

    def __len__(self) -> int:
        return len(self.times)

    def rows(self) -> Iterator[tuple[str | int, ...]]:
        """Yields the source, time and values of each record."""
        return zip(self.sources, self.times, *self.values)

    def lines(self) -> Iterator[str]:
        """Yields the text of the trace in pieces."""
        yield (header := ",".join(self.header) + "\n")
        size = len(header)
        form = ",".join(["%s", *["%d"] * (len(self.header) - 1)]) + "\n"
        every: list[Sequence[object]] = [self.sources, self.times, *self.values]
        for at in range(0, len(self), CHUNK):
            numbers = [column[at : at + CHUNK] for column in (self.times, *self.values)]
            text = form * len(numbers[0]) % tuple(chain.from_iterable(zip(self.sources[at : at + CHUNK], *numbers)))
            size += len(text)
            if size > BYTES:
                raise ValueError(f"the trace is longer than {BYTES:,} bytes, the limit of mpsim: shorten the export")
            yield text

    def first_lines(self) -> str:
        """Returns the first lines of a model for this trace. `mpplan days`, `hours` and others take the tick, time 0 and working time from them,
        the next `prepare` the codes."""
        codes = [f"# {name} is {word_of(text)}" for name, text in self.texts.items()] + [line_of(*item) for item in self.codes.items()]
        working = [working_line(self.working)] if self.working else []
        return first_lines(self.tick, self.zero, self.zone, self.header[2:], self.names, [*working, *filter(None, codes)])

    def model(self, text: str) -> str:
        """Returns a model's text with the tick, time 0 and codes of this trace in its first lines."""
        text = with_settings(text, self.tick, self.zero, self.zone)
        text = with_working(text, self.working) if self.working else text
        for name, codes in self.codes.items():
            text = with_codes(text, name, codes)
        return text
