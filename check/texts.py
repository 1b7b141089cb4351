"""The texts that the reference reads: lines, words and numbers of a model, the records of a trace, the arguments of a command.

They follow docs/MODEL.md ("The lines", "The trace"), and errors follow docs/ERRORS.md. A text is a string of characters up to 255, one per byte.
"""

from __future__ import annotations

import csv
import io
import re
from collections import deque
from typing import Callable, NamedTuple, Optional

TRACE_BYTES = 134_217_728
COLUMNS, RECORDS = 16, 1_048_576
GREATEST_TIME, GREATEST_VALUE = 2 ** 60, 2 ** 36   # both in ticks
USAGE = ('usage: mpsim MODEL TRACE [--workers N] [--block N] [--jobs] [--report N]'
         ' or mpsim --made N [--workers N] [--block N] [--jobs] [--report N]')


class Refused(Exception):
    """A rejection: its status, and its error line without the program's name."""

    def __init__(self, status: int, line: str):
        super().__init__(line)
        self.status, self.line = status, line


def lines_of(text: str) -> list[str]:
    """Returns the lines of a model or of edits. Each ends with a line feed, except perhaps the last; a carriage return at a line's end is dropped."""
    lines = without_mark(text).split('\n')
    if lines[-1] == '':
        lines.pop()
    return [line[:-1] if line.endswith('\r') else line for line in lines]


def without_mark(text: str) -> str:
    """Returns the text without one leading byte order mark."""
    return text[3:] if text.startswith('\xef\xbb\xbf') else text


def words_of(line: str) -> list[str]:
    """Splits a line at spaces and tabs."""
    return re.findall(r'[^ \t]+', line)


def number_of(word: str, least: int, most: int) -> Optional[int]:
    """Returns the number with 1 to 20 digits in a word if it is in the range, else None."""
    if not re.fullmatch(r'[0-9]{1,20}', word) or not least <= int(word) <= most:
        return None
    return int(word)


def name_of(word: str) -> Optional[str]:
    """Returns the word if it is a valid name of a node or a column."""
    return word if re.fullmatch(r'[a-z][a-z0-9_]{0,31}', word) and word != 'from' else None


class Row(NamedTuple):
    """A record of the trace: its source, its time, and its values by column, for the columns that the model names."""
    source: str
    time: int
    values: dict[str, int]


class Demand(NamedTuple):
    """The service time of a job: the value of a column of the trace, or a fixed number, in ticks."""
    column: Optional[str]
    ticks: int

    def of(self, row: Row) -> int:
        return self.ticks if self.column is None else row.values[self.column]


def demand_of(word: str) -> Optional[Demand]:
    if word.startswith('='):
        ticks = number_of(word[1:], 0, GREATEST_VALUE)
        return None if ticks is None else Demand(None, ticks)
    return Demand(word, 0) if name_of(word) else None


class Input(NamedTuple):
    """An input of a node: an output of another node."""
    name: str
    output: int


def input_of(word: str) -> Optional[Input]:
    name, dot, output = word.partition('.')
    if not name_of(name) or dot and not re.fullmatch('[0-7]', output):
        return None
    return Input(name, int(output or '0'))


class Line:
    """The words of a line of a model, taken one after another. The first that isn't allowed is an error."""

    def __init__(self, number: int, words: list[str]):
        self.number, self.words, self.taken = number, words, 0

    def refused(self, why: str) -> Refused:
        return Refused(3, f'model line {self.number}: {why}')

    def next_is(self, word: str) -> bool:
        return self.taken < len(self.words) and self.words[self.taken] == word

    def take(self, meaning: Callable):
        """Returns the meaning of the next word."""
        value = meaning(self.words[self.taken]) if self.taken < len(self.words) else None
        if value is None:
            raise self.refused(f'word {self.taken + 1} not allowed')
        self.taken += 1
        return value

    def literal(self, *words: str) -> str:
        return self.take(lambda word: word if word in words else None)

    def number_in(self, least: int, most: int) -> int:
        return self.take(lambda word: number_of(word, least, most))

    def inputs(self, least: int) -> list[Input]:
        """Reads `from`, and then `least` to 8 inputs, to the end of the line."""
        self.literal('from')
        inputs = [self.take(input_of) for _ in range(least)]
        while self.taken < len(self.words) and len(inputs) < 8:
            inputs.append(self.take(input_of))
        return inputs

    def end(self):
        if self.taken < len(self.words):
            raise self.refused(f'word {self.taken + 1} not allowed')


def read_trace(text: str, sources, columns: list[str]) -> list[Row]:
    """Returns the rows of a trace, for a model with these sources that names these columns. The first record is the header; empty lines are
    skipped."""
    if len(text) > TRACE_BYTES:
        raise Refused(4, f'trace: longer than {TRACE_BYTES} bytes')
    csv.field_size_limit(TRACE_BYTES)
    text = without_mark(text).replace('\0', '\u0100')   # before Python 3.11 csv rejects NUL
    records = [record for record in csv.reader(io.StringIO(text, newline='')) if record]
    header = records.pop(0) if records else []
    for field in range(max(len(header), 2)):
        if field < 2:
            allowed = header[field:field + 1] == [('source', 'time')[field]]
        else:
            allowed = header[field] not in header[2:field] and field < 2 + COLUMNS
        if not allowed:
            raise Refused(4, f'trace header: field {field + 1} not allowed')
    for column in columns:
        if column not in header[2:]:
            raise Refused(4, f'trace header: column {column} missing')
    places = {column: header.index(column, 2) for column in columns}
    rows = [row_of(number, record, len(header), sources, places) for number, record in enumerate(records[:RECORDS], 1)]
    if len(records) > RECORDS:
        raise Refused(4, f'trace: more than {RECORDS} records')
    return rows


def row_of(number: int, record: list[str], fields: int, sources, places: dict[str, int]) -> Row:
    def refused(why: str) -> Refused:
        return Refused(4, f'trace record {number}: {why}')

    if len(record) != fields:
        raise refused('wrong number of fields')
    if record[0] not in sources:
        raise refused('unknown source')
    numbers = {1: number_of(record[1], 0, GREATEST_TIME)}
    numbers.update((place, number_of(record[place], 0, GREATEST_VALUE)) for place in places.values())
    for place in sorted(numbers):
        if numbers[place] is None:
            raise refused(f'field {place + 1} is not a number in range')
    return Row(record[0], numbers[1], {column: numbers[place] for column, place in places.items()})


class Settings(NamedTuple):
    """The arguments of `mpsim`: the names of the model and the trace, or the number of a generated input."""
    names: list[str]
    made: Optional[int]
    jobs: bool
    form: int


def settings_of(words: list[str]) -> Settings:
    names, values, jobs = [], {}, False
    rest = deque(words)
    while rest:
        word = rest.popleft()
        if word == '' or word in values or word == '--jobs' and jobs:
            raise Refused(2, USAGE)
        if word == '--jobs':
            jobs = True
        elif word in ('--workers', '--block', '--made', '--report'):
            if not rest or rest[0] == '' or rest[0].startswith('-'):
                raise Refused(2, USAGE)
            values[word] = rest.popleft()
        elif word.startswith('-'):
            raise Refused(2, USAGE)
        else:
            names.append(word)
    if len(names) != (0 if '--made' in values else 2):
        raise Refused(2, USAGE)
    for option, least, most, takes in (('--workers', 1, 64, 'a whole number from 1 to 64'),
                                       ('--block', 1, 65_536, 'a whole number from 1 to 65536'),
                                       ('--made', 0, 2 ** 64 - 1, 'a whole number from 0 to 18446744073709551615'),
                                       ('--report', 1, 2, '1 or 2')):
        if option in values and number_of(values[option], least, most) is None:
            raise Refused(2, f'{option} takes {takes}')
    made = int(values['--made']) if '--made' in values else None
    return Settings(names, made, jobs, int(values.get('--report', '2')))
