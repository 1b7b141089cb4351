"""Random cases for compare.py: arguments and files for `mpsim`, `mpedit` and `mpsweep`. A tool, a seed and an index always give the same case.

Most are valid, small, and full of ties: times advance by few ticks, and service times are short. Some contain an error, and some a truncated text.
"""

from __future__ import annotations

from random import Random
from typing import NamedTuple, Optional

LARGEST = 8   # nodes of a model
COLUMNS = ('d', 'e', 'kind', 'time')   # a column may have the name of the second one
SOURCES = ('src', 'phone', 'web_2')
NAMES = ('a', 'b', 'desk', 'expert_1', 'turn', 'mod', 'cut', 'model', 'x9', 'join', 'n' * 32)
KINDS = ('server', 'delay', 'loss', 'tandem', 'forkjoin', 'split')
LATER_KINDS = KINDS + ('fork', 'fork', 'fork', 'join', 'join', 'join', 'trunk', 'trunk')
ODD_WORDS = ('from', 'model', '=1', '=', 'source', '/', '|', '0', '1', '9', '4294967296', '68719476737', 'a.8', 'A', 'x-y', '#', 'turn', 'd')
BLOCKS = (1, 1, 2, 3, 4, 5, 7, 16, 63, 64, 100, 4_096, 65_536)
ODD_COMMANDS = ('', '-', '--', '--help', '--workers', '--jobs', '--made', '--workers=8', '--block', '0', '-1', '65', 'model.txt', '--report')


class Case(NamedTuple):
    """The arguments of a command, and the files that they name, as text with one character per byte. `marks` records what was done to it."""
    tool: str
    words: list[str]
    files: dict[str, str]
    marks: list[str]


def case_of(tool: str, seed: int, index: int) -> Case:
    return {'mpsim': mpsim, 'mpedit': mpedit, 'mpsweep': mpsweep}[tool](Drawing(f'{tool} {seed} {index}'))


class Model(NamedTuple):
    text: str
    sources: list[str]
    columns: list[str]   # those that it names, in this order


class Drawing(Random):
    """Draws random values, and records marks of what was drawn."""

    def __init__(self, seed: str):
        super().__init__(seed)
        self.marks: list[str] = []

    def chance(self, share: float, mark: Optional[str] = None) -> bool:
        """Returns True with this probability."""
        done = self.random() < share
        if done and mark:
            self.marks.append(mark)
        return done

    def some(self, items, least: int, most: int) -> list:
        """Returns this many of the items, in random order."""
        return self.sample(list(items), min(len(items), self.randint(least, most)))


# Models.

class Growing:
    """A model that grows by nodes, each of which reads outputs that no node reads yet."""

    def __init__(self, draw: Drawing, sources: list[str], version: int, columns: list[str]):
        self.draw, self.version, self.columns = draw, version, columns
        self.lines = [f'source {name}' for name in sources]
        self.unread = [(name, name) for name in sources]   # each with the fork, or else the source, that it comes from
        self.names = [name for name in NAMES if draw.chance(0.9)]

    def demand(self) -> str:
        if self.columns and self.draw.chance(0.6):
            return self.draw.choice(self.columns)
        return f'={self.draw.choice((0, 1, 1, 2, 3, 4, 7, 100, 2 ** 36 if self.draw.chance(0.05) else 5))}'

    def add(self, name: str):
        draw = self.draw
        kind = draw.choice(LATER_KINDS if self.version == 2 else KINDS)
        if kind == 'join' and len(self.unread) < 2:
            kind = 'fork'
        outputs = draw.randint(2, 4) if kind in ('fork', 'split') else 2 if kind in ('loss', 'trunk') else 1
        words = getattr(self, kind)(outputs)
        inputs = self.inputs(kind)
        self.lines.append(' '.join([kind, name, *words, 'from', *(self.input(read) for read, _ in inputs)]))
        origin = name if kind == 'fork' else inputs[0][1]
        self.unread.extend((f'{name}.{output}' if output else name, origin) for output in range(outputs))

    def inputs(self, kind: str) -> list[tuple[str, str]]:
        """The inputs of a join come from one fork if possible."""
        draw = self.draw
        among = self.unread
        if kind == 'join':
            kin = [item for item in among if item[1] == draw.choice(among)[1]]
            among = kin if len(kin) > 1 and draw.chance(0.9) else among
        chosen = draw.some(among, 2 if kind == 'join' else 1, draw.choice((2, 2, 2, 3, 8)))
        for item in chosen:
            self.unread.remove(item)
        return chosen

    def input(self, read: str) -> str:
        return read if '.' in read or self.draw.chance(0.9) else f'{read}.0'

    def server(self, _):
        return [self.demand()]

    delay = server

    def loss(self, _):
        return [str(self.draw.choice((1, 1, 2, 3, 1_048_576))), self.demand()]

    def trunk(self, _):
        return [str(self.draw.choice((1, 2, 2, 3, 4, 255))), self.demand()]

    def tandem(self, _):
        words = [self.demand()]
        for _ in range(self.draw.randint(1, 3)):
            words += ['/', str(self.draw.randint(1, 4)), self.demand()]
        return words

    def forkjoin(self, _):
        branches, servers = [], 8
        for left in range(self.draw.choice((2, 2, 2, 3, 4, 8)), 0, -1):
            count = self.draw.randint(1, min(4, servers - left + 1)) if self.draw.chance(0.5) else 1
            servers -= count
            branches.append(' '.join(self.demand() for _ in range(count)))
        return [' | '.join(branches)]

    def split(self, outputs):
        column = self.draw.choice(self.columns or ['d'])
        way = self.draw.choice(('mod', 'turn', 'cut'))
        if way == 'cut':
            return ['cut', column, *map(str, sorted(self.draw.sample(range(0, 8), outputs - 1)))]
        return [str(outputs), way] + [column] * (way == 'mod')

    def fork(self, outputs):
        return [str(outputs)]

    def join(self, _):
        return []


def model_of(draw: Drawing, sources: Optional[list[str]] = None, errors: float = 0.1, nodes: int = 0) -> Model:
    version = 2 if draw.chance(0.7) else 1
    nodes = nodes or (LARGEST if draw.chance(0.4) else draw.randint(1, LARGEST))
    sources = sources or draw.some(SOURCES, 1, 2)
    columns = draw.some(COLUMNS, 0, 4) or ['d']
    growing = Growing(draw, sources, version, columns)
    while len(growing.lines) < nodes and growing.names and growing.unread:
        growing.add(growing.names.pop(draw.randrange(len(growing.names))))
    lines = growing.lines
    if draw.chance(0.5):
        draw.shuffle(lines)
    if draw.chance(0.4):
        bound = draw.choice((draw.randint(0, 60), draw.randint(0, 300), 2 ** 60))
        lines.insert(draw.randint(0, len(lines)), f'bound {bound}')
    named = list(dict.fromkeys(word for line in lines for word in line.partition(' from ')[0].split(' ')[2:] if word in columns))
    lines.insert(0, f'model {version}')
    if draw.chance(0.2):
        lines.insert(draw.randint(0, len(lines)), draw.choice(('# \xff\x00', '#', '', ' \t ', '\t# x')))
    text = ended(draw, [spaced(draw, line) for line in lines])
    if draw.chance(errors, 'an error in a model'):
        text = faulty_model(draw, text)
    return Model(text, sources, named)


def spaced(draw: Drawing, line: str) -> str:
    return line.replace(' ', draw.choice(('\t', '  ', ' \t'))) + draw.choice(('', ' ')) if draw.chance(0.1) else line


def ended(draw: Drawing, lines: list[str]) -> str:
    """Joins the lines with one kind of line end, with or without a byte order mark."""
    end = '\r\n' if draw.chance(0.1) else '\n'
    mark = '\xef\xbb\xbf' if draw.chance(0.05) else ''
    return mark + end.join(lines) + ('' if draw.chance(0.1) else end)


def faulty_model(draw: Drawing, text: str) -> str:
    """Changes, repeats or removes a word or a line, or changes a byte."""
    lines = text.split('\n')
    at = draw.randrange(len(lines))
    words = lines[at].split(' ')
    word = draw.randrange(len(words))
    what = draw.randrange(6)
    if what == 0:
        del lines[at]
    elif what == 1:
        lines.insert(draw.randrange(len(lines)), lines[at])
    elif what == 2:
        byte = draw.randrange(len(text))
        return text[:byte] + draw.choice('\x00\r\x80\xa0 a.=0') + text[byte + draw.randint(0, 1):]
    else:
        words[word:word + (what != 3)] = [draw.choice(ODD_WORDS + tuple(text.split()))] * (what != 5)
        lines[at] = ' '.join(words)
    return '\n'.join(lines)


# Traces.

class Rows(NamedTuple):
    """The records of a trace before they are written: their source, their time, and their values in these columns."""
    sources: list[str]
    columns: list[str]
    records: list[list[str]]


def rows_of(draw: Drawing, sources: list[str], columns: list[str], count: int) -> Rows:
    time = 2 ** 60 - 60 if draw.chance(0.03) else 0
    gaps = draw.choice(((0, 0, 1), (0, 1, 2, 3), (0, 0, 0, 0, 5, 9), (2, 4, 6)))
    records = []
    for _ in range(count):
        time += draw.choice(gaps)
        records.append([draw.choice(sources), number(draw, time), *values_of(draw, columns)])
    if draw.chance(0.3):
        draw.shuffle(records)
    return Rows(sources, columns, records)


def values_of(draw: Drawing, columns: list[str]) -> list[str]:
    small = (0, 0, 1, 1, 2, 3, 5, 8)
    return [number(draw, draw.choice(small) if draw.random() < 0.99 else draw.randrange(2 ** 36 + 1)) for _ in columns]


def number(draw: Drawing, value: int) -> str:
    return f'{value:03}' if draw.random() < 0.01 else str(value)


def trace_of(draw: Drawing, rows: Rows, errors: float = 0.1) -> str:
    """A trace with the columns in random order, and perhaps one that no node reads."""
    order = list(range(2, 2 + len(rows.columns)))
    draw.shuffle(order)
    table = [['source', 'time', *rows.columns], *rows.records]
    table = [record[:2] + [record[place] for place in order] for record in table]
    if draw.chance(0.3):
        place = draw.randint(2, len(table[0]))
        for index, record in enumerate(table):
            record.insert(place, draw.choice(('', 'x', '"a, ""b"""', '"\r\n\n"', 'a"b', '"c"d', '-1')) if index else '"no\nte"')
    if draw.chance(errors, 'an error in a trace'):
        faulty_records(draw, table)
    elif draw.chance(0.2):
        record = draw.choice(table)
        record[:] = [f'"{field}"' if '"' not in field else field for field in record]
    lines = [','.join(record) for record in table]
    if draw.chance(0.1):
        lines.insert(draw.randint(0, len(lines)), draw.choice(('', '\r', '\n')))
    return ended(draw, lines)


def faulty_records(draw: Drawing, table: list[list[str]]):
    """Changes, repeats or removes a field."""
    record = draw.choice(table[:1] + table[1:] * 3)
    field = draw.randrange(len(record))
    odd = ('', 'x', ' 1', '+1', '-1', '1.0', '9' * 20, '0' * 21, str(2 ** 60 + 1), str(2 ** 36 + 1), str(2 ** 36), 'nobody', 'time', '"1', '1"',
           '\xef\xbb\xbfsrc', '1\r', '1\n', '\xb2', '\x00', 'd')
    record[field:field + draw.randint(0, 1)] = [draw.choice(odd)] * draw.choice((0, 1, 1, 1))


# Commands.

def cut(draw: Drawing, share: float, what: str, text: str) -> str:
    """Returns the text or, with this probability, only its beginning, cut at any byte."""
    return text[:draw.randint(0, len(text))] if draw.chance(share, f'a {what} that is cut') else text


def mpsim(draw: Drawing) -> Case:
    model = model_of(draw)
    trace = trace_of(draw, rows_of(draw, model.sources, model.columns, draw.randint(0, 600 if draw.chance(0.07) else 40)))
    files = {'model.txt': cut(draw, 0.05, 'model', model.text), 'trace.csv': cut(draw, 0.08, 'trace', trace)}
    pieces = [['model.txt'], ['trace.csv']]
    for share, piece in ((0.7, ['--workers', str(draw.choice((1, 2, 2, 3, 4, 8, 64)))]), (0.7, ['--block', str(draw.choice(BLOCKS))]),
                         (0.7, ['--jobs']), (0.5, ['--report', str(draw.randint(1, 2))])):
        if draw.chance(share):
            pieces.insert(draw.randint(0, len(pieces)), piece)
    if pieces.index(['model.txt']) > pieces.index(['trace.csv']):
        pieces.reverse()
    return Case('mpsim', faulty_words(draw, sum(pieces, [])), files, draw.marks)


def faulty_words(draw: Drawing, words: list[str]) -> list[str]:
    if draw.chance(0.05, 'an error in the words'):
        at = draw.randint(0, len(words))
        words[at:at + draw.randint(0, 1)] = [draw.choice(ODD_COMMANDS)] * draw.randint(0, 1)
    elif draw.chance(0.01):
        words = ['absent' if word == draw.choice(words) else word for word in words]
    return words


def mpedit(draw: Drawing) -> Case:
    """Some traces have exactly or nearly as many records as one block or two, and small models."""
    large = draw.chance(0.1)
    model = model_of(draw, errors=0.05, nodes=draw.randint(1, 4) if large else 0)
    count = draw.choice((4_095, 4_096, 4_097, 4_097, 5_000, 8_192)) if large else draw.randint(0, 40)
    rows = rows_of(draw, model.sources, model.columns, count)
    files = {'model.txt': cut(draw, 0.04, 'model', model.text), 'trace.csv': cut(draw, 0.04, 'trace', trace_of(draw, rows, 0.05)),
             'edits.txt': cut(draw, 0.1, 'text of edits', edits_of(draw, rows))}
    return Case('mpedit', faulty_words(draw, ['model.txt', 'trace.csv', 'edits.txt']), files, draw.marks)


def edits_of(draw: Drawing, rows: Rows) -> str:
    lines, records = [], list(rows.records)
    for _ in range(draw.choice((0, 1, 1, 1, 2, 3, 8))):
        count = len(records)
        record = [draw.choice(rows.sources), str(draw.randint(0, draw.choice((3 * count + 3, 400)))), *values_of(draw, rows.columns)]
        if count and draw.chance(0.8):
            place = draw.choice([place for place in (0, 4_094, 4_095, 4_096, count - 1) if place < count] + [draw.randrange(count)])
            if draw.chance(0.6):   # the same source, and mostly the same time
                record[:2] = [records[place][0], records[place][1] if draw.chance(0.8) else record[1]]
            records[place] = record
            lines.append(' '.join(['set', str(place + 1), *record]))
        else:
            records.append(record)
            lines.append(' '.join(['add', *record]))
    lines = [spaced(draw, line) for line in lines]
    if draw.chance(0.1):
        lines.insert(draw.randint(0, len(lines)), draw.choice(('', ' ', '\t\r')))
    text = ended(draw, lines)
    return faulty_model(draw, text) if text and draw.chance(0.1, 'an error in edits') else text


def mpsweep(draw: Drawing) -> Case:
    sources = draw.some(SOURCES, 1, 2)
    count = draw.choice((1, 2, 3, 3, 4, 5, 6, 40 if draw.chance(0.1) else 2))
    files = {f'model-{number}.txt': cut(draw, 0.03, 'model', model_of(draw, sources, 0.05).text) for number in range(1, count + 1)}
    words = ['trace.csv', *files]
    trace = trace_of(draw, rows_of(draw, sources, list(COLUMNS), draw.randint(0, 400 if draw.chance(0.05) else 40)), errors=0.05)
    files['trace.csv'] = cut(draw, 0.05, 'trace', trace)
    return Case('mpsweep', faulty_words(draw, words), files, draw.marks)
