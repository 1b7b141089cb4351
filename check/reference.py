#!/usr/bin/env python3
"""A second implementation of mpsim as a plain sequential event list, with which the program's answers are compared.

It is written to be read, not as a second engine. It takes the arguments of `mpsim` and gives the same bytes, status and error line, from
docs/MODEL.md, docs/REPORT.md and docs/ERRORS.md alone. A heap holds the events; nodes.py has a class for each kind of node, texts.py reads models,
traces and arguments, and generator.py draws generated inputs. `--workers` and `--block` are checked but change nothing here. It doesn't model lack of
memory or errors of the output.
"""

from __future__ import annotations

import heapq
import os
import re
import sys
from typing import Callable, Iterator, NamedTuple, Optional

from generator import made
from nodes import COMES, DONE, KINDS, Node, VISITS, Visit
from texts import COLUMNS, GREATEST_TIME, Line, Refused, Row, Settings, lines_of, read_trace, settings_of, words_of

MODEL_BYTES, NODES = 65_536, 64


class Network:
    """The nodes of a model by rank and, during a run, the pending events."""

    def __init__(self, version: int, bound: int, declared: list[Node]):
        self.version, self.bound = version, bound
        self.columns = list(dict.fromkeys(column for node in declared for column in node.columns))
        by_name = {node.name: node for node in declared}
        self.readers: dict[tuple[str, int], tuple[Node, int]] = {}   # the reader of each output, and at which input
        for node in declared:
            for port, (name, output) in enumerate(node.inputs):
                if name not in by_name or output >= by_name[name].outputs:
                    raise Refused(3, f'model line {node.line}: input {port} unknown')
                if (name, output) in self.readers:
                    raise Refused(3, f'model line {node.line}: input {port} already read')
                self.readers[name, output] = node, port
        self.sources = {node.name: node for node in declared if node.kind == 'source'}
        if not self.sources:
            raise Refused(3, 'model: no source')
        self.nodes = ranked(declared)

    def run(self, rows: list[Row]):
        """Runs until no event is pending."""
        self.events: list[tuple] = []
        self.span = self.sent = 0
        self.exits: dict[tuple[str, int], list[int]] = {}   # the times in the network of jobs that left it, by output
        for rank, node in enumerate(self.nodes):
            node.start(self, rank)
        for job, row in enumerate(rows, 1):
            self.at(row.time, self.sources[row.source], COMES, 0, job, (job, row))
        while self.events:
            self.span, rank, what, where, _, whom = heapq.heappop(self.events)
            if what == DONE:
                self.nodes[rank].done(where, whom, self.span)
            else:
                self.nodes[rank].come(*whom, where, self.span)

    def judge(self):
        """Refuses the run for the first node with too many visits, else for a visit past the bound, the first by position."""
        for node in self.nodes:
            if len(node.visits) > VISITS:
                raise Refused(9, f'node {node.name} has {len(node.visits)} visits')
            for visit in node.visits:
                if visit.departed is not None and visit.departed > self.bound:
                    raise Refused(5, f'node {node.name} position {visit.position} passes the bound at time {visit.departed}')

    def at(self, time: int, node: Node, what: int, where: int, turn: int, whom):
        """Schedules an event. At equal times the node of lower rank goes first; at a node, departures go before arrivals, departures by server and
        arrivals by input; then by turn, which is the position or the order of sending (docs/MODEL.md, "Who goes first")."""
        heapq.heappush(self.events, (time, node.rank, what, where, turn, whom))

    def go_on(self, node: Node, output: int, visit: Visit, now: int):
        """Sends a job to the node that reads the output, or out of the network."""
        if (node.name, output) in self.readers:
            reader, port = self.readers[node.name, output]
            self.sent += 1
            self.at(now, reader, COMES, port, self.sent, (visit.job, visit.row))
        else:
            self.exits.setdefault((node.name, output), []).append(now - visit.row.time)


def ranked(declared: list[Node]) -> list[Node]:
    """Ranks the nodes: next always comes the first declared node whose inputs are all ranked."""
    order: list[Node] = []
    names: set[str] = set()
    while len(order) < len(declared):
        waiting = [node for node in declared if node.name not in names]
        following = next((node for node in waiting if all(name in names for name, _ in node.inputs)), None)
        if following is None:
            raise Refused(3, f'model line {waiting[0].line}: node on or behind a cycle')
        order.append(following)
        names.add(following.name)
    return order


def read_model(text: str) -> Network:
    """Returns the network that a model declares."""
    if len(text) > MODEL_BYTES:
        raise Refused(3, f'model: longer than {MODEL_BYTES} bytes')
    version, bound, declared, columns = 0, None, [], set()
    lines = lines_of(text)
    for number, words in enumerate(map(words_of, lines), 1):
        line = Line(number, words)
        if not words or words[0].startswith('#'):
            continue
        if re.search(r'[^\t -~]', lines[number - 1]):
            raise line.refused('byte not allowed')
        if not version:
            if words not in (['model', '1'], ['model', '2']):
                raise line.refused('expected model 1 or model 2')
            version = int(words[1])
        elif words[0] == 'bound' and bound is None:
            line.literal('bound')
            bound = line.number_in(0, GREATEST_TIME)
            line.end()
        else:
            kind = line.literal(*(name for name, kind in KINDS.items() if kind.version <= version))
            node = KINDS[kind](line)
            if any(node.name == other.name for other in declared):
                raise line.refused('name declared twice')
            declared.append(node)
            columns.update(node.columns)
            if len(declared) > NODES or len(columns) > COLUMNS:
                raise line.refused('too many nodes or columns')
    if not version:
        raise Refused(3, f'model line {len(lines) + 1}: expected model 1 or model 2')
    return Network(version, GREATEST_TIME if bound is None else bound, declared)


def report(network: Network, rows: list[Row], form: int = 2, jobs: bool = False) -> Iterator[str]:
    """Yields the lines of the report of a network that has run over the rows (docs/REPORT.md)."""
    yield f'mpsim report {form}'
    yield f'jobs {len(rows)} span {network.span}'
    for node in network.nodes:
        yield node_line(node, network, form)
    for node in network.nodes:
        for output in range(node.outputs):
            if (node.name, output) not in network.readers:
                times = network.exits.get((node.name, output), [])
                yield f'exit {node.name}.{output} {len(times)} sojourn {sum(times)}'
    for node in network.nodes if jobs else []:
        for visit in node.visits:
            yield f'job {visit.job} {node.name} arrive {visit.arrived} {fate(node, visit)}'


def fate(node: Node, visit: Visit) -> str:
    if visit.lost:
        return 'lost'
    if visit.departed is None:
        return 'held'
    return f'wait {wait(node, visit)} depart {visit.departed}'


def wait(node: Node, visit: Visit) -> int:
    return visit.departed - visit.arrived - node.bare(visit.row)


def node_line(node: Node, network: Network, form: int) -> str:
    lost = sum(visit.lost for visit in node.visits)
    held = sum(visit.departed is None for visit in node.visits)
    waits = sorted(wait(node, visit) for visit in node.visits if visit.departed is not None and not visit.lost)
    area = sum((network.span if visit.departed is None else visit.departed) - visit.arrived for visit in node.visits)
    words = [f'node {node.name} {node.kind} in {len(node.visits)} out {len(waits)} lost {lost}']
    if form == 2 or network.version == 2:
        words.append(f'held {held}')
    words.append(f'wait {sum(waits)} max {max(waits, default=0)}')
    if form == 2:
        words.extend(f'p{share} {percentile(waits, share)}' for share in (50, 90, 99))
    words.append(f'busy {node.busy} area {area} peak {node.peak} util {utilisation(node, network.span)}')
    return ' '.join(words)


def percentile(waits: list[int], share: int) -> int:
    """Returns the lowest of the sorted waits that at least this many percent don't exceed; 0 if there are none."""
    return waits[(share * len(waits) + 99) // 100 - 1] if waits else 0


def utilisation(node: Node, span: int) -> str:
    """Returns busy time / (servers × span), truncated to four digits."""
    if not node.servers:
        return '-'
    share = 10_000 * node.busy // (node.servers * span) if span else 0
    return f'{share // 10_000}.{share % 10_000:04}'


class Answer(NamedTuple):
    """How a program ends: its status, and what it writes to stdout and stderr."""
    status: int
    output: str
    error: str


Reader = Callable[[str], Optional[bytes]]   # the content of a file, or None if it can't be read


Look = Callable[[Network], None]            # is called with each network after its run, before it is judged


def simulate(words: list[str], read: Reader, look: Look = lambda network: None) -> Answer:
    """Returns the answer of `mpsim` to its arguments."""
    try:
        settings = settings_of(words)
        texts = texts_of(settings, read)
        network = read_model(next(texts))
        rows = read_trace(next(texts), network.sources, network.columns)
        network.run(rows)
        look(network)
        network.judge()
    except Refused as refusal:
        return Answer(refusal.status, '', f'mpsim: {refusal.line}\n')
    return Answer(0, ''.join(f'{line}\n' for line in report(network, rows, settings.form, settings.jobs)), '')


def texts_of(settings: Settings, read: Reader) -> Iterator[str]:
    """Returns the model and then, once the model has been checked, the trace."""
    if settings.made is not None:
        yield from made(settings.made)
    for name, what in zip(settings.names, ('the model', 'the trace')):
        yield text_of(name, what, read)


def text_of(name: str, what: str, read: Reader) -> str:
    content = read(name)
    if content is None:
        raise Refused(6, f'cannot read {what}')
    return content.decode('latin-1')


def read_file(name: str) -> Optional[bytes]:
    try:
        with open(name, 'rb') as file:
            return file.read()
    except OSError:
        return None


def main(program: str, answer_of: Callable[[list[str], Reader], Answer]) -> int:
    """Runs a program of this directory on its arguments, and returns its status."""
    try:
        words = [os.fsencode(word).decode('utf-8') for word in sys.argv[1:]]
    except UnicodeDecodeError:
        answer = Answer(12, '', f'{program}: cannot read the words\n')
    else:
        answer = answer_of(words, read_file)
    sys.stdout.write(answer.output)
    sys.stderr.write(answer.error)
    return answer.status


if __name__ == '__main__':
    sys.exit(main('mpsim', simulate))
