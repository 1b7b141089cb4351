#!/usr/bin/env python3
"""A second implementation of mpedit: one run over the rows of a trace, and one from scratch over the edited rows.

It takes the arguments of `mpedit` and gives the same bytes, status and error line. It is written from docs/EDITS.md and docs/ERRORS.md, on top of the
event list in reference.py. The blocks of `again A of B blocks` are counted here as docs/EDITS.md defines them, from the visits of both runs.
"""

from __future__ import annotations

import sys
from typing import Optional

from nodes import Node
from reference import Answer, Look, Network, Reader, main, read_model, report, text_of
from texts import GREATEST_TIME, GREATEST_VALUE, RECORDS, Refused, Row, lines_of, number_of, read_trace, words_of

EDIT_BYTES = 16_777_216
BLOCK = 4_096   # visits
COUNTED = ('source', 'server', 'delay', 'split', 'tandem', 'forkjoin')


def edited(text: str, rows: list[Row], network: Network) -> list[Row]:
    """Applies the edits to the rows of the trace, one after another."""
    if len(text) > EDIT_BYTES:
        raise Refused(10, 'edits: too long')
    rows = list(rows)
    for number, line in enumerate(lines_of(text), 1):
        words = words_of(line)
        if words and not edit(words, rows, network):
            raise Refused(10, f'edits line {number}: not allowed')
    return rows


def edit(words: list[str], rows: list[Row], network: Network) -> bool:
    """Applies an edit if it is valid."""
    front = {'set': 2, 'add': 1}.get(words[0])   # the words before the source
    if front is None or len(words) != front + 2 + len(network.columns):
        return False
    index = len(rows)
    if words[0] == 'set':
        record = number_of(words[1], 1, len(rows))
        if record is None:
            return False
        index = record - 1
    elif len(rows) == RECORDS:
        return False
    source, time, *values = words[front:]
    numbers = [number_of(time, 0, GREATEST_TIME)] + [number_of(value, 0, GREATEST_VALUE) for value in values]
    if source not in network.sources or None in numbers:
        return False
    rows[index:index + 1] = [Row(source, numbers[0], dict(zip(network.columns, numbers[1:])))]
    return True


def again(before: Network, after: Network) -> str:
    """Returns how many blocks the counted nodes have after the edits, and how many of them lie after the first difference."""
    reached = blocks = 0
    for old, new in zip(before.nodes, after.nodes):
        if new.kind in COUNTED:
            count = -(-len(new.visits) // BLOCK)
            blocks += count
            first = first_difference(old, new)
            if first is not None:
                reached += count - first // BLOCK
    return f'again {reached} of {blocks} blocks'


def first_difference(old: Node, new: Node) -> Optional[int]:
    """Returns the first position at which the visits of a node differ, or only one run has a visit."""
    for position in range(max(len(old.visits), len(new.visits))):
        if what_comes(old, position) != what_comes(new, position):
            return position
    return None


def what_comes(node: Node, position: int):
    """Returns, for a visit, its job, its arrival, and what the node reads from its record."""
    if position >= len(node.visits):
        return None
    visit = node.visits[position]
    return visit.job, visit.arrived, [visit.row.values[column] for column in node.columns]


def run(network: Network, rows: list[Row], look: Look, when: str):
    network.run(rows)
    look(network)
    try:
        network.judge()
    except Refused as refusal:
        raise Refused(refusal.status, f'{refusal.line} {when} the edits')


def edit_trace(words: list[str], read: Reader, look: Look = lambda network: None) -> Answer:
    """Returns the answer of `mpedit` to its arguments."""
    try:
        if len(words) != 3 or any(word.startswith('-') for word in words):
            raise Refused(2, 'usage: mpedit MODEL TRACE EDITS')
        model = text_of(words[0], 'file 1', read)
        before, after = read_model(model), read_model(model)
        rows = read_trace(text_of(words[1], 'file 2', read), before.sources, before.columns)
        edited_rows = edited(text_of(words[2], 'file 3', read), rows, before)
        run(before, rows, look, 'before')
        run(after, edited_rows, look, 'after')
    except Refused as refusal:
        return Answer(refusal.status, '', f'mpedit: {refusal.line}\n')
    return Answer(0, ''.join(f'{line}\n' for line in [*report(after, edited_rows), again(before, after)]), '')


if __name__ == '__main__':
    sys.exit(main('mpedit', edit_trace))
