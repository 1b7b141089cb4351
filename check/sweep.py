#!/usr/bin/env python3
"""A second implementation of mpsweep: the single runs of reference.py, one after another.

It takes the arguments of `mpsweep` and gives the same bytes, status and error line, written from docs/SWEEPS.md and docs/ERRORS.md.
"""

from __future__ import annotations

import sys

from reference import Answer, Look, MODEL_BYTES, Reader, main, simulate
from texts import Refused, TRACE_BYTES


def contents_of(words: list[str], read: Reader) -> list[bytes]:
    """Returns the trace and the models, which are all read before the first run."""
    if not 2 <= len(words) <= 65 or any(word.startswith('-') for word in words):
        raise Refused(2, 'usage: mpsweep TRACE MODEL..')
    contents = []
    for number, word in enumerate(words, 1):
        content = read(word)
        if content is None:
            raise Refused(6, f'cannot read file {number}')
        if len(content) > (TRACE_BYTES if number == 1 else MODEL_BYTES):
            raise Refused(3, f'file {number} is too long')
        contents.append(content)
    return contents


def sweep(words: list[str], read: Reader, look: Look = lambda network: None) -> Answer:
    """Returns the answer of `mpsweep` to its arguments."""
    try:
        trace, *models = contents_of(words, read)
    except Refused as refusal:
        return Answer(refusal.status, '', f'mpsweep: {refusal.line}\n')
    output, status = '', 0
    for number, model in enumerate(models, 1):
        answer = simulate(['model', 'trace'], {'model': model, 'trace': trace}.get, look)
        output += f'scenario {number} status {answer.status}\n{answer.output}{answer.error}'
        if answer.status != 0:
            status = 11
    return Answer(status, output, '')


if __name__ == '__main__':
    sys.exit(main('mpsweep', sweep))
