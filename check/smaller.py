"""Makes a case smaller for as long as it still differs: it removes nodes, rows, edits, lines and words, first many at a time and then one by one."""

from __future__ import annotations

import re
from time import monotonic
from typing import Callable, Iterator

from drawn import Case

SECONDS = 40


def smaller(case: Case, differs: Callable[[Case], bool]) -> Case:
    """Returns a differing case from which no single thing can be removed, or what is left after this many seconds."""
    end = monotonic() + SECONDS
    found = True
    while found:
        found = False
        for candidate in candidates(case):
            if monotonic() > end:
                break
            if differs(candidate):
                case, found = candidate, True
                break
    return case


def candidates(case: Case) -> Iterator[Case]:
    """Yields the case with something removed."""
    for count in (8, 4, 2, 1):
        for at in range(len(case.words) - count + 1):
            yield with_words(case, case.words[:at] + case.words[at + count:])
    for name, text in case.files.items():
        lines = re.findall(r'[^\n]*\n|[^\n]+', text)
        for without in without_node(lines):
            yield with_file(case, name, without)
        count = len(lines) // 2
        while count:
            for at in range(0, len(lines), count):
                yield with_file(case, name, lines[:at] + lines[at + count:])
            count //= 2


def with_words(case: Case, words: list[str]) -> Case:
    """Returns the case with these words, and the files that they name."""
    return case._replace(words=words, files={name: text for name, text in case.files.items() if name in words})


def with_file(case: Case, name: str, lines: list[str]) -> Case:
    return case._replace(files={**case.files, name: ''.join(lines)})


def without_node(lines: list[str]) -> Iterator[list[str]]:
    """Returns the lines of a model without one node: its first reader reads its inputs, and nodes left without inputs are removed too."""
    for at, line in enumerate(lines):
        words = line.split()
        if 'from' in words[2:]:
            name, inputs = words[1], words[words.index('from', 2) + 1:]
            yield list(rewired(lines[:at] + lines[at + 1:], name, inputs))


def rewired(lines: list[str], name: str, inputs: list[str]) -> Iterator[str]:
    for line in lines:
        front, between, read = line.partition(' from ')
        kept = []
        for word in read.split():
            if word.partition('.')[0] != name:
                kept.append(word)
            else:
                kept, inputs = kept + inputs, []
        if kept:
            yield f'{front} from {" ".join(kept)}\n'
        elif not between:
            yield line
