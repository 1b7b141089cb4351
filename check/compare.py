#!/usr/bin/env python3
"""Runs a program and the reference over the same random cases, and compares output, status and error line byte for byte.

usage: check/compare.py --seed S --count N [--tool mpsim|mpedit|mpsweep] [--program PATH] [--threads N] [--keep FOLDER]

By default the program is the executable that the script of that name at the root runs. A case that differs is made smaller for as long as it still
differs (smaller.py), and kept in a directory: its files, `words`, and the output, line and status of both sides. After three such cases the run
stops. At the end it prints in how many cases each feature occurred; if one of the features expected in 400 cases didn't, that is a failure too. The
status is 0, or 1 after a failure. The cases are drawn by drawn.py.
"""

from __future__ import annotations

import argparse
import difflib
import shlex
import subprocess
import sys
import tempfile
from collections import Counter, deque
from concurrent.futures import ThreadPoolExecutor
from pathlib import Path
from typing import Callable, Iterator, NamedTuple, Optional

from drawn import Case, LARGEST, case_of
from edits import edit_trace
from nodes import KINDS
from reference import Answer, Network, simulate
from smaller import smaller
from sweep import sweep

ROOT = Path(__file__).resolve().parent.parent
REFERENCES: dict[str, Callable] = {'mpsim': simulate, 'mpedit': edit_trace, 'mpsweep': sweep}
SECONDS = 600    # after which a program that hasn't ended counts as differing, also on a busy machine
ENOUGH = 400    # cases, in which each expected feature should occur
MOST = 3        # differing cases, after which the run stops

OF_NETWORKS = [f'a model of {LARGEST} nodes', *(f'visits to a {kind}' for kind in KINDS), 'jobs that come at one time by two ports',
               'a job that comes as another leaves', 'a job that overtakes', 'a lost job', 'a held visit', 'a job that comes twice to a join by one port',
               'a visit past the bound']
OF_TEXTS = ['an error in a model', 'an error in a trace', 'a model that is cut', 'a trace that is cut']
EXPECTED = {
    'mpsim': ['status 0', 'status 2', 'status 3', 'status 4', 'status 5', 'lines of jobs', 'form 1', 'form 2',
              'several workers, and blocks of fewer jobs than there are', *OF_NETWORKS, *OF_TEXTS],
    'mpedit': ['status 0', 'status 2', 'status 3', 'status 4', 'status 5', 'status 10', *OF_NETWORKS, *OF_TEXTS, 'an error in edits',
               'a text of edits that is cut', 'a run that is refused before the edits', 'a run that is refused after the edits',
               'no block again', 'some blocks again and others not'],
    'mpsweep': ['status 0', 'status 2', 'status 11', 'scenarios of status 0', 'scenarios of status 3', 'scenarios of status 4',
                'scenarios of status 5', *OF_NETWORKS, *OF_TEXTS],
}


class Result(NamedTuple):
    """The result of a case: its index, the answers of the reference and of the program, and the features that occurred."""
    index: int
    wanted: Answer
    given: Answer
    occurred: set[str]


class Comparison:
    """A tool and its program."""

    def __init__(self, tool: str, program: Path):
        self.tool, self.program = tool, program

    def result_of(self, seed: int, index: int) -> Result:
        case = case_of(self.tool, seed, index)
        occurred = set(case.marks)
        try:
            wanted = reference_answer(case, lambda network: occurred.update(seen_in(network)))
        except Exception as error:
            raise RuntimeError(f'the reference fails on case {index} of seed {seed}') from error
        occurred.update(seen_of(case, wanted))
        return Result(index, wanted, self.program_answer(case), occurred)

    def program_answer(self, case: Case) -> Answer:
        with tempfile.TemporaryDirectory(prefix='mpsim-case-') as folder:
            write(case, Path(folder))
            try:
                ended = subprocess.run([str(self.program), *case.words], cwd=folder, stdin=subprocess.DEVNULL, stdout=subprocess.PIPE,
                                       stderr=subprocess.PIPE, timeout=SECONDS)
            except subprocess.TimeoutExpired:
                return Answer(-1, '', f'not ended after {SECONDS} seconds\n')
        return Answer(ended.returncode, ended.stdout.decode('latin-1'), ended.stderr.decode('latin-1'))

    def differs(self, case: Case) -> bool:
        return reference_answer(case) != self.program_answer(case)

    def keep(self, case: Case, folder: Path) -> str:
        """Keeps a case with both answers, and prints what differs."""
        folder.mkdir(parents=True, exist_ok=True)
        write(case, folder)
        (folder / 'words').write_text(shlex.join(case.words) + '\n')
        answers = {'reference': reference_answer(case), 'program': self.program_answer(case)}
        for name, answer in answers.items():
            (folder / name).mkdir(exist_ok=True)
            for part, text in answer._asdict().items():
                (folder / name / part).write_bytes(str(text).encode('latin-1'))
        wanted, given = ([*answer.output.splitlines(True), answer.error, f'status {answer.status}\n'] for answer in answers.values())
        lines = list(difflib.unified_diff(wanted, given, 'reference', 'program'))
        return f'{self.tool} {shlex.join(case.words)}\n' + ''.join(lines[:40]) + f'kept in {folder}\n'


def reference_answer(case: Case, look: Callable[[Network], None] = lambda network: None) -> Answer:
    def read(name: str) -> Optional[bytes]:
        return case.files[name].encode('latin-1') if name in case.files else None

    return REFERENCES[case.tool](case.words, read, look)


def write(case: Case, folder: Path):
    for name, text in case.files.items():
        (folder / name).write_bytes(text.encode('latin-1'))


def seen_in(network: Network) -> Iterator[str]:
    """Returns the features that occurred in a network that has run."""
    if len(network.nodes) == LARGEST:
        yield f'a model of {LARGEST} nodes'
    for node in network.nodes:
        if node.visits:
            yield f'visits to a {node.kind}'
        left, last, parts = set(), 0, set()
        for before, visit in zip([None, *node.visits], node.visits):
            if before and before.arrived == visit.arrived and before.port != visit.port:
                yield 'jobs that come at one time by two ports'
            if node.kind == 'join' and (visit.job, visit.port) in parts:
                yield 'a job that comes twice to a join by one port'
            parts.add((visit.job, visit.port))
            if visit.arrived in left:
                yield 'a job that comes as another leaves'
            if visit.lost:
                yield 'a lost job'
            elif visit.departed is None:
                yield 'a held visit'
            else:
                if node.kind != 'join' and visit.departed < last:
                    yield 'a job that overtakes'
                last = max(last, visit.departed)
                left.update([visit.departed] * (visit.departed > visit.arrived))
                if visit.departed > network.bound:
                    yield 'a visit past the bound'


def seen_of(case: Case, answer: Answer) -> Iterator[str]:
    """Returns the features shown by the answer."""
    yield f'status {answer.status}'
    lines = answer.output.splitlines()
    for line in lines:
        words = line.split()
        if words[0] == 'job':
            yield 'lines of jobs'
        elif words[:2] == ['mpsim', 'report']:
            yield f'form {words[2]}'
        elif words[0] == 'jobs' and case.tool == 'mpsim':
            if option_of(case.words, '--workers', 4) > 1 and option_of(case.words, '--block', 4_096) < int(words[1]):
                yield 'several workers, and blocks of fewer jobs than there are'
        elif words[0] == 'scenario':
            yield f'scenarios of status {words[3]}'
        elif words[0] == 'again':
            yield 'no block again' if words[1] == '0' else 'all blocks again' if words[1] == words[3] else 'some blocks again and others not'
    for when in ('before', 'after'):
        if f' {when} the edits' in answer.error:
            yield f'a run that is refused {when} the edits'


def option_of(words: list[str], option: str, otherwise: int) -> int:
    return int(words[words.index(option) + 1]) if option in words else otherwise


def compare(comparison: Comparison, seed: int, count: int, threads: int, folder: Path) -> int:
    """Compares this many cases, prints the features that occurred, and returns the status."""
    occurred: Counter = Counter()
    ran = differing = 0
    with ThreadPoolExecutor(threads) as pool:
        indices = iter(range(count))
        running = deque(pool.submit(comparison.result_of, seed, index) for _, index in zip(range(4 * threads), indices))
        while running and differing < MOST:
            result = running.popleft().result()
            ran += 1
            occurred.update(result.occurred)
            if result.wanted != result.given:
                differing += 1
                case = smaller(case_of(comparison.tool, seed, result.index), comparison.differs)
                print(f'case {result.index} of seed {seed} differs:')
                print(comparison.keep(case, folder / f'{comparison.tool}-{seed}-{result.index}'), flush=True)
            following = next(indices, None)
            if following is not None:
                running.append(pool.submit(comparison.result_of, seed, following))
    return summary(comparison.tool, ran, differing, occurred)


def summary(tool: str, ran: int, differing: int, occurred: Counter) -> int:
    expected = EXPECTED[tool]
    for thing in [*expected, *sorted(set(occurred) - set(expected))]:
        print(f'{occurred[thing]:7} with {thing}')
    missing = [thing for thing in expected if not occurred[thing]] if ran >= ENOUGH else []
    for thing in missing:
        print(f'no case with {thing}')
    print(f'{ran} cases of {tool}, {differing} of them differ')
    return 1 if differing or missing else 0


def main() -> int:
    parser = argparse.ArgumentParser(description='Compares a program with the reference over random cases.', allow_abbrev=False)
    parser.add_argument('--seed', type=int, default=1, help='which cases are drawn')
    parser.add_argument('--count', type=int, default=ENOUGH, help='how many')
    parser.add_argument('--tool', choices=REFERENCES, default='mpsim')
    parser.add_argument('--program', type=Path, help='the executable, where it is another than that of the script at the root')
    parser.add_argument('--threads', type=int, default=4, help='how many cases run at a time')
    parser.add_argument('--keep', type=Path, help='the folder for cases that differ, where it is not one of its own')
    options = parser.parse_args()
    program = (options.program or ROOT / 'crates' / options.tool / 'out' / options.tool).resolve()
    if not program.is_file():
        parser.error(f'{program} is not there: ./build.py {options.tool} builds it')
    folder = options.keep or Path(tempfile.gettempdir()) / f'mpsim-differs-{options.seed}'
    return compare(Comparison(options.tool, program), options.seed, options.count, options.threads, folder)


if __name__ == '__main__':
    sys.exit(main())
