"""The generated inputs of `mpsim --made N`: the model and the trace for a number (docs/DEFINITIONS.md, "Made inputs")."""

from __future__ import annotations

KINDS = ('server', 'delay', 'loss', 'tandem', 'forkjoin', 'split')


class Pcg32:
    """The generator PCG32 (XSH RR, O'Neill 2014), with a state and a stream."""

    def __init__(self, state: int, stream: int):
        self.increment = 2 * stream + 1
        self.state = (state + self.increment) % 2 ** 64
        self.step()

    def step(self):
        self.state = (self.state * 6_364_136_223_846_793_005 + self.increment) % 2 ** 64

    def below(self, count: int) -> int:
        """Returns the next 32-bit number modulo `count`."""
        state = self.state
        self.step()
        shifted, turn = (state >> 18 ^ state) >> 27 & 0xffff_ffff, state >> 59
        return (shifted >> turn | shifted << (32 - turn) & 0xffff_ffff) % count


def made(number: int) -> tuple[str, str]:
    """Draws the model and the trace, in the order in which they are written."""
    draws = Pcg32(number, 1)
    return model_of(draws), trace_of(draws)


def model_of(draws: Pcg32) -> str:
    lines = ['model 1', f'bound {2 ** 60}', 'source s0', 'source s1']
    inputs = 's0 s1'
    for node in range(1 + draws.below(12)):
        kind = KINDS[draws.below(6)]
        words = f'{kind} n{node} '
        if kind == 'loss':
            words += f'{1 + draws.below(4)} a'
        elif kind == 'tandem':
            words += f'a / {1 + draws.below(4)} b'
        else:
            words += {'server': 'a', 'delay': 'b', 'forkjoin': 'a | b b', 'split': '2 turn'}[kind]
        lines.append(f'{words} from {inputs}')
        inputs = f'n{node} n{node}.1' if kind in ('loss', 'split') else f'n{node}'
    return '\n'.join(lines) + '\n'


def trace_of(draws: Pcg32) -> str:
    lines, time = ['source,time,a,b'], 0
    for _ in range(20_000 + draws.below(20_001)):
        time += draws.below(12)
        lines.append(f's{draws.below(2)},{time},{draws.below(10)},{draws.below(6)}')
    return '\n'.join(lines) + '\n'
