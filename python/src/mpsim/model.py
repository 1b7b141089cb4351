"""The texts of models: texts that differ in values, and the nodes and columns in a text. The programs check models."""

from __future__ import annotations

import itertools
import re
from typing import TYPE_CHECKING, NamedTuple, Tuple

if TYPE_CHECKING:
    from collections.abc import Hashable, Iterable, Mapping, Sequence


def variants(text: str, **values: Iterable[Hashable]) -> dict[Hashable, str]:
    """Returns models that differ in values: a dict of texts (str), one per combination, in which `{name}` is replaced as by `str.format`. The keys
    are the values, or tuples of them if there are several names. Raises KeyError for a name without values.

    >>> import mpsim
    >>> models = mpsim.variants("model 2\\nsource calls\\ntrunk lines {lines} hold from calls\\n", lines=range(20, 23))
    >>> list(models), models[21].splitlines()[-1]
    ([20, 21, 22], 'trunk lines 21 hold from calls')
    """
    found: dict[Hashable, str] = {}
    for combination in itertools.product(*values.values()):
        key = combination[0] if len(combination) == 1 else combination
        found[key] = text.format(**dict(zip(values, combination)))
    return found


# Which of the words between a node's name and its inputs may be columns. Numbers and signs aren't, since a column begins with a letter.
_COLUMNS = {
    "server": slice(0, None),
    "delay": slice(0, None),
    "loss": slice(1, None),
    "tandem": slice(0, None),
    "forkjoin": slice(0, None),
    "trunk": slice(1, None),
}


def columns(text: str) -> list[str]:
    """Returns the columns that a model names (list of str), in the order in which it first names them. Values of a record in an edit, and of a row
    without a header, have the same order.

    >>> from mpsim.model import columns
    >>> columns("model 1\\nsource door\\nserver desk talk from door\\ndelay walk =60 from desk\\nserver till pay from walk\\n")
    ['talk', 'pay']
    """
    found: dict[str, None] = {}
    for line in text.split("\n"):
        words = line.split()
        arguments = words[2 : words.index("from") if "from" in words else len(words)]
        if words[:1] == ["split"]:
            arguments = arguments[1:2] if arguments[:1] == ["cut"] else arguments[2:]
        else:
            arguments = arguments[_COLUMNS.get(words[0] if words else "", slice(0, 0))]
        found.update({argument: None for argument in arguments if argument[0].isalpha()})
    return list(found)


class ModelNode(NamedTuple):
    """A node in a model's text: its name and kind (str), the words between its name and its inputs (str), its number of outputs (int), and its
    inputs, each the name of a node and the number of an output (tuples of str and int)."""

    name: str
    kind: str
    arguments: str
    outputs: int
    inputs: Tuple[Tuple[str, int], ...]


def nodes_of(text: str) -> list[ModelNode]:
    """Returns the nodes of a model that mpsim accepts (list of ModelNode), in the order of its lines. For another text the result is undefined, or it
    raises ValueError.

    >>> from mpsim.model import nodes_of
    >>> nodes_of("model 1\\nsource door\\nserver desk talk from door\\n")[1]
    ModelNode(name='desk', kind='server', arguments='talk', outputs=1, inputs=(('door', 0),))
    """
    nodes = []
    for line in text.split("\n"):
        words = line.split()
        if not words or words[0].startswith("#") or words[0] in ("model", "bound"):
            continue
        if len(words) == 1:
            raise ValueError(f"{line.strip()!r} is not a line of a model")
        begin = words.index("from") if "from" in words else len(words)
        kind, arguments = words[0], words[2:begin]
        inputs = [word.partition(".") for word in words[begin + 1 :]]
        read = tuple((name, int(number or 0)) for name, _, number in inputs)
        nodes.append(ModelNode(words[1], kind, " ".join(arguments), _outputs(kind, arguments), read))
    return nodes


def _outputs(kind: str, arguments: Sequence[str]) -> int:
    if kind in ("loss", "trunk"):
        return 2
    if kind in ("fork", "split") and arguments:
        # A number that mpsim rejects must not take memory here.
        count = int(arguments[0]) if re.fullmatch(r"\d{1,3}", arguments[0], re.ASCII) else 1
        return len(arguments) - 1 if arguments[0] == "cut" else count
    return 1


def sources(text: str) -> list[str]:
    """Returns the sources that a model declares (list of str), in the order of their lines, which decides between records at equal times.

    >>> sources("model 1\\nsource phone\\nserver desk talk from phone web\\nsource web\\n")
    ['phone', 'web']
    """
    return [words[1] for words in map(str.split, text.split("\n")) if words[:1] == ["source"] and len(words) > 1]


def with_node(text: str, name: str, lines: Sequence[str], version: int = 1) -> str:
    """Returns a model's text (str), without empty lines, in which these lines (list of str) replace that of a node, and whose version is at least
    this one (int).

    >>> from mpsim.model import with_node
    >>> with_node("model 1\\nsource door\\nserver desk =4 from door\\n", "desk", ["trunk desk 2 =4 from door"], 2)
    'model 2\\nsource door\\ntrunk desk 2 =4 from door\\n'
    """
    found: list[str] = []
    is_begun = False
    for line in text.split("\n"):
        words = line.split()
        if not is_begun and words[:1] == ["model"]:
            is_begun, line = True, f"model {max(int(words[1]), version)}"
        is_node = words[1:2] == [name] and not words[0].startswith("#")
        found += lines if is_node else [line] * bool(line)
    return "".join(f"{line}\n" for line in found)


def lines_of(text: str) -> list[str]:
    """Returns the lines (list of str) of a model that aren't comments."""
    return [part for part in text.removeprefix("\ufeff").split("\n") if not part.lstrip(" \t").startswith("#")]


def in_braces(text: str) -> re.Match[str] | None:
    """Returns the first name in braces (a match, with the name as its group) in a model, such as `{agents}` or `{agents:d}`, which sweeps fill in; or
    None.

    >>> in_braces("model 2\\nsource calls\\ntrunk lines {agents} talk from calls\\n")[1]
    'agents'
    """
    return re.search(r"\{([A-Za-z_]\w*)[^{}]*\}", "\n".join(lines_of(text)), re.ASCII)


def servers_of(node: ModelNode) -> int:
    """Returns the number of servers (int) by which a report divides the utilisation of a node (ModelNode); 0 for a node without servers.

    >>> from mpsim.model import nodes_of, servers_of
    >>> [servers_of(node) for node in nodes_of("source a\\ntandem b d / 2 d from a\\nforkjoin c d d | e from b\\ntrunk e 9 d from c\\n")]
    [0, 2, 3, 9]
    """
    arguments = node.arguments.split()
    if node.kind == "tandem":
        return arguments.count("/") + 1
    if node.kind == "forkjoin":
        return len(arguments) - arguments.count("|")
    return int(arguments[0]) if node.kind == "trunk" else int(node.kind in ("server", "loss"))


def without_bound(text: str) -> str:
    """Returns a model without its bound, whose line becomes a comment.

    >>> without_bound("model 1\\nbound 9\\nsource door\\n")
    'model 1\\n#bound 9\\nsource door\\n'
    """
    return re.sub(r"^([ \t]*)(bound[ \t])", r"\1#\2", text, flags=re.MULTILINE)


def turned(text: str, places: Mapping[str, int]) -> str:
    """Returns a model whose splits by turns begin at these outputs (dict of int by their names) instead of at output 0: the nodes that read their
    outputs read others. Jobs that leave the network by output K of the model leave by output K minus the place, modulo the number of outputs.

    >>> print(turned("model 1\\nsource door\\nsplit turns 2 turn from door\\nserver ann =4 from turns\\n", {"turns": 1}), end="")
    model 1
    source door
    split turns 2 turn from door
    server ann =4 from turns.1
    """
    outputs = {node.name: node.outputs for node in nodes_of(text) if places.get(node.name)}
    lines = text.split("\n")
    for number, words in enumerate(map(str.split, lines)):
        if outputs and "from" in words and not words[0].startswith("#"):
            begin = words.index("from") + 1
            for at, (name, _, output) in enumerate([word.partition(".") for word in words[begin:]], begin):
                if name in outputs:
                    words[at] = f"{name}.{(int(output or 0) - places[name]) % outputs[name]}"
            lines[number] = " ".join(words)
    return "\n".join(lines)
