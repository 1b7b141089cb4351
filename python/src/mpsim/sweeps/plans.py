"""Plans sweeps of any size: models in which names stand for values, traces, and their division into shards."""

from __future__ import annotations

import glob
import hashlib
import json
import os
import re
from typing import TYPE_CHECKING, Optional, TypedDict

from ..agents.pools import agent_name, queue_name
from ..limits import MODELS
from ..model import in_braces, lines_of
from ..parallel import models_per_call
from ..tables.nodes import heads

if TYPE_CHECKING:
    from collections.abc import Collection, Iterable, Iterator, Mapping, Sequence
    from typing import Dict, List, Union

    from ..shapes import Path

    Sets = Dict[str, Union[List[int], List[str]]]

# The columns of the table, except those of the values.
COLUMNS = "trace", "model", "status", "span", "refusal", *heads()
# The most values of a name.
VALUES = 1 << 20


class TraceFile(TypedDict):
    """A trace of a sweep: its label and path, and the checksum of its file, None if it isn't known."""

    label: str
    path: str
    sum: Optional[str]


def values_of(word: str) -> tuple[str, list[int] | list[str]]:
    """Returns the name (str) and the values (list of int or of str) in `agents=20..40`, `agents=20..40..5` or `agents=1,2,5`.

    >>> values_of("agents=20..40..5"), values_of("rule=turn,3")
    (('agents', [20, 25, 30, 35, 40]), ('rule', ['turn', '3']))
    """
    found = re.fullmatch(r"([A-Za-z_]\w*)=(?:(\d+)\.\.(\d+)(?:\.\.([1-9]\d*))?|((?!\S*\.\.)[^,\s]+(?:,[^,\s]+)*))", word, re.ASCII)
    if not found:
        raise ValueError(f"--set {word}: expected NAME=FROM..TO, NAME=FROM..TO..STEP or NAME=VALUE,VALUE")
    name, begin, end, step, listed = found.groups()
    numbers = range(int(begin), int(end) + 1, int(step or 1)) if begin else range(0)
    if numbers and (numbers[-1] - numbers[0]) // numbers.step >= VALUES:
        raise ValueError(f"--set {word}: more than {VALUES:,} values")
    values = list(numbers) if begin else listed.split(",")
    if not values:
        raise ValueError(f"--set {word}: the range {begin}..{end} is empty")
    if name in COLUMNS:
        raise ValueError(f"--set {word}: {name} is already a column of the table")
    return name, values


def _filled(text: str, values: Mapping[str, int | str]) -> str:
    """Returns a model's text with the names in braces replaced; in comments only those that have a value."""
    lines = text.split("\n")
    for at, line in enumerate(lines):
        if line.lstrip(" \t").startswith("#"):
            lines[at] = re.sub(r"\{(\w+)\}", lambda found: str(values.get(str(found[1]), found[0])), line)
        else:
            lines[at] = line.format(**values)
    return "\n".join(lines)


def sets_of(words: Iterable[str]) -> Sets:
    """Returns the values by name, from several such texts. Raises ValueError if a name is given twice."""
    pairs = [values_of(word) for word in words]
    for name, _ in pairs:
        if [it for it, _ in pairs].count(name) > 1:
            raise ValueError(f"--set {name} is given twice")
    return dict(pairs)


def files_of(words: Iterable[str]) -> list[str]:
    """Returns the files for paths and patterns such as variants/*.txt. Raises ValueError if one matches nothing."""
    found = []
    for word in words:
        paths = [word] if os.path.exists(word) else sorted(glob.glob(word))
        if not paths:
            raise ValueError(f"{word}: no such file")
        found += paths
    return found


def labels_of(paths: Sequence[str]) -> list[str]:
    """Returns the labels of files in the table: their names without the extension, or their paths if two names are the same."""
    names = [os.path.splitext(os.path.basename(path))[0] for path in paths]
    return names if len(set(names)) == len(names) else list(paths)


def sum_of(path: Path) -> str:
    """Returns the SHA-256 checksum of a file as text."""
    made = hashlib.sha256()
    with open(path, "rb") as file:
        while piece := file.read(1 << 20):
            made.update(piece)
    return made.hexdigest()


class Plan:
    """All scenarios of a sweep, without listing them.

    `models` are pairs of a label and a text, `sets` a dict of values by name, `traces` dicts with a label, a path, and the file's checksum or None;
    `nodes` are the nodes that get rows, empty for all. Scenarios are counted by trace, then by model, then by values, the last name varying fastest.
    Shards of up to 64 scenarios are counted from 1, and each has one trace."""

    def __init__(self, models: Sequence[tuple[str, str]], sets: Sets, traces: list[TraceFile], nodes: Iterable[str] = ()) -> None:
        self.models, self.sets, self.traces, self.nodes = models, sets, traces, list(nodes)
        self.combinations = 1
        for values in sets.values():
            self.combinations *= len(values)
        self.each = len(models) * self.combinations
        self.a_trace = -(-self.each // MODELS)

    @classmethod
    def of(cls, models: Sequence[str], sets: Sets, traces: Sequence[str], nodes: Collection[str] = ()) -> Plan:
        """Returns the plan for files (paths), values and names of nodes. Raises ValueError for a name without values, values without a name, and a
        model that lacks one of the nodes."""
        if not models or not traces:
            raise ValueError("a sweep needs a model and a trace")
        texts = [_text_of(model) for model in models]
        for name in sets:
            if not any(re.search(rf"\{{{name}\b", text) for text in texts):
                raise ValueError(f"--set {name}: no model contains {{{name}}}")
        for label, text in zip(labels_of(models), texts if not sets else ()):
            if found := in_braces(text):
                raise ValueError(f"model {label}: {found[0]} has no value: give --set {found[1]}=FROM..TO or --set {found[1]}=VALUE,VALUE")
        named: list[TraceFile] = [{"label": label, "path": path, "sum": None} for label, path in zip(labels_of(traces), traces)]
        plan = cls(list(zip(labels_of(models), texts)), sets, named, nodes)
        for at in range(len(models)):
            plan.model(at * plan.combinations)
        plan.judge_nodes(nodes)
        return plan

    @property
    def scenarios(self) -> int:
        """The number of scenarios (int)."""
        return self.each * len(self.traces)

    @property
    def shards(self) -> int:
        """The number of shards (int)."""
        return self.a_trace * len(self.traces)

    def model(self, at: int) -> tuple[str, dict[str, int | str], str]:
        """Returns the label, the values (dict) and the text of a model, counted from 0. Raises ValueError if a name in it has no value."""
        which, left = divmod(at, self.combinations)
        label, text = self.models[which]
        values = {}
        for name, listed in reversed(self.sets.items()):
            left, place = divmod(left, len(listed))
            values[name] = listed[place]
        values = {name: values[name] for name in self.sets}
        try:
            return label, values, _filled(text, values) if self.sets else text
        except (LookupError, ValueError, AttributeError) as error:
            raise ValueError(f"model {label}: a name in braces has no value from --set ({type(error).__name__}: {error})") from None

    def judge_nodes(self, nodes: Collection[str]) -> None:
        """Raises ValueError if a model lacks one of these nodes or pools; nothing has to run to know that. A text that doesn't begin like a model is
        skipped: its run is refused, and gets its row."""
        for which, (label, text) in enumerate(self.models if nodes else ()):
            if not re.match(r"(?:[ \t]*(?:#.*)?\r?\n)*[ \t]*model[ \t]+[12][ \t\r\n]", text.removeprefix("\ufeff")):
                continue
            # If no node's line contains a name in braces, one variant stands for all.
            count = self.combinations if any("{" in kind for kind in _kinds_in(text)) else 1
            for at in range(which * self.combinations, which * self.combinations + count):
                kinds = _kinds_in(self.model(at)[2])
                for name in nodes:
                    is_pool = kinds.get(queue_name(name)) == "split" and kinds.get(agent_name(name, 1)) == "server"
                    if name not in kinds and not is_pool:
                        raise ValueError(f"model {label}: no node {name!r}; it has {', '.join(kinds) or 'none'}")

    def shard(self, number: int) -> tuple[TraceFile, range]:
        """Returns the trace of a shard, and the numbers of its models (range)."""
        trace, piece = divmod(number - 1, self.a_trace)
        return self.traces[trace], range(piece * MODELS, min((piece + 1) * MODELS, self.each))

    def pieces(self, least: int) -> Iterator[tuple[TraceFile, range]]:
        """Yields the traces with numbers of models (range) that make up the sweep, in its order: the shards, cut smaller if there would be fewer than
        `least` (int)."""
        size = max(1, min(models_per_call(least), -(-self.scenarios // least)))
        for trace in self.traces:
            yield from ((trace, range(begin, min(begin + size, self.each))) for begin in range(0, self.each, size))

    def head(self) -> list[str]:
        """Returns the names of the table's columns."""
        return ["trace", "model", *self.sets, "status", "span", *heads(), "refusal"]

    def text(self) -> str:
        """Returns the plan as the text of a file, with a checksum."""
        parts = {"models": self.models, "sets": self.sets, "traces": self.traces, "nodes": self.nodes}
        return json.dumps({**parts, "sum": _sum_of_parts(parts)}, indent=1) + "\n"

    @classmethod
    def parse(cls, text: str | bytes) -> Plan:
        """Returns the plan in such a text. Raises ValueError if it isn't one, or was altered."""
        parts = json.loads(text)
        if not isinstance(parts, dict) or parts.pop("sum", None) != _sum_of_parts(parts):
            raise ValueError("the checksum differs")
        return cls(parts["models"], parts["sets"], parts["traces"], parts["nodes"])


def _kinds_in(text: str) -> dict[str, str]:
    """Returns the kinds (str) of the nodes in a model's text, by name, even if mpsim would reject it."""
    words = map(str.split, lines_of(text))
    return {word[1]: word[0] for word in words if len(word) > 1 and word[0] not in ("model", "bound")}


def _sum_of_parts(parts: Mapping[str, object]) -> str:
    return hashlib.sha256(json.dumps(parts).encode()).hexdigest()


def _text_of(path: Path) -> str:
    # Bytes that aren't UTF-8 are kept: the program judges them.
    with open(path, encoding="utf-8", errors="surrogateescape", newline="") as file:
        return file.read()
