"""Builds models: a call per node writes a line of the text, and a notebook shows the network."""

from __future__ import annotations

from typing import TYPE_CHECKING

if TYPE_CHECKING:
    from collections.abc import Iterable, Sequence

    from .shapes import Path


class Output:
    """An output of a node, to be read by another node: `node[1]` is output 1 of the node whose output this is.

    >>> import mpsim
    >>> model = mpsim.Model()
    >>> desk = model.loss("desk", 2, "talk", model.source("phone"))
    >>> print(desk, desk[1])
    desk desk.1
    """

    def __init__(self, name: str, number: int = 0) -> None:
        self.name, self.number = name, number

    def __getitem__(self, number: int) -> Output:
        return Output(self.name, number)

    # An output isn't a sequence of outputs.
    __iter__ = None

    def __str__(self) -> str:
        return f"{self.name}.{self.number}" if self.number else self.name

    def __repr__(self) -> str:
        return f"<Output {self.name}.{self.number}>"


def _demand(value: str | int) -> str:
    """Returns a service time as a model writes it: a column's name, or a number of ticks."""
    return value if isinstance(value, str) else f"={value}"


class Model:
    """A model, built line by line in the order of the calls (docs/MODEL.md explains each kind of node).

    `bound` (int) is the latest allowed departure, in ticks. Each call adds a node with a name (str) and returns its output 0; `node[1]` is output 1.
    A service time (demand) is a column's name (str) or a number of ticks (int), places and servers are int, inputs are outputs of nodes or their
    names (str). `str(model)` is the text; it begins with `model 2` if a node needs that. Nothing is checked here: `run` and the other calls raise
    ModelError.

    >>> import mpsim
    >>> model = mpsim.Model(bound=1000)
    >>> desk = model.loss("desk", 2, "talk", model.source("phone"), model.source("web"))
    >>> later = model.delay("later", 60, desk[1])
    >>> print(model, end="")
    model 1
    bound 1000
    source phone
    source web
    loss desk 2 talk from phone web
    delay later =60 from desk.1
    """

    def __init__(self, bound: int | None = None) -> None:
        self._head: list[str] = []
        self._lines, self._version = [] if bound is None else [f"bound {bound}"], 1

    @classmethod
    def read(cls, path: Path) -> Model:
        """Returns the model in a file, to which nodes may be added. Raises OSError if it can't be read, and ValueError as `parse` does.

        >>> import mpsim, tempfile
        >>> with tempfile.NamedTemporaryFile("w", suffix=".txt") as file:
        ...     print("model 1\\nsource door", file=file, flush=True)
        ...     print(mpsim.Model.read(file.name), end="")
        model 1
        source door
        """
        with open(path, encoding="utf-8", errors="surrogateescape", newline="\n") as file:
            return cls.parse(file.read())

    @classmethod
    def parse(cls, text: str) -> Model:
        """Returns the model in a text (str), with its comments, to which nodes may be added. Raises ValueError if it has no line `model 1` or
        `model 2`; the programs check everything else.

        >>> import mpsim
        >>> model = mpsim.Model.parse("model 1\\nsource door\\n")
        >>> desk = model.server("desk", "talk", "door")
        >>> print(model, end="")
        model 1
        source door
        server desk talk from door
        """
        lines = [line.removesuffix("\r") for line in text.removeprefix("\ufeff").removesuffix("\n").split("\n")]
        at = next((at for at, line in enumerate(lines) if line.split() and not line.lstrip().startswith("#")), None)
        if at is None or lines[at].split() not in (["model", "1"], ["model", "2"]):
            raise ValueError(f"a model begins with the line model 1 or model 2, not {'nothing' if at is None else repr(lines[at])}")
        made = cls()
        made._head, made._lines, made._version = lines[:at], lines[at + 1 :], int(lines[at].split()[1])
        return made

    def _add(self, kind: str, name: str, arguments: Iterable[object], inputs: Sequence[Output | str], version: int = 1) -> Output:
        self._version = max(self._version, version)
        words = [kind, name, *arguments, *(["from", *inputs] if inputs else [])]
        self._lines.append(" ".join(map(str, words)))
        return Output(name)

    def __repr__(self) -> str:
        nodes = sum(line.split()[0] not in ("bound", "#") and not line.startswith("#") for line in self._lines if line.split())
        return f"<Model of {nodes} node{'' if nodes == 1 else 's'}, version {self._version}>"

    def _repr_html_(self) -> str | None:
        from .page import model_piece

        try:
            return model_piece(str(self))
        except (ValueError, KeyError, IndexError):
            # The text isn't a whole model: the programs say why.
            return None

    def source(self, name: str) -> Output:
        """Adds a source: the records of the trace that name it.

        >>> import mpsim
        >>> model = mpsim.Model()
        >>> node = model.source("phone")
        >>> str(model).splitlines()[-1]
        'source phone'
        """
        return self._add("source", name, [], [])

    def server(self, name: str, demand: str | int, *inputs: Output | str, servers: int = 1) -> Output:
        """Adds a single server, first come, first served. Raises ValueError for another number of servers, and says what has several.

        >>> import mpsim
        >>> mpsim.Model().server("desk", "talk", "door", servers=5)
        Traceback (most recent call last):
        ValueError: a server is one server: for 5 that share a queue use mpplan pool or mpsim.agents.queues.Queue, without a queue trunk('desk', 5)
        """
        if servers != 1:
            use = f"for {servers} that share a queue use mpplan pool or mpsim.agents.queues.Queue, without a queue trunk({name!r}, {servers})"
            raise ValueError(f"a server is one server: {use}")
        return self._add("server", name, [_demand(demand)], inputs)

    def delay(self, name: str, demand: str | int, *inputs: Output | str) -> Output:
        """Adds a delay: each job is served from its arrival on, without waiting.

        >>> import mpsim
        >>> model = mpsim.Model()
        >>> node = model.delay("walk", 60, model.source("phone"))
        >>> str(model).splitlines()[-1]
        'delay walk =60 from phone'
        """
        return self._add("delay", name, [_demand(demand)], inputs)

    def loss(self, name: str, places: int, demand: str | int, *inputs: Output | str) -> Output:
        """Adds a single server with this many places, including the one in service. Output 1 has the lost jobs.

        >>> import mpsim
        >>> model = mpsim.Model()
        >>> node = model.loss("desk", 2, "talk", model.source("phone"))
        >>> str(model).splitlines()[-1]
        'loss desk 2 talk from phone'
        """
        return self._add("loss", name, [places, _demand(demand)], inputs)

    def tandem(self, name: str, first: str | int, *stages_and_inputs: tuple[int, str | int] | Output | str) -> Output:
        """Adds servers in series with blocking: the service time of the first, a pair of places and service time for each other one, then the inputs.

        >>> import mpsim
        >>> model = mpsim.Model()
        >>> desk = model.tandem("desk", "ask", (1, "write"), (4, 2), model.source("door"))
        >>> str(model).splitlines()[-1]
        'tandem desk ask / 1 write / 4 =2 from door'
        """
        stages = [stages_and_input for stages_and_input in stages_and_inputs if isinstance(stages_and_input, tuple)]
        arguments = [_demand(first)]
        for places, demand in stages:
            arguments += ["/", str(places), _demand(demand)]
        return self._add("tandem", name, arguments, [item for item in stages_and_inputs if not isinstance(item, tuple)])

    def forkjoin(self, name: str, branches: Iterable[Iterable[str | int]], *inputs: Output | str) -> Output:
        """Adds a fork-join station: a job goes through all branches at once; a branch is a list of service times.

        >>> import mpsim
        >>> model = mpsim.Model()
        >>> both = model.forkjoin("both", [["a"], ["b", 2]], model.source("parts"))
        >>> str(model).splitlines()[-1]
        'forkjoin both a | b =2 from parts'
        """
        arguments = [word for branch in branches for word in ["|", *map(_demand, branch)]]
        return self._add("forkjoin", name, arguments[1:], inputs)

    def split(
        self, name: str, *inputs: Output | str, turn: int | None = None, mod: tuple[int, str] | None = None, cut: Sequence[str | int] | None = None
    ) -> Output:
        """Adds a split, which sends each job to one output: by `turn=outputs`, by `mod=(outputs, column)`, or by `cut=(column, threshold, ..)`.
        Raises TypeError unless exactly one of them is given.

        >>> import mpsim
        >>> model = mpsim.Model()
        >>> menu = model.split("menu", model.source("calls"), cut=("kind", 1, 5))
        >>> str(model).splitlines()[-1]
        'split menu cut kind 1 5 from calls'
        """
        if sum(item is not None for item in (turn, mod, cut)) != 1:
            raise TypeError("a split takes one of turn, mod and cut")
        if mod is not None:
            arguments: list[object] = [mod[0], "mod", mod[1]]
        else:
            arguments = [turn, "turn"] if cut is None else ["cut", *cut]
        return self._add("split", name, arguments, inputs)

    def fork(self, name: str, outputs: int, *inputs: Output | str) -> Output:
        """Adds a fork: each job continues on each of this many outputs.

        >>> import mpsim
        >>> model = mpsim.Model()
        >>> node = model.fork("parts", 2, model.source("orders"))
        >>> str(model).splitlines()[-1]
        'fork parts 2 from orders'
        """
        return self._add("fork", name, [outputs], inputs, 2)

    def join(self, name: str, *inputs: Output | str) -> Output:
        """Adds a join: it keeps each part of a job until a part has arrived at each input.

        >>> import mpsim
        >>> model = mpsim.Model()
        >>> parts = model.fork("parts", 2, model.source("orders"))
        >>> whole = model.join("whole", parts, parts[1])
        >>> str(model).splitlines()[-1]
        'join whole from parts parts.1'
        """
        return self._add("join", name, [], inputs, 2)

    def trunk(self, name: str, servers: int, demand: str | int, *inputs: Output | str) -> Output:
        """Adds a trunk group with this many servers and no queue. Output 1 has the lost jobs.

        >>> import mpsim
        >>> model = mpsim.Model()
        >>> node = model.trunk("lines", 20, "talk", model.source("phone"))
        >>> str(model).splitlines()[-1]
        'trunk lines 20 talk from phone'
        """
        return self._add("trunk", name, [servers, _demand(demand)], inputs, 2)

    def __str__(self) -> str:
        return "".join(f"{line}\n" for line in [*self._head, f"model {self._version}", *self._lines])
