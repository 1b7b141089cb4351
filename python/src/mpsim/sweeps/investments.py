"""What may be changed in a model, one thing at a time: a shorter service, a further place, a further server. Each change is a model and a trace."""

from __future__ import annotations

from fractions import Fraction
from typing import TYPE_CHECKING, NamedTuple, Optional, Tuple

from ..agents.networks import in_front, inputs_of, trunk_lines
from ..agents.pools import agents_of, queue_name
from ..agents.waits import model_pools, pools_in, recomputed, rostered_pools
from ..limits import COLUMNS, LOSS, NODES, PLACES, STAGES, TRUNK
from ..model import columns, nodes_of
from ..traces.trace import Trace

if TYPE_CHECKING:
    from collections.abc import Iterable, Sequence

    from ..model import ModelNode

SERVICE, CAPACITY, SERVER = "service", "capacity", "server"
# Why a kind of node has no such change.
LACKS = {
    ("server", CAPACITY): "a server has unlimited room",
    ("delay", CAPACITY): "a delay has unlimited room",
    ("delay", SERVER): "a delay serves all jobs at once",
    ("loss", SERVER): "a loss station has one server (a trunk group has several, and no room to wait)",
    ("trunk", CAPACITY): "a trunk group has no room to wait",
    ("tandem", SERVER): "a stage of a tandem has one server",
    ("forkjoin", CAPACITY): "a fork-join has unlimited room",
    ("forkjoin", SERVER): "a branch of a fork-join has one server per stage",
    ("pool", CAPACITY): "a pool has unlimited room",
}


class Station(NamedTuple):
    """Something that serves: its label (str), its node (ModelNode), the kind ("pool" for a pool), the number of the word with its service time among
    the node's arguments (int), and, for a stage of a tandem, the words with the places before it (list of int, the stage's own last)."""

    label: str
    node: ModelNode
    kind: str
    demand: int
    places: Sequence[int] = ()


class Change(NamedTuple):
    """A change: the label of its station (str), SERVICE, CAPACITY or SERVER, the model with it (str), a column of the trace that it needs and the one
    of which that is the shorter form (pair of str, or None), the share by which the sum of the services falls (Fraction; None unless it is one of
    service), and the pools whose agents and waits are worked out again (tuple of str)."""

    station: str
    what: str
    model: str
    column: Optional[Tuple[str, str]] = None
    fall: Optional[Fraction] = None
    pools: Tuple[str, ...] = ()


class Lack(NamedTuple):
    """A change that can't be made: the label of its station (str), SERVICE, CAPACITY or SERVER, and why (str)."""

    station: str
    what: str
    why: str


def stations_of(text: str, pools: Iterable[str] = ()) -> list[Station]:
    """Returns the stations (list of Station) of a model's text, in the order of its lines; `pools` are the names of its pools. Stages of a tandem
    with a service of 0 are places before the next one. A stage or a branch is labelled by its node and its column, or its number if the column isn't
    unique.

    >>> [it.label for it in stations_of("model 1\\nsource in\\ntandem line cut / 4 =0 / 4 mill from in\\nserver pack =9 from line\\n")]
    ['line:cut', 'line:mill', 'pack']
    """
    found: list[Station] = []
    names = set(pools)
    for node in nodes_of(text):
        words = node.arguments.split()
        if node.kind in ("server", "delay") and not (node.kind == "delay" and node.name in map(queue_name, names)):
            found.append(Station(node.name, node, node.kind, 0))
        elif node.kind in ("loss", "trunk"):
            found.append(Station(node.name, node, "pool" if node.name in names else node.kind, 1))
        elif node.kind in ("tandem", "forkjoin"):
            found += _stages(node, words)
    return found


def _stages(node: ModelNode, words: Sequence[str]) -> list[Station]:
    """Returns the stations within a tandem or a fork-join."""
    is_tandem = node.kind == "tandem"
    # A stage of a tandem after the first is a slash, its places and its service.
    at = [0, *(number + 2 for number, word in enumerate(words) if word == "/")] if is_tandem else [it for it, word in enumerate(words) if word != "|"]
    demands = [words[number] for number in at]
    found: list[Station] = []
    places: list[int] = []
    for number, (place, demand) in enumerate(zip(at, demands), 1):
        places += [place - 1] if is_tandem and place else []
        if not is_tandem or demand != "=0":
            name = demand if demand[0].isalpha() and demands.count(demand) == 1 else str(number)
            found.append(Station(f"{node.name}:{name}", node, node.kind, place, places))
            places = []
    return found


def changes(text: str, trace: Trace, percent: Fraction) -> tuple[list[Change], list[Lack]]:
    """Returns the changes (list of Change) of a model's text and its trace: each service shorter by a percentage (Fraction), each capacity and each
    number of servers greater by one; and those that can't be made (list of Lack).

    A second server turns a server into a pool of two agents. The model is one that mpsim accepts with the trace. Raises ValueError for a column that
    the trace lacks.

    >>> trace = Trace("t.csv", ["source", "time", "d"], [["door", "0", "20"], ["door", "1", "30"]])
    >>> found, lacks = changes("model 1\\nsource door\\nserver desk d from door\\n", trace, Fraction(10))
    >>> for it in found:
    ...     print(it.what, it.model.splitlines()[2:], traced(it, trace, Fraction(10)).rows)
    service ['server desk desk_less from door'] [['door', '0', '18'], ['door', '1', '27']]
    server ['delay desk_queue desk_wait from door', 'trunk desk 2 d from desk_queue'] [['door', '0', '20', '0'], ['door', '1', '30', '0']]
    >>> lacks
    [Lack(station='desk', what='capacity', why='a server has unlimited room')]
    """
    pools = [pool.name for pool in model_pools(text, trace)] + rostered_pools(text)
    maker = _Maker(text, trace, percent, pools)
    for station in stations_of(text, pools):
        for what in SERVICE, CAPACITY, SERVER:
            try:
                maker.make(station, what)
            except ValueError as error:
                maker.lacks.append(Lack(station.label, what, str(error)))
    return maker.found, maker.lacks


class _Maker:
    """Makes the changes of a model over a trace."""

    def __init__(self, text: str, trace: Trace, percent: Fraction, pools: Sequence[str]) -> None:
        self.text, self.trace, self.percent, self.pools = text, trace, percent, pools
        self.nodes = {node.name: node for node in nodes_of(text)}
        self.rostered = rostered_pools(text)
        self.found: list[Change] = []
        self.lacks: list[Lack] = []

    def make(self, station: Station, what: str) -> None:
        """Adds a change. Raises ValueError, with the reason, if it can't be made."""
        if (station.kind, what) in LACKS:
            raise ValueError(LACKS[station.kind, what])
        for pool in self.rostered:
            if station.node.name in (pool, *in_front(self.nodes, [queue_name(pool)])):
                raise ValueError(f"the waits at {pool}, a pool with a roster, patience or priorities, hold only for this trace")
        if any(station.node.name in agents_of(self.nodes, name.removesuffix(queue_name(""))) for name in self.nodes if name.endswith(queue_name(""))):
            raise ValueError("it is an agent of a pool with a server per agent: mpplan pool without --by writes one that can be changed")
        {SERVICE: self._service, CAPACITY: self._capacity, SERVER: self._server}[what](station)

    def _service(self, station: Station) -> None:
        """Adds a shorter service."""
        demand = station.node.arguments.split()[station.demand]
        if demand.startswith("="):
            values, name, column = [int(demand[1:])], "", None
        else:
            values, name = self.trace.numbers(demand), _unique(f"{station.node.name[:27]}_less", self.trace.header)
            column = name, demand
        shorter = _parts(values, self.percent)
        if shorter == values:
            raise ValueError(f"no service is shorter by {float(self.percent):g} %, rounded to whole ticks: choose a shorter tick")
        model = self._with_word(station, station.demand, name or f"={shorter[0]}")
        self._add(Change(station.label, SERVICE, model, column, 1 - Fraction(sum(shorter), sum(values))))

    def _capacity(self, station: Station) -> None:
        """Adds a further place."""
        words = station.node.arguments.split()
        if station.kind == "loss":
            if int(words[0]) >= LOSS:
                raise ValueError(f"a loss station has at most {LOSS:,} places")
            self._add(Change(station.label, CAPACITY, self._with_word(station, 0, str(int(words[0]) + 1))))
            return
        if not station.places:
            raise ValueError("the first stage of a tandem has unlimited room")
        for place in station.places:
            if int(words[place]) < PLACES:
                self._add(Change(station.label, CAPACITY, self._with_word(station, place, str(int(words[place]) + 1))))
                return
        if words.count("/") + 1 >= STAGES:
            raise ValueError(f"a tandem has at most {STAGES} stages of {PLACES} places: mpplan line --trace works more out")
        # A stage without service is room before the next one.
        self._add(Change(station.label, CAPACITY, self._with_word(station, station.places[0] - 1, "/ 1 =0 /")))

    def _server(self, station: Station) -> None:
        """Adds a further server."""
        node = station.node
        if station.kind in ("pool", "trunk"):
            count = int(node.arguments.split()[0])
            if count >= TRUNK:
                raise ValueError(f"a trunk group has at most {TRUNK} servers")
            self._add(Change(station.label, SERVER, self._with_word(station, 0, str(count + 1))))
            return
        if queue_name(node.name) in self.nodes or len(self.nodes) >= NODES or len(queue_name(node.name)) > 32:
            raise ValueError(f"the pool needs a further node {queue_name(node.name)}, which the model has no room for")
        for column in f"{node.name}_agent", f"{node.name}_wait":
            if column in columns(self.text):
                raise ValueError(f"the pool needs the column {column}, which the model already names")
        lines = trunk_lines(node.name, 2, node.arguments, inputs_of(node))
        made = []
        for line in self.text.split("\n"):
            words = line.split()
            line = "model 2" if words[:1] == ["model"] else line
            made += lines if words[:2] == ["server", node.name] else [line]
        self._add(Change(station.label, SERVER, "\n".join(made), pools=(node.name,)))

    def _with_word(self, station: Station, at: int, word: str) -> str:
        """Returns the model's text with another word among the arguments of a node."""
        lines = self.text.split("\n")
        for number, line in enumerate(lines):
            words = line.split()
            if words[:2] == [station.node.kind, station.node.name]:
                lines[number] = " ".join([*words[: 2 + at], word, *words[3 + at :]])
        return "\n".join(lines)

    def _add(self, change: Change) -> None:
        """Adds a change, with the pools of the model."""
        if (count := len(columns(change.model))) > COLUMNS:
            raise ValueError(f"the model would name {count} columns of the trace; the limit is {COLUMNS}")
        mine = [name for name in self.pools if name not in self.rostered]
        self.found.append(change._replace(pools=(*mine, *change.pools)))


def traced(change: Change, trace: Trace, percent: Fraction) -> Trace:
    """Returns the trace of a Change with the services that are shorter by a percentage (Fraction), and with the agents and waits at its pools. A
    trace that needs no change is returned itself. Raises what `recomputed` does."""
    if not change.column and not change.pools:
        return trace
    made = trace
    lacking = [name for pool in change.pools for name in (f"{pool}_agent", f"{pool}_wait") if name not in trace.header]
    if lacking:
        made = made.with_columns(**{name: [0] * len(trace.rows) for name in lacking})
    if change.column:
        name, old = change.column
        made = made.with_columns(**{name: _parts(trace.numbers(old), percent)})
    if change.pools:
        made = recomputed(made, [pool for pool in pools_in(change.model, made) if pool.name in change.pools])
    # The limit of columns is one of those that aren't read, too.
    names = set(columns(change.model))
    places = [0, 1, *(at for at, name in enumerate(made.header) if at > 1 and name in names)]
    return Trace(trace.path, [made.header[at] for at in places], [[row[at] for at in places] for row in made.rows])


def _parts(values: Sequence[int], percent: Fraction) -> list[int]:
    """Returns numbers of ticks (list of int) less a percentage (Fraction), rounded to the nearest, half up."""
    keep = 1 - percent / 100
    over, under = 2 * keep.numerator, keep.denominator
    return [(value * over + under) // (2 * under) for value in values]


def _unique(name: str, taken: Iterable[str]) -> str:
    names = set(taken)
    return next(it for number in range(1, len(names) + 2) if (it := name if number == 1 else f"{name[:28]}_{number}") not in names)
