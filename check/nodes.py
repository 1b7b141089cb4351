"""The kinds of node, one class each. A class parses its words in a model's line, and says what happens when a job arrives at the node and when one of
its servers finishes (docs/MODEL.md, the tables of lines). The counters are for docs/REPORT.md.

A node uses two methods of its network: `at` schedules an event, and `go_on` sends a job on through an output. All times are in ticks.
"""

from __future__ import annotations

from collections import deque
from typing import Optional

from texts import Demand, GREATEST_VALUE, Line, Row, demand_of, name_of

VISITS = 1_048_576
DONE, COMES = 0, 1   # the kinds of event: a server finishes, or a job arrives


class Visit:
    """A job at a node, by the number of its record, from 1. `departed` is None while it is there."""
    __slots__ = ('job', 'row', 'port', 'position', 'arrived', 'departed', 'lost')

    def __init__(self, job: int, row: Row, port: int, position: int, arrived: int):
        self.job, self.row, self.port, self.position, self.arrived = job, row, port, position, arrived
        self.departed: Optional[int] = None
        self.lost = False


class Node:
    """What all kinds have in common."""
    kind = ''
    version = 1          # of the models that may contain it, or later
    least_inputs = 1
    outputs = 1
    servers = 0          # by which `util` divides
    keeps = True         # whether jobs stay in it, so that `peak` counts them

    def __init__(self, line: Line):
        self.line = line.number
        self.name: str = line.take(name_of)
        self.services: list[Demand] = []
        self.columns: list[str] = []
        self.read(line)
        self.inputs = line.inputs(self.least_inputs) if self.least_inputs else []
        line.end()

    def read(self, line: Line):
        """Parses the words between the name and `from`."""

    def read_service(self, line: Line):
        self.services.append(line.take(demand_of))
        if self.services[-1].column is not None:
            self.columns.append(self.services[-1].column)

    def read_column(self, line: Line):
        self.columns.append(line.take(name_of))

    def start(self, network, rank: int):
        """Resets the node: nothing has arrived yet."""
        self.network, self.rank = network, rank
        self.visits: list[Visit] = []
        self.busy = self.present = self.peak = 0
        self.empty()

    def empty(self):
        """Resets the state of the kind itself."""

    def come(self, job: int, row: Row, port: int, now: int):
        """Handles an arrival. A node with too many visits refuses the run, so it only counts further ones and lets nothing out."""
        visit = Visit(job, row, port, len(self.visits), now)
        self.visits.append(visit)
        if len(self.visits) <= VISITS:
            self.present += 1
            self.arrive(visit, now)
            if self.keeps:
                self.peak = max(self.peak, self.present)

    def arrive(self, visit: Visit, now: int):
        raise NotImplementedError

    def serve(self, server: int, visit: Visit, now: int):
        """Begins the service of a visit."""
        ticks = self.services[server].of(visit.row)
        self.busy += ticks
        self.network.at(now + ticks, self, DONE, server, visit.position, visit)

    def done(self, server: int, visit: Visit, now: int):
        """Ends the service of a visit."""
        raise NotImplementedError

    def depart(self, visit: Visit, now: int):
        visit.departed = now
        self.present -= 1

    def leave(self, visit: Visit, now: int, output: int = 0):
        """Ends the visit; its job goes on."""
        self.depart(visit, now)
        self.network.go_on(self, output, visit, now)

    def lose(self, visit: Visit, now: int):
        visit.lost = True
        self.leave(visit, now, 1)

    def bare(self, row: Row) -> int:
        """Returns the shortest time that a job can stay. The rest is its waiting time."""
        return sum(service.of(row) for service in self.services)


class Source(Node):
    kind, least_inputs, keeps = 'source', 0, False

    def arrive(self, visit, now):
        self.leave(visit, now)


class Delay(Node):
    """As many servers as there are jobs. They aren't numbered: of several that finish together, the job that arrived first leaves first."""
    kind = 'delay'

    def read(self, line):
        self.read_service(line)

    def arrive(self, visit, now):
        self.serve(0, visit, now)

    def done(self, server, visit, now):
        self.leave(visit, now)


class Trunk(Delay):
    """A trunk group: a delay for a limited number of jobs at a time."""
    kind, version, outputs = 'trunk', 2, 2

    def read(self, line):
        self.servers = line.number_in(1, 255)
        super().read(line)

    def arrive(self, visit, now):
        if self.present > self.servers:   # including this one
            self.lose(visit, now)
        else:
            super().arrive(visit, now)


class Queues(Node):
    """Servers with a queue each, first come, first served. The job in service is first in the queue."""

    def empty(self):
        self.queues: list[deque[Visit]] = [deque() for _ in self.services]

    def queue_up(self, server: int, visit: Visit, now: int):
        self.queues[server].append(visit)
        if len(self.queues[server]) == 1:
            self.serve(server, visit, now)

    def take_out(self, server: int, now: int) -> Visit:
        """Removes the first job from the server and begins the next service there."""
        visit = self.queues[server].popleft()
        if self.queues[server]:
            self.serve(server, self.queues[server][0], now)
        return visit


class Server(Queues):
    kind, servers = 'server', 1

    def read(self, line):
        self.read_service(line)

    def arrive(self, visit, now):
        self.queue_up(0, visit, now)

    def done(self, server, visit, now):
        self.leave(self.take_out(0, now), now)


class Loss(Server):
    """A server with a limited number of places, including the one in service."""
    kind, outputs = 'loss', 2

    def read(self, line):
        self.places = line.number_in(1, 1_048_576)
        super().read(line)

    def arrive(self, visit, now):
        if len(self.queues[0]) == self.places:
            self.lose(visit, now)
        else:
            super().arrive(visit, now)


class Tandem(Queues):
    """Servers in series; each after the first has a limited number of places. A finished job stays and blocks its server until the next one has a
    free place."""
    kind = 'tandem'

    def read(self, line):
        self.read_service(line)
        self.places: list[Optional[int]] = [None]
        while len(self.services) == 1 or len(self.services) < 4 and line.next_is('/'):
            line.literal('/')
            self.places.append(line.number_in(1, 4))
            self.read_service(line)
        self.servers = len(self.services)

    def empty(self):
        super().empty()
        self.blocked = [False] * self.servers

    def arrive(self, visit, now):
        self.queue_up(0, visit, now)

    def done(self, server, visit, now):
        if server + 1 < self.servers and len(self.queues[server + 1]) == self.places[server + 1]:
            self.blocked[server] = True
        else:
            self.move_on(server, now)

    def move_on(self, server: int, now: int):
        """A job moves on from the server, and the job blocked before it takes its place."""
        visit = self.take_out(server, now)
        if server + 1 < self.servers:
            self.queue_up(server + 1, visit, now)
        else:
            self.leave(visit, now)
        if server > 0 and self.blocked[server - 1]:
            self.blocked[server - 1] = False
            self.move_on(server - 1, now)


class ForkJoin(Queues):
    """Branches of servers in series. A job is in all branches at once, and leaves when it has passed the last of them. The servers of all branches
    are numbered consecutively."""
    kind = 'forkjoin'

    def read(self, line):
        self.branches: list[list[int]] = []
        while len(self.branches) < 2 or self.servers < 8 and line.next_is('|'):
            if self.branches:
                line.literal('|')
            self.branches.append(self.read_branch(line))

    def read_branch(self, line: Line) -> list[int]:
        branch: list[int] = []
        while not branch or len(branch) < 4 and self.servers < 8 and not line.next_is('|') and not line.next_is('from'):
            self.read_service(line)
            branch.append(self.servers)
            self.servers += 1
        return branch

    def empty(self):
        super().empty()
        self.through: dict[Visit, int] = {}   # in how many branches

    def arrive(self, visit, now):
        self.through[visit] = 0
        for branch in self.branches:
            self.queue_up(branch[0], visit, now)

    def done(self, server, visit, now):
        self.take_out(server, now)
        if not any(server == branch[-1] for branch in self.branches):
            self.queue_up(server + 1, visit, now)
            return
        self.through[visit] += 1
        if self.through[visit] == len(self.branches):
            del self.through[visit]
            self.leave(visit, now)

    def bare(self, row):
        return max(sum(self.services[server].of(row) for server in branch) for branch in self.branches)


class Split(Node):
    kind, keeps = 'split', False

    def read(self, line):
        self.thresholds: list[int] = []
        if line.next_is('cut'):
            self.way = line.literal('cut')
            self.read_column(line)
            while not self.thresholds or len(self.thresholds) < 7 and not line.next_is('from'):
                self.thresholds.append(line.number_in(self.thresholds[-1] + 1 if self.thresholds else 0, GREATEST_VALUE))
            self.outputs = len(self.thresholds) + 1
        else:
            self.outputs = line.number_in(2, 8)
            self.way = line.literal('mod', 'turn')
            if self.way == 'mod':
                self.read_column(line)

    def arrive(self, visit, now):
        self.leave(visit, now, self.route(visit))

    def route(self, visit: Visit) -> int:
        """Returns the output that a job takes."""
        if self.way == 'turn':
            return visit.position % self.outputs
        value = visit.row.values[self.columns[0]]
        return value % self.outputs if self.way == 'mod' else sum(threshold <= value for threshold in self.thresholds)


class Fork(Node):
    kind, version, keeps = 'fork', 2, False

    def read(self, line):
        self.outputs = line.number_in(2, 4)

    def arrive(self, visit, now):
        self.depart(visit, now)
        for output in range(self.outputs):
            self.network.go_on(self, output, visit, now)


class Join(Node):
    """Keeps the parts of a job, by input, until one has arrived at each; then they leave as one."""
    kind, version, least_inputs = 'join', 2, 2

    def empty(self):
        self.kept: dict[int, list[deque[Visit]]] = {}

    def arrive(self, visit, now):
        self.peak = max(self.peak, self.present)   # before its match leaves
        ports = self.kept.setdefault(visit.job, [deque() for _ in self.inputs])
        ports[visit.port].append(visit)
        if all(ports):
            for port in ports:
                self.depart(port.popleft(), now)
            self.network.go_on(self, 0, visit, now)


KINDS = {kind.kind: kind for kind in (Source, Server, Delay, Loss, Tandem, ForkJoin, Split, Fork, Join, Trunk)}
