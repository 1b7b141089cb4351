"""The event list of a group of agents; the rules are those of `mpsim.agents`."""

from __future__ import annotations

from array import array
from collections import deque
from heapq import heappop, heappush, heapreplace
from typing import TYPE_CHECKING, Iterable, NamedTuple, Optional, Sequence, Tuple

from ..limits import FOREVER

if TYPE_CHECKING:
    from collections.abc import Iterator, Mapping

LONGEST_IDLE, FIRST = "longest-idle", "first"


class Agent(NamedTuple):
    """An agent: the intervals (pairs of int, in ticks) during which the agent is available, each from its first tick to before its second; and the
    names (iterable of str) of the queues that the agent serves, None for all. By default the agent is always available.

    >>> from mpsim.agents import Agent
    >>> Agent([(0, 60)], queues=["phone"])
    Agent(intervals=[(0, 60)], queues=['phone'])
    """

    intervals: Sequence[Tuple[int, int]] = ((0, FOREVER),)
    queues: Optional[Iterable[str]] = None


class Call(NamedTuple):
    """A call: its arrival time, its service time and its patience (int, in ticks; patience None if the caller waits without limit), and the name of
    its queue (str).

    >>> from mpsim.agents import Call
    >>> Call(arrive=10, service=50, patience=20)
    Call(arrive=10, service=50, queue='', patience=20)
    """

    arrive: int
    service: int
    queue: str = ""
    patience: Optional[int] = None


class Outcome(NamedTuple):
    """What became of a call: the place of its agent in the roster (int, from 1; 0 if the call didn't begin), and the ticks that the caller waited
    until the call began or the caller left (int; None for a caller who waits without limit for an agent who never comes).

    >>> from mpsim.agents import Agent, Call, Group
    >>> Group([Agent([(30, 60)])]).serve([Call(0, 5)])[0]
    Outcome(agent=1, wait=30)
    """

    agent: int
    wait: Optional[int]


class Group:
    """A group of agents (sequence of Agent, in the order of the roster) who serve the same queues or overlapping ones.

    `priorities` maps names of queues to numbers (dict of str to int); the least number is served first, and queues without a number come last.
    `choose` says which of several free agents takes a call: "longest-idle" or "first" (in the roster).

    Raises ValueError if an interval is empty or begins before tick 0, if intervals of an agent overlap or aren't in order, and for another `choose`.

    >>> from mpsim.agents import Agent, Call, Group
    >>> group = Group([Agent(queues=["mail", "phone"])], priorities={"phone": 1})
    >>> [it.wait for it in group.serve([Call(0, 9, "mail"), Call(1, 9, "mail"), Call(2, 5, "phone")])]
    [0, 13, 7]
    """

    def __repr__(self) -> str:
        return f"<Group of {len(self.intervals)} agents>"

    def __init__(self, agents: Iterable[Agent], priorities: Mapping[str, int] | None = None, choose: str = LONGEST_IDLE) -> None:
        if choose not in (LONGEST_IDLE, FIRST):
            raise ValueError(f"choose {choose!r}: expected {LONGEST_IDLE!r} or {FIRST!r}")
        self.intervals = [_joined(place, agent.intervals) for place, agent in enumerate(agents, 1)]
        self.queues = [None if agent.queues is None else frozenset(agent.queues) for agent in agents]
        self.priorities, self.choose = dict(priorities or {}), choose

    def serve(self, calls: Iterable[Call]) -> list[Outcome]:
        """Returns the Outcome of each call (a list), in the order of `calls` (iterable of Call), which may be in any order of time. Calls that arrive
        at the same tick are served in their given order. Raises ValueError for a negative service time or patience.

        >>> from mpsim.agents import Agent, Call, Group
        >>> Group([Agent()]).serve([Call(0, 4), Call(1, 2)])
        [Outcome(agent=1, wait=0), Outcome(agent=1, wait=3)]
        """
        every = list(calls)
        arrivals, services = [call.arrive for call in every], [call.service for call in every]
        who, waits = self.assigned(arrivals, services, [call.queue for call in every], [call.patience for call in every])
        return [Outcome(agent, None if wait < 0 else wait) for agent, wait in zip(who, waits)]

    def assigned(
        self, arrivals: Sequence[int], services: Sequence[int], queues: Sequence[str] | None = None, patience: Sequence[int | None] | None = None
    ) -> tuple[array[int], array[int]]:
        """Returns what `serve` does as two arrays of int: the place of each call's agent, from 1, or 0; and the wait, -1 for a caller who waits
        without limit for an agent who never comes. Takes a sequence for each field of the calls: arrival times and service times (int, in ticks),
        names of queues (str; None if all calls have the queue ""), and patience (int, or None if without limit; None if no caller leaves). Raises
        ValueError for a negative service time or patience.

        >>> from mpsim.agents import Agent, Group
        >>> who, waits = Group([Agent(), Agent()]).assigned([0, 1, 2, 3], [6, 1, 1, 1])
        >>> list(who), list(waits)
        ([1, 2, 2, 2], [0, 0, 0, 0])
        """
        if min(services, default=0) < 0:
            raise ValueError(f"a service time is negative: {min(services)}")
        if patience is not None and (given := [it for it in patience if it is not None]):
            if min(given) < 0:
                raise ValueError(f"a patience is negative: {min(given)}")
        else:
            patience = None
        return _Run(self, arrivals, services, queues, patience).outcomes()


def _joined(place: int, intervals: Iterable[tuple[int, int]]) -> list[tuple[int, int]]:
    """Returns intervals as a list of pairs, with those that touch joined into one. Raises ValueError as Group does."""
    found: list[tuple[int, int]] = []
    for begin, end in intervals:
        if begin < 0 or end <= begin:
            raise ValueError(f"agent {place}: the interval from {begin} to {end} is empty or begins before tick 0")
        if found and begin < found[-1][1]:
            raise ValueError(f"agent {place}: the interval from {begin} to {end} begins before the one from {found[-1][0]} to {found[-1][1]} ends")
        if found and begin == found[-1][1]:
            begin = found.pop()[0]
        found.append((begin, end))
    return found


class _Team:
    """Agents who serve the same queues: those who are free, as a heap of (since, place), and the lines that they serve, best priority first; lines of
    the same priority are in one list."""

    idle: list[tuple[int, int]]
    levels: list[list[deque[int]]]

    def __init__(self) -> None:
        self.idle, self.levels = [], []


class _Line:
    """Calls that wait for the same teams with the same priority, in order of arrival."""

    waiting: deque[int]

    def __init__(self, teams: list[_Team]) -> None:
        self.teams, self.waiting = teams, deque()


class _Run:
    """One run of a group. Calls are numbered in the order in which they arrive, at one tick by priority; agents by their place.

    Only arrivals and agents who become ready are events. An agent whose interval has ended while idle, and a caller who has left, are dropped when
    they are next met: until then nobody asks for them."""

    ready: list[tuple[int, int]]
    left: list[Iterator[tuple[int, int]]]
    team: list[_Team]
    lines: list[_Line]
    leaves: list[int] | None

    def __init__(
        self, group: Group, arrivals: Sequence[int], services: Sequence[int], queues: Sequence[str] | None, patience: Sequence[int | None] | None
    ) -> None:
        count = len(arrivals)
        self.last = max(group.priorities.values(), default=0) + 1
        self.order = sorted(range(count), key=arrivals.__getitem__)
        if group.priorities and queues is not None:
            # Calls that arrive at one tick begin by priority.
            rank = [group.priorities.get(queue, self.last) for queue in queues]
            self.order.sort(key=lambda at: (arrivals[at], rank[at]))
        self.arrivals, self.services = [arrivals[at] for at in self.order], [services[at] for at in self.order]
        self.leaves = None if patience is None else self._leaves([patience[at] for at in self.order])
        self.who = array("i", bytes(4 * count))
        # The wait of a call that never begins, until it does.
        self.waits = array("q", [-1]) * count
        if patience is not None:
            for call, at in enumerate(self.order):
                if (most := patience[at]) is not None:
                    self.waits[call] = most
        self.by_idle = group.choose == LONGEST_IDLE
        self._make_lines(group, [""] * count if queues is None else [queues[at] for at in self.order])
        # Places are counted from 1.
        self.left = [iter(()), *(iter(intervals) for intervals in group.intervals)]
        # When the interval of each agent, the current or the next one, begins and ends; and the agents who will become ready, by time.
        self.begins, self.ends, self.ready = [0] * len(self.left), [0] * len(self.left), []
        for place in range(1, len(self.left)):
            self._ready_at(0, place)

    def _leaves(self, patience: Sequence[int | None]) -> list[int]:
        return [FOREVER if it is None else arrive + it for arrive, it in zip(self.arrivals, patience)]

    def _make_lines(self, group: Group, queues: Sequence[str]) -> None:
        teams = {served: _Team() for served in group.queues}
        self.team = [_Team(), *map(teams.__getitem__, group.queues)]
        lines: dict[tuple[int, tuple[frozenset[str] | None, ...]], _Line] = {}
        line_of: dict[str, _Line] = {}
        for queue in dict.fromkeys(queues):
            serving = tuple(served for served in teams if served is None or queue in served)
            key = group.priorities.get(queue, self.last), serving
            if key not in lines:
                lines[key] = _Line([teams[served] for served in serving])
            line_of[queue] = lines[key]
        for served, team in teams.items():
            mine = sorted((rank, place) for place, (rank, serving) in enumerate(lines) if served in serving)
            every = [line.waiting for line in lines.values()]
            team.levels = [[every[place] for rank, place in mine if rank == level] for level in sorted({rank for rank, _ in mine})]
        self.lines = list(map(line_of.__getitem__, queues))

    def outcomes(self) -> tuple[array[int], array[int]]:
        ready, teams, become_ready = self.ready, self.team, self._become_ready
        for call, now in enumerate(self.arrivals):
            while ready and ready[0][0] <= now:
                become_ready(*heappop(ready))
            self._arrive(call, now)
        while ready and any(line.waiting for line in set(self.lines)):
            become_ready(*heappop(ready))
        if self.order == list(range(len(self.order))):
            return self.who, self.waits
        who, waits = array("i", self.who), array("q", self.waits)
        for call, at in enumerate(self.order):
            who[at], waits[at] = self.who[call], self.waits[call]
        return who, waits

    def _arrive(self, call: int, now: int) -> None:
        """Begins the call with an agent who is free, or puts it into its line."""
        line, best = self.lines[call], None
        for team in line.teams:
            idle = team.idle
            while idle and self.ends[idle[0][1]] <= now:
                self._go(team, now)
            if idle and (best is None or idle[0] < best[0]):
                best = idle
        if best is None:
            line.waiting.append(call)
        else:
            place = best[0][1]
            if self._begin(call, now, place):
                heappop(best)
            else:
                heapreplace(best, self._idle(now, place))

    def _go(self, team: _Team, now: int) -> None:
        """Takes the first free agent of a team away, whose interval has ended. The next interval may have begun by now."""
        _, place = heappop(team.idle)
        self._ready_at(now, place, team.idle)

    def _ready_at(self, now: int, place: int, idle: list[tuple[int, int]] | None = None) -> None:
        """Finds the first tick, from `now`, at which an agent who has no call is inside an interval, and waits for it. If it is no later than now and
        `idle` is given, the agent is free already, since the interval began."""
        while self.ends[place] <= now:
            interval = next(self.left[place], None)
            if interval is None:
                return
            self.begins[place], self.ends[place] = interval
        begin = self.begins[place]
        if idle is not None and begin <= now:
            heappush(idle, self._idle(begin, place))
        else:
            heappush(self.ready, (begin if begin > now else now, place))

    def _idle(self, since: int, place: int) -> tuple[int, int]:
        return (since if self.by_idle else 0), place

    def _become_ready(self, now: int, place: int) -> None:
        """Lets an agent who becomes ready take waiting calls, or be free."""
        team = self.team[place]
        call = self._next(team, now)
        while call is not None:
            if self._begin(call, now, place):
                return
            call = self._next(team, now)
        heappush(team.idle, self._idle(now, place))

    def _next(self, team: _Team, now: int) -> int | None:
        """Takes the next call for a team from its lines, None if there is none."""
        for level in team.levels:
            best = None
            for waiting in level:
                if self.leaves is not None:
                    while waiting and self.leaves[waiting[0]] < now:
                        waiting.popleft()
                if waiting and (best is None or waiting[0] < best[0]):
                    best = waiting
            if best is not None:
                return best.popleft()
        return None

    def _begin(self, call: int, now: int, place: int) -> bool:
        """Begins a call with an agent. Returns whether the agent is busy from now on: a call without service time ends at once."""
        self.who[call], self.waits[call] = place, now - self.arrivals[call]
        service = self.services[call]
        if service:
            self._ready_at(now + service, place)
        return service > 0
