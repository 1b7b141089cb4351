"""Checks the outcomes of a group of agents against its rules, one by one, without simulating: it only compares times that are already known."""

from typing import NamedTuple

from mpsim.agents import FIRST
from mpsim.limits import FOREVER


class Seen(NamedTuple):
    """A call with its outcome. `end` is the tick at which the service ends, `until` the last tick at which the caller could have begun to be served
    but wasn't; `step` is 0 if the call waited for its beginning, 1 if it began on arrival."""

    at: int
    queue: str
    arrive: int
    service: int
    patience: object
    agent: int
    begin: object
    end: object
    until: int
    step: int


def seen(calls, outcomes):
    found = []
    for at, (call, (agent, wait)) in enumerate(zip(calls, outcomes)):
        begin = call.arrive + wait if agent else None
        until = begin - 1 if agent else FOREVER if wait is None else call.arrive + wait
        end = begin + call.service if agent else None
        found.append(Seen(at, call.queue, call.arrive, call.service, call.patience, agent, begin, end, until, int(bool(agent) and wait == 0)))
    return found


def serves(agent, queue):
    return agent.queues is None or queue in agent.queues


def at_work(agent, tick):
    return any(begin <= tick < end for begin, end in agent.intervals)


def broken(agents, calls, outcomes, priorities=None, choose="longest-idle"):
    """Returns the names of the rules (set of str) that outcomes break."""
    every, rules = seen(calls, outcomes), set()
    last = max((priorities or {}).values(), default=0) + 1

    def key(call):
        return (priorities or {}).get(call.queue, last), call.arrive, call.at

    if len(outcomes) != len(calls) or any(not 0 <= it.agent <= len(agents) for it in every):
        return {"an outcome per call"}
    own = {place: [it for it in every if it.agent == place] for place in range(1, len(agents) + 1)}
    for mine in own.values():
        mine.sort(key=lambda it: (it.begin, it.step, key(it)))
    for call in every:
        rules |= set(_of_call(agents, call))
    for place, mine in own.items():
        busy = [it for it in mine if it.service]
        # In the order of their turns: at one tick, none may follow a call that takes time.
        if any(one.end > other.begin for one, other in zip(mine, mine[1:])):
            rules.add("one call at a time")
        if any(_free_ticks(agents[place - 1], busy, it.arrive, it.until) for it in every if serves(agents[place - 1], it.queue)):
            rules.add("nobody waits while a fit agent is free")
    began = [it for it in every if it.agent]
    for call in began:
        agent = agents[call.agent - 1]
        fit = [it for it in every if serves(agent, it.queue) and it.arrive <= call.begin <= it.until]
        better = [it for it in fit if key(it) < key(call)]
        if any(it.arrive < call.begin or call.arrive == call.begin for it in better):
            rules.add("order")
        # Who waits is served before calls arrive, whatever their priority.
        if any(it.arrive < call.begin == call.arrive for it in fit):
            rules.add("order")
        if _better(agents, own, call, key, choose):
            rules.add("choice")
    return rules


def _of_call(agents, call):
    if call.agent:
        agent = agents[call.agent - 1]
        if not serves(agent, call.queue):
            yield "queues"
        if call.begin < call.arrive or not at_work(agent, call.begin):
            yield "begins inside an interval"
        if call.patience is not None and call.begin > call.arrive + call.patience:
            yield "patience"
    elif (call.until == FOREVER) != (call.patience is None) or call.patience is not None and call.until != call.arrive + call.patience:
        yield "patience"


def _free_ticks(agent, busy, first, last):
    """Returns whether an agent is free at any tick from `first` to `last`, both included."""
    for begin, end in agent.intervals:
        tick = max(begin, first)
        for call in busy:
            if call.begin <= tick < call.end:
                tick = call.end
        if tick < end and tick <= last:
            return True
    return False


def _better(agents, own, call, key, choose):
    """Returns whether another agent, who was free when a call began, should have taken it."""
    turn = call.step, key(call)
    tick, ranks = call.begin, {}
    for place, agent in enumerate(agents, 1):
        before = [it for it in own[place] if it.begin < tick or it.begin == tick and (it.step, key(it)) < turn]
        if not serves(agent, call.queue) or not at_work(agent, tick) or any(it.end > tick for it in before):
            continue
        since = max([0, *(it.end for it in before), _begin_of(agent, tick)])
        ranks[place] = place if choose == FIRST else (since, place)
    return call.agent in ranks and min(ranks.values()) < ranks[call.agent]


def _begin_of(agent, tick):
    """Returns the tick since when an agent has been inside intervals without a gap."""
    begin = tick + 1
    for first, end in reversed(list(agent.intervals)):
        if first <= tick and end >= begin:
            begin = first
    return begin
