"""A second simulation of a group of agents, for small cases: a clock that advances tick by tick, and does what the rules say in their order."""

from mpsim.agents import Outcome


def ticking(agents, calls, priorities=None, choose="longest-idle"):
    """Returns the Outcome of each call, as `Group.serve` does."""
    last = max((priorities or {}).values(), default=0) + 1
    rank = {at: ((priorities or {}).get(call.queue, last), call.arrive, at) for at, call in enumerate(calls)}
    outcomes, waiting, coming = {}, [], set(range(len(calls)))
    busy_until, there, free_since = [0] * len(agents), [False] * len(agents), [0] * len(agents)
    horizon = sum(call.service for call in calls) + max([call.arrive for call in calls], default=0)
    horizon += max([end for agent in agents for _, end in agent.intervals if end < 10**9], default=0)
    horizon += max([call.patience or 0 for call in calls], default=0) + 2

    def begin_waiting(now):
        while True:
            for at in sorted(waiting, key=rank.get):
                fit = [
                    place
                    for place, agent in enumerate(agents)
                    if there[place] and busy_until[place] <= now and (agent.queues is None or calls[at].queue in agent.queues)
                ]
                if fit:
                    break
            else:
                return
            place = min(fit) if choose == "first" else min(fit, key=lambda it: (free_since[it], it))
            outcomes[at] = Outcome(place + 1, now - calls[at].arrive)
            waiting.remove(at)
            busy_until[place] = now + calls[at].service
            if not calls[at].service:
                free_since[place] = now

    for now in range(horizon):
        for place, agent in enumerate(agents):
            if busy_until[place] == now:
                free_since[place] = now
            was = there[place]
            there[place] = any(begin <= now < end for begin, end in agent.intervals)
            if there[place] and not was:
                free_since[place] = max(now, busy_until[place])
        begin_waiting(now)
        for at in [at for at in waiting if calls[at].patience is not None and calls[at].arrive + calls[at].patience == now]:
            waiting.remove(at)
            outcomes[at] = Outcome(0, calls[at].patience)
        arrived = [at for at in coming if calls[at].arrive == now]
        coming.difference_update(arrived)
        waiting += arrived
        begin_waiting(now)
        for at in [at for at in arrived if at in waiting and calls[at].patience == 0]:
            waiting.remove(at)
            outcomes[at] = Outcome(0, 0)
    return [outcomes.get(at, Outcome(0, None)) for at in range(len(calls))]
