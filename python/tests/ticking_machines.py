"""Simulates machines in a row that break down, tick by tick, with a counter of the work left per job: it uses no recurrence and shares no code with
the package."""

from collections import deque


class _Job:
    def __init__(self, number, services):
        self.number, self.services, self.left, self.is_finished = number, services, None, False


def ticking(jobs, places, downs, room=None):
    """Returns, per job, when it leaves each machine (list of int), or None if it is lost.

    `jobs` are pairs of a time of arrival and the service times, one per machine, in order of arrival. Machine k + 2 has room for `places[k]` jobs;
    `downs` has per machine the pairs of ticks from which and until which it does no work. With `room`, a job that finds so many at the first machine
    is lost.
    """
    coming, last = deque(enumerate(jobs)), len(places)
    machines, ends, now = [[] for _ in range(last + 1)], [[] for _ in jobs], 0
    limits = [None, *places]

    def is_down(machine):
        return any(begin <= now < end for begin, end in downs[machine])

    def settle():
        """Lets jobs begin, finish and move on until nothing changes at this moment."""
        changed = True
        while changed:
            changed = False
            for machine, here in enumerate(machines):
                head = here[0] if here else None
                if head and head.left is None and not is_down(machine):
                    head.left, changed = head.services[machine], True
                if head and head.left == 0 and not head.is_finished:
                    head.is_finished, changed = True, True
                if head and head.is_finished and (machine == last or len(machines[machine + 1]) < limits[machine + 1]):
                    ends[head.number].append(now)
                    here.pop(0)
                    head.left, head.is_finished, changed = None, False, True
                    if machine < last:
                        machines[machine + 1].append(head)

    while coming or any(machines):
        settle()
        while coming and coming[0][1][0] == now:
            number, (_, services) = coming.popleft()
            if room is not None and len(machines[0]) == room:
                ends[number] = None
            else:
                machines[0].append(_Job(number, services))
                settle()
        for machine, here in enumerate(machines):
            if here and here[0].left and not is_down(machine):
                here[0].left -= 1
                # Work that is done by the end of the tick is done, whatever the next tick brings.
                here[0].is_finished = here[0].left == 0
        now += 1
    return ends
