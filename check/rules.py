"""The queueing rules of docs/MODEL.md's recipes, as simulations that advance tick by tick: they use no recurrence, and share no code with a
recipe."""
import collections
import random

# A job on arrival at a queue; with `back` it returns once, for that service time.
Job = collections.namedtuple("Job", "time number demand urgent back", defaults=(False, 0))


def drawn(seed, sources, *ranges, jobs=40):
    """Draws rows of jobs, many of them at equal times: a source, a time and a number from each range."""
    draw, now, rows = random.Random(seed), 0, []
    for _ in range(jobs):
        now += draw.choice([0, 0, 1, 2, 3])
        rows.append((draw.choice(sources), now, *(draw.randint(*ends) for ends in ranges)))
    return rows


def queued(rows, inputs, **more):
    """Returns the jobs of a trace in order of arrival: by time, then by the order of the inputs, then as in the file."""
    order = sorted(range(len(rows)), key=lambda i: (rows[i][1], inputs.index(rows[i][0])))
    return [Job(rows[i][1], i + 1, rows[i][2], **{name: of(rows[i]) for name, of in more.items()}) for i in order]


def simulated(jobs, servers=1, urgent_first=False, places=None):
    """Simulates tick by tick, and returns the wait and the departure of each job at one queue with this many servers; None if all places are taken.

    A finished job leaves before another arrives. One with `back` returns when it leaves, after the arrivals of that moment, with that service time
    and the number -number.
    """
    comes, line, busy, ends, now = collections.deque(jobs), [], [], {}, 0
    while comes or line or busy:
        back = [Job(now, -job.number, job.back) for job, until in busy if until == now and job.back]
        busy = [(job, until) for job, until in busy if until > now]
        while comes and comes[0].time == now or back:
            job = comes.popleft() if comes and comes[0].time == now else back.pop(0)
            if places is not None and len(line) + len(busy) >= places:
                ends[job.number] = None
            else:
                line.append(job)
        while line and len(busy) < servers:
            job = next((job for job in line if urgent_first and job.urgent), line[0])
            line.remove(job)
            ends[job.number] = (now - job.time, now + job.demand)
            busy += [(job, now + job.demand)] if job.demand else []
        now += 1
    return ends


def in_line(parts, places):
    """Simulates machines in a row tick by tick, and returns when each part leaves each machine: a dict of lists by number.

    `parts` are pairs of a time of arrival and the service times, one per machine, in order of arrival; they are numbered from 1. Machine k + 2 has
    room for `places[k]` parts, including the one in work; the first has unlimited room. A finished part stays at its machine until the next has a
    place, and no other part begins there.
    """
    comes, last = collections.deque(enumerate(parts, 1)), len(places)
    rooms, ends, now = [[] for _ in range(last + 1)], {number: [] for number, _ in enumerate(parts, 1)}, 0
    while any(len(ends[number]) <= last for number in ends):
        moves = True
        while moves:
            moves = False
            # The first in a room is at the machine; what is left of its work is 0 if it is finished.
            for k, room in enumerate(rooms):
                if room and room[0][1][0] == 0 and (k == last or len(rooms[k + 1]) < places[k]):
                    number, (_, *further) = room.pop(0)
                    ends[number].append(now)
                    if k < last:
                        rooms[k + 1].append((number, further))
                    moves = True
            if comes and comes[0][1][0] <= now and not rooms[0]:
                number, (_, services) = comes.popleft()
                rooms[0].append((number, list(services)))
                moves = True
        for room in rooms:
            if room and room[0][1][0]:
                room[0][1][0] -= 1
        now += 1
    return ends
