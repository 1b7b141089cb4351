"""Serves calls with a group of agents: rosters, several queues, priorities, patience, and the choice among free agents.

>>> from mpsim.agents import Agent, Call, Group
>>> group = Group([Agent([(0, 60)]), Agent([(30, 60)])])
>>> for outcome in group.serve([Call(0, 50), Call(10, 50), Call(20, 5, patience=15)]):
...     print(outcome)
Outcome(agent=1, wait=0)
Outcome(agent=2, wait=20)
Outcome(agent=0, wait=15)

All times are whole ticks. A group follows these rules:

- A call begins with an agent who is free, is inside an interval of the roster, and serves the queue of the call.
- A call that has begun is completed, even if the agent's interval ends before it does. Later intervals don't move.
- The next call is the one whose queue has the best priority, then the one that arrived first, then the one that is first in the list.
- The agent is the one who has been free longest, or the first in the roster. Ties go to the first in the roster. An agent is free from the end of a
  call or the beginning of an interval, whichever is later.
- A caller leaves at the tick `arrive + patience` unless the call has begun by then.
- Within a tick: calls end; intervals end; intervals begin; waiting calls begin; callers leave; calls arrive; waiting calls begin; callers without any
  patience leave. So an agent who becomes free at the tick at which a caller's patience ends still serves that caller.

With one queue, no patience, and agents who are always there, these are the rules of `mpsim.agents.queues.pool`. The module is tested, not proved.
"""

from ..limits import FOREVER
from .groups import FIRST, LONGEST_IDLE, Agent, Call, Group, Outcome

__all__ = ["FIRST", "FOREVER", "LONGEST_IDLE", "Agent", "Call", "Group", "Outcome"]
