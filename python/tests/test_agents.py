"""Groups of agents: compared with a checker of the rules, with a simulation tick by tick, with the pool, and with formulas of queueing theory.

By hand, `python3 python/tests/test_agents.py random 10000 [SEED]` compares this many random groups."""

import doctest
import math
import random
import sys
import unittest

from ground import Test
from rules_of_agents import broken
from test_pool import erlang_c
from ticking_agents import ticking

import mpsim.agents
from mpsim.agents import FIRST, LONGEST_IDLE, Agent, Call, Group, Outcome
from mpsim.agents.queues import pool

QUEUES = "mail", "phone", "chat"


def drawn(draw):
    """Returns a small random group and its calls: agents, calls, priorities and the choice."""
    agents = []
    for _ in range(draw.randrange(0, 5)):
        at, intervals = draw.choice([0, 0, draw.randrange(12)]), []
        for _ in range(draw.randrange(0, 4)):
            end = at + draw.randrange(1, 15)
            intervals.append((at, end))
            at = end + draw.choice([0, 1, draw.randrange(9)])
        queues = None if draw.random() < 0.4 else draw.sample(QUEUES, draw.randrange(0, 4))
        agents.append(Agent(queues=queues) if draw.random() < 0.3 else Agent(intervals, queues))
    span, longest = draw.choice([1, 8, 40]), draw.choice([1, 4, 15])
    most = draw.choice([None, 3, 12])
    calls = []
    for _ in range(draw.randrange(0, 14)):
        patience = None if most is None or draw.random() < 0.3 else draw.randrange(most)
        calls.append(Call(draw.randrange(span), draw.randrange(longest + 1), draw.choice(QUEUES), patience))
    if draw.random() < 0.7:
        calls.sort(key=lambda call: call.arrive)
    priorities = {queue: draw.randrange(2) for queue in draw.sample(QUEUES, draw.randrange(0, 4))}
    return agents, calls, priorities, draw.choice([FIRST, LONGEST_IDLE])


def compared(count, seed):
    """Compares random groups. Returns the first that differs and how, or None."""
    draw = random.Random(seed)
    for number in range(count):
        agents, calls, priorities, choose = drawn(draw)
        outcomes = Group(agents, priorities, choose).serve(calls)
        if rules := broken(agents, calls, outcomes, priorities, choose):
            return number, sorted(rules), agents, calls, priorities, choose, outcomes
        if outcomes != (other := ticking(agents, calls, priorities, choose)):
            return number, other, agents, calls, priorities, choose, outcomes
    return None


def erlang_a(agents, rate, service, patience):
    """Returns the share of callers who leave, for exponential services and patience with these means and arrivals at this rate: the stationary
    distribution of a birth-and-death chain."""
    weights, states = [1.0], [0]
    while states[-1] < agents or weights[-1] > 1e-15 * max(weights):
        number = states[-1] + 1
        weights.append(weights[-1] * rate / (min(number, agents) / service + max(number - agents, 0) / patience))
        states.append(number)
    leaving = sum(weight * max(number - agents, 0) / patience for number, weight in zip(states, weights))
    return leaving / sum(weights) / rate


class Small(Test):
    def test_docstrings(self):
        self.assertEqual(doctest.testmod(mpsim.agents)[0], 0)

    def test_breaks(self):
        """The call goes on into the break, which isn't shifted; who waits is served at the end of the break."""
        group = Group([Agent([(0, 10), (15, 30)])])
        calls = [Call(0, 8), Call(1, 4), Call(2, 1), Call(29, 9)]
        self.assertEqual(group.serve(calls), [(1, 0), (1, 7), (1, 13), (1, 0)])
        # A call that lasts beyond the beginning of the next interval.
        self.assertEqual(Group([Agent([(0, 10), (15, 30)])]).serve([Call(9, 8), Call(10, 1)]), [(1, 0), (1, 7)])
        # Nobody comes any more.
        self.assertEqual(group.serve([Call(29, 9), Call(29, 1), Call(40, 1, patience=5)]), [(1, 0), (0, None), (0, 5)])

    def test_patience(self):
        """A caller is still served at the tick at which patience ends, and not at the next."""
        for patience, outcome in (3, (0, 3)), (4, (1, 4)), (5, (1, 4)), (0, (0, 0)):
            self.assertEqual(Group([Agent()]).serve([Call(0, 5), Call(1, 2, patience=patience)])[1], outcome)

    def test_priorities(self):
        agents = [Agent()]
        calls = [Call(0, 9, "mail"), Call(1, 9, "mail"), Call(2, 5, "phone"), Call(3, 5, "chat")]
        waits = [it.wait for it in Group(agents, {"phone": 1, "mail": 2}).serve(calls)]
        self.assertEqual(waits, [0, 13, 7, 20])
        self.assertEqual([it.wait for it in Group(agents).serve(calls)], [0, 8, 16, 20])

    def test_who_takes_a_call(self):
        calls = [Call(0, 1), Call(2, 5), Call(20, 1)]
        self.assertEqual([it.agent for it in Group([Agent()] * 2).serve(calls)], [1, 2, 1])
        self.assertEqual([it.agent for it in Group([Agent()] * 2, choose=FIRST).serve(calls)], [1, 1, 1])
        # Free since the break, and not since the last call.
        agents = [Agent([(0, 5), (10, 40)]), Agent()]
        self.assertEqual([it.agent for it in Group(agents).serve([Call(0, 2), Call(0, 7), Call(20, 1)])], [1, 2, 2])

    def test_what_is_rejected(self):
        for agents, why in ([Agent([(5, 5)])], "is empty"), ([Agent(), Agent([(0, 5), (4, 9)])], "agent 2: .* begins before the one"):
            self.assertRaisesRegex(ValueError, why, Group, agents)
        self.assertRaisesRegex(ValueError, "expected 'longest-idle' or 'first'", Group, [], choose="last")
        for call, why in (Call(0, -1), "service time is negative: -1"), (Call(0, 1, patience=-2), "patience is negative: -2"):
            self.assertRaisesRegex(ValueError, why, Group([Agent()]).serve, [call])

    def test_nobody_and_nothing(self):
        self.assertEqual(Group([Agent()]).serve([]), [])
        self.assertEqual(Group([]).serve([Call(0, 1), Call(0, 1, patience=2)]), [Outcome(0, None), Outcome(0, 2)])


class Compared(Test):
    def test_random_groups(self):
        self.assertIsNone(compared(3000, 1))

    def test_the_pool(self):
        """With agents who are always there, one queue and no patience: the agents and the waits of the pool, in both kinds of order."""
        draw = random.Random(4)
        for number in range(1000):
            agents, span, longest = draw.randrange(1, 9), draw.choice([5, 60, 400]), draw.choice([1, 6, 40])
            arrivals = [draw.randrange(span) for _ in range(60)]
            services = [draw.randrange(longest) for _ in range(60)]
            if number % 2:
                arrivals.sort()
            want = pool(arrivals, services, agents)
            self.assertEqual(Group([Agent()] * agents).assigned(arrivals, services), want)
            # One interval each, and one queue that all serve.
            group = Group([Agent([(0, 10**6)], ["desk"])] * agents, {"desk": 1})
            self.assertEqual(group.assigned(arrivals, services, ["desk"] * 60, [None] * 60), want)

    def test_the_checker_sees_each_rule(self):
        """Outcomes that are wrong in one way."""
        agents = [Agent([(0, 9), (20, 90)], ["a"]), Agent([(0, 90)], ["b"])]
        calls = [Call(0, 4, "a"), Call(1, 4, "a", 9), Call(2, 4, "a"), Call(2, 4, "b")]
        right = Group(agents).serve(calls)
        self.assertEqual((right, broken(agents, calls, right)), ([(1, 0), (1, 3), (1, 6), (2, 0)], set()))
        for outcomes, rule in [
            ([(1, 0), (1, 3), (1, 6)], "an outcome per call"),
            ([(1, 0), (1, 3), (1, 6), (3, 0)], "an outcome per call"),
            ([(1, 0), (1, 3), (2, 6), (2, 0)], "queues"),
            ([(1, 0), (1, 3), (1, 7), (2, 0)], "begins inside an interval"),
            ([(1, 0), (1, 2), (1, 6), (2, 0)], "one call at a time"),
            ([(1, 0), (1, 3), (1, 18), (2, 0)], "nobody waits while a fit agent is free"),
            ([(1, 0), (1, 7), (1, 2), (2, 0)], "order"),
            ([(1, 0), (1, 19), (1, 2), (2, 0)], "patience"),
            ([(1, 0), (0, 8), (1, 2), (2, 0)], "patience"),
        ]:
            self.assertIn(rule, broken(agents, calls, [Outcome(*it) for it in outcomes]))
        # The agent is free again at tick 1, before the call of better priority arrives.
        three = [Call(0, 1, "chat"), Call(0, 5, "phone"), Call(1, 9, "chat")]
        self.assertEqual(broken([Agent()], three, [Outcome(1, 0), Outcome(1, 10), Outcome(1, 0)], {"chat": 1}), {"order"})
        self.assertEqual(broken([Agent()], three, [Outcome(1, 0), Outcome(1, 1), Outcome(1, 5)], {"chat": 1}), set())
        # At one tick, after a call of better priority that takes time.
        both = [Call(0, 0, "phone"), Call(0, 1, "chat")]
        self.assertEqual(broken([Agent()], both, [Outcome(1, 0), Outcome(1, 0)], {"chat": 1}), {"one call at a time"})
        two = [Agent(), Agent()]
        self.assertEqual(broken(two, [Call(0, 1), Call(5, 1)], [Outcome(1, 0), Outcome(1, 0)]), {"choice"})
        self.assertEqual(broken(two, [Call(0, 1), Call(5, 1)], [Outcome(1, 0), Outcome(2, 0)], choose=FIRST), {"choice"})


class Theory(Test):
    """Random calls in 30 batches, which give a standard error, with fixed seeds: within three of them."""

    def judged(self, values, want):
        size = len(values) // 31
        means = [sum(values[number * size : (number + 1) * size]) / size for number in range(1, 31)]
        mean = sum(means) / 30
        error = math.sqrt(sum((it - mean) ** 2 for it in means) / 29 / 30)
        self.assertLess(abs(mean - want), 3 * error)
        self.assertLess(error, want / 8)

    def calls(self, rate, count, seed):
        draw, time, service = random.Random(seed), 0.0, 10000
        arrivals, services, more = [], [], []
        for _ in range(count):
            time += draw.expovariate(rate)
            arrivals.append(int(time))
            services.append(round(draw.expovariate(1 / service)))
            more.append(draw.random())
        return arrivals, services, more

    def test_erlang_c(self):
        agents, load, service = 10, 8.5, 10000
        arrivals, services, _ = self.calls(load / service, 62000, 11)
        _, waits = Group([Agent()] * agents).assigned(arrivals, services)
        share = erlang_c(agents, load)
        self.judged([wait > 0 for wait in waits], share)
        self.judged(waits, share * service / (agents - load))
        self.judged([wait <= 2000 for wait in waits], 1 - share * math.exp(-(agents - load) * 2000 / service))

    def test_erlang_a(self):
        """Also with more work than the agents could do if nobody left."""
        for agents, load, patience in (10, 9.0, 5000), (5, 6.5, 20000):
            arrivals, services, more = self.calls(load / 10000, 62000, agents)
            who, waits = Group([Agent()] * agents).assigned(arrivals, services, None, [round(-patience * math.log(1 - it)) for it in more])
            left = erlang_a(agents, load / 10000, 10000, patience)
            self.judged([agent == 0 for agent in who], left)
            # By Little's law: callers leave at the rate 1 / patience while they wait.
            self.judged(waits, left * patience)

    def test_two_classes(self):
        """Cobham's formula for two priorities of the same services, without interruption."""
        agents, load, service = 4, 3.4, 10000
        arrivals, services, more = self.calls(load / service, 93000, 5)
        queues = ["phone" if it < 0.4 else "mail" for it in more]
        _, waits = Group([Agent()] * agents, {"phone": 1, "mail": 2}).assigned(arrivals, services, queues)
        before = erlang_c(agents, load) * service / agents
        first = 1 - 0.4 * load / agents
        self.judged([wait for wait, queue in zip(waits, queues) if queue == "phone"], before / first)
        self.judged([wait for wait, queue in zip(waits, queues) if queue == "mail"], before / first / (1 - load / agents))


if __name__ == "__main__":
    if sys.argv[1:2] == ["random"]:
        found = compared(int(sys.argv[2]), int((sys.argv[3:] or [1])[0]))
        sys.exit(0 if found is None else str(found))
    unittest.main()
