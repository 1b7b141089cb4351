"""Batches at ovens, in two ways that share no code with the package: a check of each rule in what is given, which only compares times, and a
simulation that advances tick by tick."""


def broken(arrivals, numbers, waits, oven):
    """Returns the names of the rules (set of str) that the batch (from 1) and the wait of each unit break, in order of arrival."""
    rules, batches = set(), {}
    if len(numbers) != len(arrivals) or len(waits) != len(arrivals):
        return {"a batch per unit"}
    for at, number in enumerate(numbers):
        batches.setdefault(number, []).append(at)
    if [at for number in sorted(batches) for at in batches[number]] != list(range(len(arrivals))) or list(batches) != [*range(1, len(batches) + 1)]:
        rules.add("order")
    if any(len(units) > oven.size for units in batches.values()):
        rules.add("size")
    if any(wait < 0 for wait in waits):
        rules.add("begins before it arrives")
    begins = {number: {arrivals[at] + waits[at] for at in units} for number, units in batches.items()}
    if any(len(times) > 1 for times in begins.values()):
        return rules | {"begins together"}
    begins = {number: times.pop() for number, times in begins.items()}

    def inside(tick, but):
        return sum(begin <= tick < begin + oven.ticks for number, begin in begins.items() if number != but)

    for number, units in batches.items():
        begin, first, rest = begins[number], units[0], arrivals[units[0] :]
        if inside(begin, number) >= oven.ovens:
            rules.add("one batch at a time")
        later = [at for at in range(len(arrivals)) if arrivals[at] <= begin and at > units[-1]]
        if len(units) < oven.size and later:
            rules.add("takes all that are there")
        # From when on could it have begun?
        ready = [rest[oven.size - 1]] if len(rest) >= oven.size else [arrivals[-1]] if oven.last else []
        ready += [arrivals[first] + oven.wait_at_most] if oven.wait_at_most is not None else []
        if not ready or begin < min(ready):
            rules.add("begins too early")
        elif any(inside(tick, number) < oven.ovens for tick in range(min(ready), begin)):
            rules.add("waits while an oven is empty")
    return rules


def ticking(arrivals, oven):
    """Returns the batch (from 1) and the wait of each unit, by a clock that advances tick by tick; None for units that never begin."""
    numbers, waits = [None] * len(arrivals), [None] * len(arrivals)
    coming, there, left, count, now = list(range(len(arrivals))), [], [0] * oven.ovens, 0, 0
    while coming or there:
        while coming and arrivals[coming[0]] == now:
            there.append(coming.pop(0))
        while there and 0 in left:
            is_late = oven.wait_at_most is not None and now - arrivals[there[0]] >= oven.wait_at_most
            if len(there) < oven.size and not is_late and not (oven.last and not coming):
                break
            count += 1
            for at in there[: oven.size]:
                numbers[at], waits[at] = count, now - arrivals[at]
            there = there[oven.size :]
            left[left.index(0)] = oven.ticks
        if not coming and oven.wait_at_most is None and not oven.last and len(there) < oven.size:
            break
        left = [max(0, ticks - 1) for ticks in left]
        now += 1
    return numbers, waits
