"""Runs several tasks at once, each of which waits for a program, and gives their results in order."""

from __future__ import annotations

from collections import deque
from typing import TYPE_CHECKING, TypeVar

from .limits import MODELS

if TYPE_CHECKING:
    from collections.abc import Callable, Generator, Iterable
    from concurrent.futures import Future

Item = TypeVar("Item")
# What this process keeps open besides models, and what a call of a program does.
OWN, A_CALL = 32, 8


def models_per_call(processes: int) -> int:
    """Returns how many models each of this many (int) calls of mpsweep takes (int): each is an open file, of which the system allows so many."""
    import resource

    most = resource.getrlimit(resource.RLIMIT_NOFILE)[0]
    return MODELS if most == resource.RLIM_INFINITY else max(1, min(MODELS, (most - OWN) // max(processes, 1) - A_CALL))


def in_order(tasks: Iterable[Callable[[], Iterable[Item]]], processes: int) -> Generator[Item, None, None]:
    """Yields the items of each task, in the order of the tasks, of which this many (int) run at once. Each task is a function that takes nothing and
    returns its items, and at most one result per process is kept before its turn. The first error is raised in its turn; no further task begins then,
    nor if the generator is closed, and those that run are waited for. Raises ValueError for a number below 1.

    >>> from functools import partial
    >>> list(in_order([partial(range, 2), partial(range, 5, 7)], 2))
    [0, 1, 5, 6]
    """
    if processes < 1:
        raise ValueError(f"processes={processes}: expected 1 or more")
    if processes == 1:
        for task in tasks:
            yield from task()
        return
    from concurrent.futures import ThreadPoolExecutor

    # The programs are processes of their own, so threads suffice to wait for them.
    with ThreadPoolExecutor(processes) as pool:
        waiting: deque[Future[list[Item]]] = deque()
        try:
            for task in tasks:
                waiting.append(pool.submit(lambda task=task: list(task())))
                if len(waiting) > processes:
                    yield from waiting.popleft().result()
            while waiting:
                yield from waiting.popleft().result()
        finally:
            for left in waiting:
                left.cancel()
