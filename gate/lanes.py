"""Tasks side by side: as many as there are threads, each once those that it waits for are done, and first the most urgent."""
import os
from concurrent.futures import FIRST_COMPLETED, ThreadPoolExecutor, wait
from dataclasses import dataclass, field
from typing import Callable

# How many threads a proof can use well, at most.
MOST = 4


@dataclass
class Task:
    """A call that gets how many threads it may use, and gives further tasks; it waits for tasks by their names. One that is idle
    only waits for something else, and needs no thread."""

    rank: tuple
    call: Callable
    name: str = ""
    after: set = field(default_factory=set)
    is_idle: bool = False


def share(task, free, ready):
    """How many of the free threads a task gets beside `ready` others that are ready."""
    if task.is_idle:
        return 0
    return min(MOST, max(1, free // (ready + 1))) if task.name else 1


def run(tasks, jobs):
    """Runs tasks and those that they give; what waits for others gets the threads that nothing else can use."""
    left, running, done, free = list(tasks), {}, set(), jobs
    with ThreadPoolExecutor(jobs + sum(it.is_idle for it in tasks)) as pool:
        while left or running:
            ready = sorted((it for it in left if it.after <= done), key=lambda it: (not it.is_idle, it.rank))
            while ready and (free > 0 or ready[0].is_idle):
                task = ready.pop(0)
                taken = share(task, free, len(ready))
                left.remove(task)
                running[pool.submit(task.call, taken)] = task, taken
                free -= taken
            if not running:
                raise RuntimeError(f"{left[0].name} waits for what no task is")
            for future in wait(running, return_when=FIRST_COMPLETED).done:
                task, taken = running.pop(future)
                free += taken
                left += future.result()
                done.add(task.name)


def threads():
    """How many threads this program may use."""
    return len(os.sched_getaffinity(0))
