"""Runs commands side by side, each when those that it waits for have ended: first those with the longest chain of others behind
them, as many as the processors and the memory are enough for."""
import dataclasses
import os
import signal
import subprocess
import time
from collections.abc import Callable, Iterable, Iterator

# A command that has more jobs than these takes twice the processor time of one job, and hardly less wall time than with these.
MOST_JOBS = 2
# What a job beyond the first takes, as a part of the command's memory.
SHARE = 0.4


@dataclasses.dataclass(frozen=True)
class Task:
    """A command that may have several jobs: the names of those that it waits for, its processor seconds, its bytes of memory, and the
    most jobs that make it faster."""

    name: str
    waits: frozenset[str]
    seconds: float
    memory: int
    most_jobs: int = MOST_JOBS

    def needs(self, jobs: int) -> float:
        """The bytes of memory that it takes with so many jobs."""
        return self.memory * (1 + SHARE * (jobs - 1))


@dataclasses.dataclass(frozen=True)
class Running:
    task: Task
    jobs: int
    child: subprocess.Popen
    began: float


@dataclasses.dataclass(frozen=True)
class Ended:
    """What a command took: processor seconds, and the bytes of its largest process. Its exit status is negative where a signal ended
    it."""

    task: Task
    jobs: int
    status: int
    seconds: float
    wall_seconds: float
    bytes: int


def chains(tasks: Iterable[Task]) -> dict[str, float]:
    """The seconds of the longest chain of commands that begins with each: it, one that waits for it, and so on."""
    tasks = list(tasks)
    found = {}

    def chain(task: Task) -> float:
        if task.name not in found:
            behind = (chain(it) for it in tasks if task.name in it.waits)
            found[task.name] = task.seconds + max(behind, default=0)
        return found[task.name]

    for task in tasks:
        chain(task)
    return found


def choose(ready: list[Task], running: list[Running], cores: int, memory: float) -> list[tuple[Task, int]]:
    """The commands to start now, each with its number of jobs, of those that are ready, in their order. Each has one job where
    others wait for a processor. Processors for which no command waits go to second jobs."""
    used = sum(it.jobs for it in running)
    free = memory - sum(it.task.needs(it.jobs) for it in running)
    chosen = []
    for at, task in enumerate(ready):
        idle = cores - used
        if idle <= 0:
            break
        jobs = min(max(1, idle // (len(ready) - at)), task.most_jobs)
        while jobs > 1 and task.needs(jobs) > free:
            jobs -= 1
        if task.needs(jobs) <= free or not (running or chosen):
            chosen.append((task, jobs))
            used += jobs
            free -= task.needs(jobs)
    return chosen


def stop(running: Iterable[Running]) -> None:
    """Ends commands with all that they started."""
    for it in running:
        os.killpg(it.child.pid, signal.SIGKILL)
        it.child.wait()


def run(tasks: Iterable[Task], start: Callable[[Task, int], subprocess.Popen], cores: int, memory: float) -> Iterator[Ended]:
    """Starts each command, in a process group of its own, and yields what it took when it has ended. Whoever closes this, as
    after a failure, ends what still runs."""
    chain = chains(tasks)
    left = sorted(tasks, key=lambda it: -chain[it.name])
    running: dict[int, Running] = {}
    ended = set()
    try:
        while left or running:
            ready = [it for it in left if it.waits <= ended]
            for task, jobs in choose(ready, list(running.values()), cores, memory):
                left.remove(task)
                child = start(task, jobs)
                running[child.pid] = Running(task, jobs, child, time.monotonic())
            number, status, usage = os.wait4(-1, 0)
            it = running.pop(number)
            it.child.returncode = os.waitstatus_to_exitcode(status)
            ended.add(it.task.name)
            seconds, wall = usage.ru_utime + usage.ru_stime, time.monotonic() - it.began
            yield Ended(it.task, it.jobs, it.child.returncode, seconds, wall, 1024 * usage.ru_maxrss)
    finally:
        stop(running.values())
