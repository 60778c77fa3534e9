"""Runs tasks that stand on one another side by side: first the one with the most work in the longest chain from it on.

A task may take several jobs, and then ends sooner, for more work in all. It gets as many as its chain needs to end with
the rest of the work, and those that no other task waits for.
"""

from __future__ import annotations

import dataclasses
from collections.abc import Iterable
from concurrent.futures import FIRST_COMPLETED, Future, ThreadPoolExecutor, wait
from typing import Protocol

# How much sooner a check ends with 1, 2, 3 and 4 jobs. (Measured with 1 and 4: 199 seconds, and 76.)
SPEED = (1.0, 1.7, 2.2, 2.6)
# What each further job takes of the memory of the first.
MORE_MEMORY = 0.4


@dataclasses.dataclass(frozen=True)
class Task:
    """What is to be done: its name, the names of those that have to end well before, minutes of one processor, octets
    of memory, and the most jobs that it can use."""

    name: str
    after: tuple[str, ...]
    minutes: float
    memory: int = 0
    most_jobs: int = 1

    def memory_of(self, jobs: int) -> int:
        """The memory that it takes with so many jobs."""
        return round(self.memory * (1 + MORE_MEMORY * (jobs - 1)))


@dataclasses.dataclass(frozen=True)
class Room:
    """What a machine has for tasks."""

    processors: int
    memory: int


def chains(tasks: Iterable[Task]) -> dict[str, float]:
    """The minutes of each task and of the longest chain of those that wait for it."""
    every = {it.name: it for it in tasks}
    above: dict[str, list[str]] = {name: [] for name in every}
    for task in every.values():
        for name in task.after:
            above[name].append(task.name)
    found: dict[str, float] = {}

    def chain(name: str) -> float:
        if name not in found:
            found[name] = every[name].minutes + max((chain(it) for it in above[name]), default=0.0)
        return found[name]

    return {name: chain(name) for name in every}


class Schedule:
    """Tasks, those of them that run, and how the others ended."""

    def __init__(self, tasks: Iterable[Task], room: Room) -> None:
        self.room, self.waiting = room, {it.name: it for it in tasks}
        self.chain = chains(self.waiting.values())
        self.running: dict[str, tuple[Task, int]] = {}
        self.ended: dict[str, bool] = {}

    def is_over(self) -> bool:
        """Whether nothing is left to begin or to wait for."""
        return not self.waiting and not self.running

    def end(self, name: str, is_well: bool) -> list[str]:
        """Notes how a task ended, and returns those that will not begin since it did not end well."""
        del self.running[name]
        self.ended[name] = is_well
        lost: list[str] = []
        while True:
            more = [
                it.name for it in self.waiting.values() if any(self.ended.get(below) is False for below in it.after)
            ]
            if not more:
                return lost
            for it in more:
                del self.waiting[it]
                self.ended[it] = False
            lost += more

    def begin(self) -> list[tuple[Task, int]]:
        """The tasks that begin now, each with its jobs."""
        begun: list[tuple[Task, int]] = []
        ready = [it for it in self.waiting.values() if all(self.ended.get(below) for below in it.after)]
        ready.sort(key=lambda it: -self.chain[it.name])
        for at, task in enumerate(ready):
            jobs = self.jobs_of(task, len(ready) - at - 1)
            if jobs:
                del self.waiting[task.name]
                self.running[task.name] = task, jobs
                begun.append((task, jobs))
        return begun

    def jobs_of(self, task: Task, others: int) -> int:
        """The jobs that a task gets if it begins now, before so many others, or 0 if there is no room for it."""
        idle = self.room.processors - sum(jobs for _, jobs in self.running.values())
        free = self.room.memory - sum(it.memory_of(jobs) for it, jobs in self.running.values())
        jobs = min(task.most_jobs, len(SPEED), idle, max(self.jobs_needed(task), idle - others))
        while jobs > 1 and task.memory_of(jobs) > free:
            jobs -= 1
        # (a task that is alone begins, however little memory there is)
        return jobs if jobs > 0 and (task.memory_of(jobs) <= free or not self.running) else 0

    def jobs_needed(self, task: Task) -> int:
        """The least jobs with which the chain from a task on ends by the time that all work that is left takes here."""
        left = sum(it.minutes for it in self.waiting.values()) + sum(it.minutes for it, _ in self.running.values())
        enough = (
            jobs for jobs, speed in enumerate(SPEED, 1) if self.chain[task.name] / speed <= left / self.room.processors
        )
        return next(enough, len(SPEED))


class Runner(Protocol):
    """What does tasks."""

    def start(self, task: Task, jobs: int) -> bool:
        """Does a task with so many jobs, and returns whether those that wait for it can begin."""

    def lose(self, name: str) -> None:
        """Is told of a task that will not begin, since one below it did not end well."""

    def stop(self) -> None:
        """Ends all that is being done: whoever runs the tasks is stopped."""


def run(tasks: Iterable[Task], room: Room, runner: Runner) -> dict[str, bool]:
    """Runs tasks, and returns which ended well."""
    schedule, running = Schedule(tasks, room), dict[Future[bool], str]()
    with ThreadPoolExecutor(max(room.processors, 1)) as pool:
        try:
            while not schedule.is_over():
                for task, jobs in schedule.begin():
                    running[pool.submit(runner.start, task, jobs)] = task.name
                for done in wait(running, return_when=FIRST_COMPLETED).done:
                    for lost in schedule.end(running.pop(done), done.result()):
                        runner.lose(lost)
        except BaseException:
            runner.stop()
            raise
    return schedule.ended
