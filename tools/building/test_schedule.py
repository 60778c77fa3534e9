"""Tests of the schedule, over graphs that are made up: nothing is proved."""

from __future__ import annotations

import random
import threading
import unittest
from collections.abc import Callable

from building.schedule import SPEED, Room, Schedule, Task, chains, run

MUCH = 10**12


def time_of(tasks: list[Task], room: Room) -> float:
    """The minutes that tasks take by the clock, if each ends as its work and its jobs say. Asks that the room is never
    left."""
    schedule, left, now = Schedule(tasks, room), dict[str, float](), 0.0
    while not schedule.is_over():
        left |= {task.name: task.minutes / SPEED[jobs - 1] for task, jobs in schedule.begin()}
        jobs = sum(jobs for _, jobs in schedule.running.values())
        memory = sum(task.memory_of(jobs) for task, jobs in schedule.running.values())
        assert left and jobs <= room.processors and (memory <= room.memory or len(left) == 1)
        step = min(left.values())
        now, left = now + step, {name: it - step for name, it in left.items()}
        for name in [it for it in left if left[it] <= 1e-9]:
            del left[name]
            schedule.end(name, True)
    return now


def chain_and_rest() -> list[Task]:
    """A chain of ten tasks of six minutes, and forty others of two that only its first waits for none of."""
    chain = [Task(f"chain{it}", (f"chain{it - 1}",) if it else (), 6.0, 1, 4) for it in range(10)]
    return [*chain, *(Task(f"rest{it}", ("chain0",), 2.0, 1, 4) for it in range(40))]


class OfChains(unittest.TestCase):
    """How long the chain from a task on is."""

    def test_chain_goes_up(self) -> None:
        found = chains(
            [Task("low", (), 3), Task("left", ("low",), 1), Task("right", ("low",), 5), Task("top", ("left",), 2)]
        )
        self.assertEqual(found, {"low": 8, "left": 3, "right": 5, "top": 2})


class OfSchedule(unittest.TestCase):
    """What begins, and with how many jobs."""

    def test_longest_chain_begins_first(self) -> None:
        tasks = [Task("short", (), 5), Task("long", (), 1), Task("top", ("long",), 9)]
        begun = Schedule(tasks, Room(1, MUCH)).begin()
        self.assertEqual([task.name for task, _ in begun], ["long"])

    def test_nothing_begins_before_what_it_waits_for(self) -> None:
        schedule = Schedule([Task("low", (), 1), Task("high", ("low",), 1)], Room(4, MUCH))
        self.assertEqual([task.name for task, _ in schedule.begin()], ["low"])
        self.assertEqual(schedule.begin(), [])
        schedule.end("low", True)
        self.assertEqual([task.name for task, _ in schedule.begin()], ["high"])
        schedule.end("high", True)
        self.assertTrue(schedule.is_over())

    def test_what_holds_the_chain_up_gets_jobs(self) -> None:
        schedule = Schedule(chain_and_rest(), Room(4, MUCH))
        self.assertEqual([(task.name, jobs) for task, jobs in schedule.begin()], [("chain0", 4)])
        schedule.end("chain0", True)
        found = {task.name: jobs for task, jobs in schedule.begin()}
        self.assertGreaterEqual(found["chain1"], 2)
        self.assertEqual(sum(found.values()), 4)

    def test_a_chain_that_ends_in_time_gets_one_job(self) -> None:
        tasks = [Task(f"alone{it}", (), 5.0, 1, 4) for it in range(20)]
        self.assertEqual([jobs for _, jobs in Schedule(tasks, Room(4, MUCH)).begin()], [1, 1, 1, 1])

    def test_what_is_alone_gets_all_that_it_can_use(self) -> None:
        self.assertEqual([jobs for _, jobs in Schedule([Task("a", (), 5.0, 1, 4)], Room(8, MUCH)).begin()], [4])
        self.assertEqual([jobs for _, jobs in Schedule([Task("a", (), 5.0, 1, 1)], Room(8, MUCH)).begin()], [1])

    def test_memory_bounds_what_runs(self) -> None:
        tasks = [Task(name, (), 5.0, 3) for name in "abc"]
        self.assertEqual(len(Schedule(tasks, Room(4, 7)).begin()), 2)
        self.assertEqual(Schedule([Task("a", (), 5.0, 10, 4)], Room(4, 14)).begin()[0][1], 2)

    def test_one_task_begins_with_too_little_memory(self) -> None:
        self.assertEqual(
            [jobs for _, jobs in Schedule([Task("a", (), 5.0, 9, 4), Task("b", (), 1.0, 9)], Room(4, 1)).begin()], [1]
        )

    def test_what_waits_for_a_failure_is_lost(self) -> None:
        schedule = Schedule(
            [Task("low", (), 1), Task("high", ("low",), 1), Task("top", ("high",), 1), Task("other", (), 1)],
            Room(1, MUCH),
        )
        schedule.begin()
        self.assertEqual(sorted(schedule.end("low", False)), ["high", "top"])
        self.assertEqual([task.name for task, _ in schedule.begin()], ["other"])

    def test_work_is_divided_by_the_processors(self) -> None:
        tasks = chain_and_rest()
        work = sum(it.minutes for it in tasks)
        self.assertLessEqual(time_of(tasks, Room(4, MUCH)), 1.25 * work / 4)
        self.assertEqual(time_of([Task(it.name, it.after, it.minutes) for it in tasks], Room(4, MUCH)), 60.0)

    def test_random_graphs_end(self) -> None:
        for seed in range(200):
            chance = random.Random(seed)
            tasks = [
                Task(
                    str(it),
                    tuple(str(below) for below in range(it) if chance.random() < 0.15),
                    chance.uniform(0.1, 9),
                    chance.randint(1, 5),
                    4,
                )
                for it in range(chance.randint(1, 40))
            ]
            room = Room(chance.randint(1, 8), chance.randint(1, 20))
            work, longest = sum(it.minutes for it in tasks), max(chains(tasks).values())
            self.assertLessEqual(time_of(tasks, room), work + 1e-6)
            self.assertGreaterEqual(time_of(tasks, room) * SPEED[-1] + 1e-6, longest)


class Fake:
    """Does tasks by a call, and notes those that are lost."""

    def __init__(self, call: Callable[[Task, int], bool]) -> None:
        self.start, self.lost, self.is_stopped = call, list[str](), False

    def lose(self, name: str) -> None:
        self.lost.append(name)

    def stop(self) -> None:
        self.is_stopped = True


class OfRuns(unittest.TestCase):
    """Tasks that run in threads."""

    def test_each_runs_once_after_those_below(self) -> None:
        tasks, done, alone = chain_and_rest(), list[str](), threading.Lock()
        below = {it.name: it.after for it in tasks}

        def start(task: Task, jobs: int) -> bool:
            with alone:
                self.assertTrue(all(it in done for it in below[task.name]))
                done.append(task.name)
            return jobs > 0

        self.assertTrue(all(run(tasks, Room(4, MUCH), Fake(start)).values()))
        self.assertEqual(sorted(done), sorted(below))

    def test_a_failure_is_said_of_all_above(self) -> None:
        fake = Fake(lambda *_: False)
        found = run([Task("low", (), 1), Task("high", ("low",), 1)], Room(2, MUCH), fake)
        self.assertEqual((found, fake.lost, fake.is_stopped), ({"low": False, "high": False}, ["high"], False))

    def test_what_runs_is_stopped_with_it(self) -> None:
        fake = Fake(lambda *_: [][0])
        with self.assertRaises(IndexError):
            run([Task("low", (), 1)], Room(2, MUCH), fake)
        self.assertTrue(fake.is_stopped)


if __name__ == "__main__":
    unittest.main()
