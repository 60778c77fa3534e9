"""A house over its many lives: what it answered, and whether its journal and its next life say the same."""

from __future__ import annotations

import collections
import os
from collections.abc import Callable, Sequence

from cds import journals
from cds.processes import Process
from doors.lines import is_turn
from housing.net import Message
from housing.workload import Job

# The statuses of a process that the disk ended: it lost its power (it aborts), or a call failed.
NO_POWER, DISK_FAULT, KILLED = -6, 8, -9
ENDS: dict[int | None, str] = {NO_POWER: "power losses", DISK_FAULT: "failed calls", KILLED: "kills"}
MOST_STARTS = 400
# A turn: its line, its posts, its answer, and the clock.
Turn = tuple[str, list[Message], str, int]


class Difference(Exception):
    """A house, its journal and what it answered do not say the same."""


class House:
    """`disk` gives the environment of its next life, and `hurry` may kill it while it starts."""

    process: Process

    def __init__(
        self,
        program: str,
        folder: str,
        number: int,
        disk: Callable[[int], dict[str, str]],
        hurry: Callable[[House], None],
        count: collections.Counter[str],
    ) -> None:
        self.program, self.folder, self.number, self.count = program, folder, number, count
        self.disk, self.hurry = disk, hurry
        self.node = f"{0xA0 + number:012x}"
        self.jobs: list[Job] = []
        # Its clock, what it answered in this life, and the last turn of all.
        self.clock = 0
        self.answered: list[Turn] = []
        self.last: Turn | None = None
        # What it posted of an answer that never ended.
        self.partial: list[Message] = []
        # All turns of earlier lives, the first segment of this life, and the number of the last entry.
        self.turns = 0
        self.segment = 1
        self.entry = 0
        os.makedirs(folder)

    def send(self, jobs: Sequence[Job]) -> None:
        """Sends the lines of jobs."""
        self.jobs += jobs
        self.process.send([line for job in jobs for line in job.lines])

    def next_answer(self) -> tuple[Job, list[str], list[Message]] | None:
        """The next job that it answers, with the answer and the posts; None if it died before."""
        job, answer = self.jobs[0], list[str]()
        for _ in job.lines:
            said = self.process.answer()
            if said is None:
                return None
            answer = said
        self.jobs.pop(0)
        posts = self.process.fetched()
        if is_turn(job.line, answer):
            self.answered.append((job.line, posts, answer[-1], self.clock))
            self.entry += 1
        elif posts:
            raise Difference(f"house {self.number}: {job.line} is no turn, and posts")
        elif job.line.startswith("clock ") and answer == ["ok"]:
            self.clock = int(job.line.split(" ")[1])
        return job, answer, posts

    def start(self) -> tuple[list[Message], list[Job]]:
        """Starts it until it lives. Returns what it posts, and the jobs that it did and never answered: at most one."""
        for _ in range(MOST_STARTS):
            self.process = Process(self.program, self.folder, self.disk(self.number))
            self.count["starts"] += 1
            self.hurry(self)
            said = self.process.answer()
            if said == ["new"]:
                # (the line that makes the house may change the segment)
                self.segment = journals.numbers(self.folder)[-1]
                self.jobs = [Job([f"house {self.number} {self.node}"])]
                self.process.send(self.jobs[0].lines)
                said = self.process.answer()
                if said is not None:
                    return self.made(said)
            elif said is not None:
                return self.settled(said)
            self.ended()
        raise Difference(f"house {self.number}: {MOST_STARTS} starts failed")

    def made(self, said: list[str]) -> tuple[list[Message], list[Job]]:
        """Notes the line that made it."""
        if said != ["ok"] or self.last:
            raise Difference(f"house {self.number}: is new, and says {said} where its last turn is {self.last}")
        self.answered = [(self.jobs.pop().line, [], "ok", 0)]
        self.last = self.answered[0]
        self.entry = 1
        return self.process.fetched(), []

    def ended(self) -> None:
        """Notes how a life ended that nobody closed."""
        self.process.drained()
        status = self.process.status
        if status not in ENDS:
            raise Difference(f"house {self.number}: status {status}")
        self.count[ENDS[status]] += 1

    def settled(self, said: list[str]) -> tuple[list[Message], list[Job]]:
        """Compares what a start says, the journal, and what was answered in the life before."""
        posts, before = self.process.fetched(), self.answered
        if said[0] != f"house {self.number} {self.node}":
            raise Difference(f"house {self.number}: says {said[0]}")
        turns, entry, segment = self.journaled()
        more = turns[len(before) :]
        if turns[: len(before)] != before:
            at = next(at for at, turn in enumerate(before) if at >= len(turns) or turn != turns[at])
            raise Difference(
                f"house {self.number}: answered {short(before[at])}, its journal has {short(turns[at : at + 1])}"
            )
        done = self.jobs[:1] if more else []
        if len(more) > 1 or more and (not done or (more[0][0], more[0][3]) != (done[0].line, self.clock)):
            raise Difference(
                f"house {self.number}: its journal has {short(more)}, under way was {[job.line[:80] for job in done]}"
            )
        self.check_partial(more)
        self.last = [*before, *more][-1] if before or more else self.last
        if not self.last:
            raise Difference(f"house {self.number}: says {short(said)}, and did nothing")
        line = "take" if self.last[0].startswith("take ") else self.last[0]
        if [said[1], posts, said[2]] != [f"last {line}", self.last[1], self.last[2]]:
            raise Difference(f"house {self.number}: its last turn is {short(self.last)}, it says {short(said)}")
        self.turns += len(before) + len(more)
        self.answered, self.jobs, self.entry, self.segment, self.clock = [], [], entry, segment, 0
        return posts, done

    def check_partial(self, more: list[Turn]) -> None:
        """What it posted of an answer that never ended is the beginning of a turn's posts."""
        if self.partial and (not more or more[0][1][: len(self.partial)] != self.partial):
            raise Difference(f"house {self.number}: posted of a turn that its journal has not")

    def journaled(self) -> tuple[list[Turn], int, int]:
        """The turns of its journal in the life before, the number of the last entry, and the segment of this life."""
        numbers = journals.numbers(self.folder)
        segments = [journals.Segment(f"{self.folder}/{number}", number) for number in numbers if number >= self.segment]
        records = [record for segment in segments for record in segment.records]
        turns = [record for record in records if record.kind not in ("new", "start", "segment")]
        found = [(turn.line, turn.posts, turn.answer, turn.clock) for turn in turns]
        return found, records[-1].number, numbers[-1]

    def died(self) -> tuple[list[Message], list[Job]]:
        """After its last answer: what it posted of an answer that never ended goes out, too. Starts it again, as
        `start`."""
        self.partial = self.process.fetched()
        self.ended()
        posts, done = self.start()
        return self.partial + posts, done

    def kill(self) -> None:
        """Kills it, if it ever lived."""
        if "process" in vars(self):
            self.process.kill()

    def close(self) -> int | None:
        """Ends its input, and waits for its end. Returns its status."""
        self.process.close()
        return self.process.status


def short(turn: object) -> str:
    """A turn, as it is printed."""
    return str(turn)[:200]
