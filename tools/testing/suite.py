"""Runs parts of the tests side by side, prints what each says as it ends, and counts what passed and failed."""

from __future__ import annotations

import dataclasses
import os
import re
import shutil
import tempfile
import threading
import time
from collections.abc import Iterable, Sequence

from building import machine
from building.children import Children
from building.schedule import Room, Task, run
from building.sources import ROOT
from testing.parts import LEFT_OUT, MADE, Part

# The last line of a command that counts for itself, or the line of a crate's tests.
SUM = re.compile(r"^(\d+) passed, (\d+) failed\b.*\Z", re.M)
OF_CRATE = re.compile(r"^test result: \w+\. (\d+) passed; (\d+) failed", re.M)
# The memory that a part takes, at most, in octets.
MEMORY = 1_500_000_000


@dataclasses.dataclass(frozen=True)
class Result:
    """How many things passed and failed in a part, and what it took: seconds by the clock, and of processors."""

    passed: int
    failed: int
    seconds: float = 0.0
    worked: float = 0.0


def counted(status: int, said: str) -> tuple[int, int]:
    """How many things passed and failed, by the status and the words of a command: it is one thing if it does not count
    them itself."""
    found = SUM.search(said.rstrip("\n")) or OF_CRATE.search(said)
    passed, failed = (int(found[1]), int(found[2])) if found else (int(status == 0), 0)
    return passed, failed or int(status != 0)


def with_programs(words: Sequence[str], paths: dict[str, str]) -> list[str]:
    """The words of a command, with the paths of the programs."""
    return [paths[it[1:-1]] if it[1:-1] in MADE and it[:1] == "{" else it for it in words]


class Suite:
    """The parts that run, and how those ended that have."""

    def __init__(self, parts: Iterable[Part]) -> None:
        self.parts = {it.name: it for it in parts}
        self.paths: dict[str, str] = {}
        self.results: dict[str, Result] = {}
        self.printing, self.children = threading.Lock(), Children()

    def print(self, text: str) -> None:
        """Prints text whole, also if other parts end meanwhile."""
        with self.printing:
            print(text, flush=True)

    def start(self, task: Task, jobs: int) -> bool:
        """Runs a part, and returns whether those that wait for it can begin."""
        part = self.parts[task.name]
        if part.needs and not shutil.which(part.needs):
            self.print(f"== {part.name}: passed over, since the command {part.needs} is not there")
            self.results[part.name] = Result(0, 0)
            return True
        began = time.monotonic()
        status, said, worked = self.ended(part)
        if part.name in MADE and status == 0:
            self.paths[part.name] = said.rstrip("\n").rpartition("\n")[2]
        passed, failed = counted(status, said)
        found = self.results[part.name] = Result(passed, failed, time.monotonic() - began, worked)
        self.print(
            f"== {part.name} ({part.what}): {found.seconds:.0f} seconds, {worked:.0f} of a processor\n{said.rstrip()}"
        )
        return status == 0

    def ended(self, part: Part) -> tuple[int, str, float]:
        """Runs the command of a part, and returns its status, what it said, and the seconds of processors that it
        took."""
        with tempfile.TemporaryFile("w+", encoding="utf-8", errors="replace") as out:
            try:
                with self.children.started(with_programs(part.words, self.paths), f"{ROOT}/{part.folder}", out) as ran:
                    _, status, used = os.wait4(ran.pid, 0)
                    ran.returncode = os.waitstatus_to_exitcode(status)
            except OSError as error:
                return 1, f"{part.words[0]} cannot be run: {error}", 0.0
            out.seek(0)
            return ran.returncode, out.read(), used.ru_utime + used.ru_stime

    def lose(self, name: str) -> None:
        """Notes a part that is not run, since a program that it needs is not there."""
        self.results[name] = Result(0, 1)
        self.print(f"== {name}: not run, since a program that it needs is not there: FAILED")

    def stop(self) -> None:
        """Ends the parts that run."""
        self.children.stop()

    def run(self) -> Result:
        """Runs all, and returns the sum."""
        tasks = [Task(it.name, it.programs, it.minutes, MEMORY) for it in self.parts.values()]
        run(tasks, Room(machine.processors(), machine.free_memory()), self)
        every = self.results.values()
        return Result(*(sum(getattr(it, name) for it in every) for name in ("passed", "failed", "seconds", "worked")))


def chosen(parts: Sequence[Part], names: Sequence[str]) -> list[Part]:
    """The parts of these names and the programs that they need, or all parts."""
    wanted = {below for it in parts if it.name in names for below in (it.name, *it.programs)}
    return [it for it in parts if not names or it.name in wanted]


def passed_over(kind: str) -> str:
    """Says what is not tested over programs of this kind."""
    return f"not tested over {kind} programs: {'; '.join(LEFT_OUT[kind])}" if LEFT_OUT[kind] else ""


def table(parts: Iterable[Part]) -> str:
    """Lists parts, and the minutes of a processor that each takes."""
    rows = [
        f"    {it.name:14}{it.minutes:5.1f}  {it.what}{f' (if {it.needs} is there)' if it.needs else ''}"
        for it in parts
    ]
    return "\n".join(["The parts, and the minutes that each takes a processor of 2.5 GHz:", "", *rows])
