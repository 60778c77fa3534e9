"""A round of the trial: a cell of three machines works for a while and is harmed; then it settles, ends, and is
compared."""
from __future__ import annotations

import collections
import os
import random
import shutil
import time

from doors.trials.clients import GONE, INTERFACE, Programs
from doors.trials.comparison import Comparison
from doors.trials.machines import CONSOLE, MACHINES, Machines

Counts = collections.Counter[str]
SERVERS, USERS = 10, 6
# So long all doors may take to open, and a cell to settle, in seconds. (Other work may slow them.)
LONGEST_START, LONGEST_SETTLING = 180.0, 180.0
# A directory that is not settled gets another epoch after so long, in seconds.
EPOCH_AFTER = 30.0
# So long after one harm comes the next one, at least and at most, in seconds; and so long a line is cut.
PAUSES, CUT = (1.0, 4.0), (2.0, 6.0)


class NotSettled(Exception):
    """A cell that nothing harms any more does not come to one state."""


class Round:
    """`harm` does what comes next to the machines, made from the seed."""

    def __init__(self, machines: Machines, seconds: float, seed: int) -> None:
        self.machines, self.seconds, self.seed = machines, seconds, seed
        self.chance = random.Random(seed)
        self.counts: Counts = collections.Counter()
        # The masters of directories 1 and 2, as the console last had them, and their other members.
        self.masters = {1: 1, 2: 1}
        self.others = {1: "2 s3", 2: "2 3"}

    def ask(self, machine: int, line: str) -> list[str]:
        return self.machines.client(machine).ask(line)

    def run(self) -> Programs:
        """Works, settles and ends. What the programs were answered."""
        paths = [f"{self.machines.folder}/m{machine}/door" for machine in MACHINES]
        programs = Programs(paths, SERVERS, USERS, self.seed)
        self.machines.begin()
        try:
            self.set_up()
            programs.begin()
            try:
                self.harm_until(time.monotonic() + self.seconds)
            finally:
                programs.end()
            self.settle()
        finally:
            self.machines.close()
        return programs

    def set_up(self) -> None:
        """Three houses, the root with a secondary house, a directory with three replicas, and one that is on machine
        3 alone."""
        until = time.monotonic() + LONGEST_START
        while any(self.ask(CONSOLE, f"@{machine} dump 1") != ["refused NoHouse"] for machine in MACHINES):
            if time.monotonic() > until:
                raise NotSettled("not all doors are open")
            time.sleep(0.1)
        lines = [f"house {machine} 00000000000{'abc'[machine - 1]}" for machine in MACHINES]
        lines += ["root 1 2 s3", "mkdir 1 1 print 1 2 3", "wait", "mkdir 3 1 sub 3"]
        for line in [*lines, f"profadd /.:/profile {INTERFACE}:1.0 /.:/sub/all 1 -"]:
            if line == "wait":
                self.wait_for_replica(3, 1)
                continue
            told = self.ask_until_reached(line)
            if not told[-1].startswith("ok"):
                raise NotSettled(f"{line}: {told}")

    def ask_until_reached(self, line: str) -> list[str]:
        """Asks at the console, and again while no house is reached: one may still begin."""
        until = time.monotonic() + LONGEST_START
        while (told := self.ask(CONSOLE, line))[-1].startswith("refused Unreachable") and time.monotonic() < until:
            time.sleep(0.5)
        return told

    def wait_for_replica(self, machine: int, directory: int) -> None:
        until = time.monotonic() + LONGEST_START
        while self.ask(machine, f"@{machine} dump {directory}")[-1] != "end" and time.monotonic() < until:
            time.sleep(0.05)

    # ---- harm

    def harm_until(self, until: float) -> None:
        harms = [self.kill_house, self.kill_house, self.kill_door, self.cut, self.move, self.move, self.kill_clerk]
        self.chance.shuffle(harms)
        while (left := until - time.monotonic()) > 0:
            time.sleep(min(left, self.chance.uniform(*PAUSES)))
            if time.monotonic() < until:
                harms.append(harms.pop(0))
                harms[-1](until)

    def kill_house(self, until: float) -> None:
        self.counts["houses killed"] += 1
        self.machines.kill_house(self.chance.choice(MACHINES))

    def kill_door(self, until: float) -> None:
        machine = self.chance.choice(MACHINES)
        self.counts["doors killed"] += 1
        self.machines.kill_door(machine)
        time.sleep(0.5)
        self.machines.begin_door(machine)

    def kill_clerk(self, until: float) -> None:
        self.counts["clerks killed"] += 1
        self.machines.kill_clerk(self.chance.choice(MACHINES))

    def cut(self, until: float) -> None:
        machine = self.chance.choice(MACHINES)
        self.counts["lines cut"] += 1
        self.machines.net.cut(machine)
        time.sleep(max(0.0, min(self.chance.uniform(*CUT), until - time.monotonic())))
        self.machines.net.mend(machine)

    def move(self, until: float) -> None:
        """The master of a directory moves to another machine. (Its old master need not have heard: it is asked to
        skulk no more.)"""
        directory = self.chance.choice([1, 2])
        master = self.chance.choice([machine for machine in MACHINES if machine != self.masters[directory]])
        kinds = [f"{self.chance.choice(['', '', 's'])}{machine}" for machine in MACHINES if machine != master]
        others = " ".join(kinds)
        told = self.ask(CONSOLE, f"epoch {directory} {master} {others}")
        self.counts[f"masters moved, {' '.join(told[-1].split(' ')[:1])}"] += 1
        if told[-1].startswith("ok"):
            self.masters[directory], self.others[directory] = master, others

    # ---- the end

    def settle(self) -> None:
        """Nothing harms it any more: after skulks the replicas of each directory are equal."""
        began = renewed = time.monotonic()
        while unsettled := [directory for directory in self.masters if not self.is_settled(directory)]:
            now = time.monotonic()
            if now > began + LONGEST_SETTLING:
                states = [self.ask(machine, "status") for machine in MACHINES]
                raise NotSettled(f"the replicas differ after {LONGEST_SETTLING:.0f} seconds: {states}")
            if now > renewed + EPOCH_AFTER:
                renewed = now
                for directory in unsettled:
                    self.renew(directory)
            for machine in MACHINES:
                self.ask(machine, "skulk")
            time.sleep(1)

    def is_settled(self, directory: int) -> bool:
        dumps = {tuple(self.ask(machine, f"@{machine} dump {directory}")) for machine in MACHINES}
        return len(dumps) == 1 and dumps.pop()[-1] == "end"

    def renew(self, directory: int) -> None:
        """Gives a directory another epoch, as an operator does: a door that was killed may have lost a Join, and the
        house that it was for takes no message of the later epoch."""
        told = self.ask(CONSOLE, f"epoch {directory} {self.masters[directory]} {self.others[directory]}")
        self.counts[f"epochs given again, {told[-1].split(' ')[0]}"] += 1


def tried(folder: str, machines: Machines, seconds: float, seed: int, plain: str) -> tuple[Counts, list[str]]:
    """Does a round in a new folder. Its counts, and what differs."""
    shutil.rmtree(folder, ignore_errors=True)
    os.makedirs(folder)
    work = Round(machines, seconds, seed)
    try:
        programs = work.run()
    except NotSettled as reason:
        return work.counts, [str(reason)]
    comparison = Comparison(folder, MACHINES, plain)
    comparison.read()
    comparison.compare()
    comparison.compare_exports(programs.told)
    for told in programs.told:
        work.counts["commands"] += 1
        work.counts["that a door did not answer"] += told.answer == GONE
        work.counts["in doubt"] += told.answer[-1].endswith(" doubt")
        work.counts["that say unreached"] += any(line.startswith("unreached") for line in told.answer)
    return work.counts + comparison.counts, comparison.differences
