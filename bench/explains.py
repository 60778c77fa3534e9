#!/usr/bin/env python3
"""Measures programs that explain journals, run as `PROGRAM FOLDER..` (docs/EXPLAINED.md):

    explains.py [--runs K] [--entries N] [--instructions E] [--house PATH] NAME=PROGRAM [NAME=PROGRAM ..]

Five houses work until their journals have N entries (100,000): processes of --house, without which it is the plain
house of bench/, which `rustc` compiles. Three of them accept updates of 16 entries of a directory, and all take what
that posts; each thousand entries a skulk is complete, each five thousand a house starts again, and each ten thousand an
epoch changes the list. Then each program explains the folders, K times (3), one run at a time; the fastest counts. Each
line has the entries and the MB that it took in one second, the processor time, and the greatest peak of memory. The
programs have to write the same script, with status 0.

With --instructions the instructions are counted, too, by valgrind, of journals of N / E entries. The last lines are the
ratios of the first program to the last. The folders are in memory (/dev/shm), if they can be.
"""

from __future__ import annotations

import os
import random
import re
import resource
import shutil
import subprocess
import sys
import tempfile
import time

ROOT = os.path.dirname(os.path.dirname(os.path.realpath(__file__)))
sys.dont_write_bytecode = True
sys.path.insert(0, f"{ROOT}/tools")
from cds import tool
from cds.console import Console
from cds.processes import Process, take_lines
from cds.programs import plain_house

TIME = shutil.which("time")
HOUSES = range(1, 6)
# The members of the directory without its master, house 1, in turn.
LISTS = (["2", "3", "s4", "s5"], ["2", "s4", "s5"])
ACCEPTING = (1, 4, 5)
ENTRIES = 16
# So many updates are asked of a house at once.
BATCH = 10
# The answers of turns.
TURN = r"ok($| taken| complete| \d)"


class Cell:
    """Five houses at work. Every message is delivered, in the order in which they came."""

    processes: dict[int, Process]

    def __init__(self, program: str, folder: str) -> None:
        self.program, self.folder = program, folder
        self.chance, self.console = random.Random(1), Console()
        self.entries, self.processes = 0, {}
        for house in HOUSES:
            os.makedirs(self.path(house))
            self.start(house)
            self.ask(house, [f"house {house} {house:012x}"])
        self.number(f"root {' '.join(LISTS[0])}")
        self.ask(1, [f"create 1 entry{entry}" for entry in range(ENTRIES)])

    def path(self, house: int) -> str:
        return f"{self.folder}/h{house}"

    def folders(self) -> list[str]:
        return [self.path(house) for house in HOUSES]

    def start(self, house: int) -> None:
        if house in self.processes:
            self.processes[house].close()
            self.entries += 1
        self.processes[house] = Process(self.program, self.path(house))
        self.processes[house].answer()
        # (what it says again was taken)
        self.processes[house].fetched()

    def ask(self, house: int, lines: list[str]) -> None:
        """Asks a house, and delivers what that posts, and what comes of it."""
        asked = [(house, lines)]
        while asked:
            posts: list[tuple[int, str]] = []
            for to, lines in asked:
                process = self.processes[to]
                process.send(lines)
                answers = [self.last(process.answer()) for _ in lines]
                self.entries += sum(re.match(TURN, answer) is not None for answer in answers)
                posts += process.fetched()
            receivers = dict.fromkeys(to for to, _ in posts)
            asked = [
                (to, [line for at, octets in posts if at == to for line in take_lines(octets)]) for to in receivers
            ]

    def last(self, answer: list[str] | None) -> str:
        """The last line of an answer, which has to come."""
        if answer is None:
            raise SystemExit(f"{self.program} ended")
        return answer[-1]

    def number(self, line: str) -> None:
        self.ask(1, [line])
        self.console.done(1, line)

    def update(self) -> str:
        word = self.chance.choice(("add", "add", "remove", "put"))
        return f"{word} 1 entry{self.chance.randrange(ENTRIES)} A {self.chance.randrange(4):04x}"

    def work(self, most: int) -> None:
        """Until there are so many entries."""
        skulk, restart, epoch = 1_000, 5_000, 10_000
        while self.entries < most:
            self.ask(self.chance.choice(ACCEPTING), [self.update() for _ in range(BATCH)])
            if self.entries >= skulk:
                self.ask(1, ["skulk 1"])
                skulk += 1_000
            if self.entries >= restart:
                self.start(self.chance.choice(HOUSES))
                restart += 5_000
            if self.entries >= epoch:
                epoch += 10_000
                self.number(self.console.epoch_line(1, 1, LISTS[epoch // 10_000 % 2]))
        for process in self.processes.values():
            process.close()


def made(house: str, entries: int, room: str) -> tuple[list[str], int]:
    """The folders of a cell that has so many entries, and their octets."""
    folder = f"{room}/cell{entries}"
    cell = Cell(house, folder)
    cell.work(entries)
    octets = sum(os.path.getsize(f"{path}/{name}") for path in cell.folders() for name in os.listdir(path))
    return cell.folders(), octets


def ran(program: str, folders: list[str], script: str) -> tuple[float, float, int]:
    """Seconds, processor seconds and the peak in KiB of a program that explains folders."""
    with tempfile.NamedTemporaryFile("r") as peak, open(script, "wb") as sink:
        command = [TIME, "-q", "-f", "%M", "-o", peak.name, program] if TIME else [program]
        before, begin = resource.getrusage(resource.RUSAGE_CHILDREN), time.perf_counter()
        status = subprocess.run([*command, *folders], stdout=sink, check=False).returncode
        seconds, after = time.perf_counter() - begin, resource.getrusage(resource.RUSAGE_CHILDREN)
        if status:
            raise SystemExit(f"{program} ended with status {status}")
        processor = after.ru_utime + after.ru_stime - before.ru_utime - before.ru_stime
        return seconds, processor, int(peak.read()) if TIME else after.ru_maxrss


def octets_of(path: str) -> bytes:
    with open(path, "rb") as file:
        return file.read()


def instructions(program: str, folders: list[str]) -> int:
    command = ["valgrind", "--tool=callgrind", "--callgrind-out-file=/dev/null", program, *folders]
    done = subprocess.run(command, stdout=subprocess.DEVNULL, stderr=subprocess.PIPE, text=True, check=False)
    return int(re.findall(r"Collected : (\d+)", done.stderr)[0])


def main() -> None:
    parser = tool.Words(__doc__)
    parser.add_argument("--runs", type=int, default=3)
    parser.add_argument("--entries", type=int, default=100_000)
    parser.add_argument("--instructions", type=int, default=0)
    parser.add_argument("--house")
    parser.add_argument("programs", nargs="+", metavar="NAME=PROGRAM")
    args = parser.parse_args()
    programs = [
        (name, shutil.which(path) or os.path.abspath(path))
        for name, _, path in (word.partition("=") for word in args.programs)
    ]
    house = plain_house(args.house)
    times, counts = [], []
    with tempfile.TemporaryDirectory(dir="/dev/shm" if os.access("/dev/shm", os.W_OK) else None) as room:
        folders, octets = made(house, args.entries, room)
        for name, program in programs:
            runs = [ran(program, folders, f"{room}/{name}") for _ in range(args.runs)]
            seconds, processor, peak = min(runs)[0], min(run[1] for run in runs), max(run[2] for run in runs)
            times.append(processor)
            figures = f"{args.entries / seconds:,.0f} entries and {octets / seconds / 1e6:,.0f} MB a second"
            print(f"{name:<10} {figures}, processor {processor:.2f}, peak {peak:,} KiB", flush=True)
            if octets_of(f"{room}/{name}") != octets_of(f"{room}/{programs[0][0]}"):
                raise SystemExit(f"{name} writes another script than {programs[0][0]}")
        if args.instructions:
            fewer, _ = made(house, args.entries // args.instructions, room)
            for name, program in programs:
                counts.append(instructions(program, fewer))
                print(
                    f"{name:<10} {counts[-1]:,} instructions,"
                    f" {counts[-1] * args.instructions / args.entries:,.0f} an entry",
                    flush=True,
                )
    print(f"processor time of the first to the last: {times[0] / max(times[-1], 0.001):.2f}")
    if counts:
        print(f"instructions of the first to the last: {counts[0] / counts[-1]:.2f}")


if __name__ == "__main__":
    main()
