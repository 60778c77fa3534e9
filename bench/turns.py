#!/usr/bin/env python3
"""Measures houses, programs that are run as `PROGRAM FOLDER` (docs/HOUSE.md):

    turns.py [--runs K] [--turns N] [--entries E] [--disk FOLDER] NAME=PROGRAM [NAME=PROGRAM ..]
    turns.py --ratios [--runs K] [--turns N] [--entries E] [--disk FOLDER] [--explainer PROGRAM] NAME=PROGRAM ..

Each house is made in a new folder, gets E entries (100) with a value each, and then N turns (2,000) that change one of
them, all from one pipe. One run at a time, K times (3); the fastest counts. Each line has the turns, the octets of a
turn's record, the turns in a second, the microseconds of processor time for a turn, and the peak of memory after N
turns and after 2 N. `start` is the time of a start after them, in milliseconds.

The folders are in memory (/dev/shm), where a sync costs nothing. With --disk they are in that folder, and the last line
is a loop that writes and syncs as many octets in two calls a turn, as a house has to. The ratios of the first program
to the last follow.

With --ratios the houses have a second member in their directory, so that each turn posts a message, and E is 10,000 if
it is not given, N is 20,000. Each line has these ratios of a program, and what they are made of:

    octets       what the folder grows by at a turn, images and all, to the octets of its line, messages and answer
    processor    processor time of a turn at E entries to that of one at 10
    start        processor time of a start that does 10,000 turns of a house of 100 entries again, to that of these
                 turns
    pipe         turns in a second of 1,000 lines that come at once, to those that come one by one, with --disk
    explained    the peak in MB of the program --explainer over the folder of a house of 300 entries and 4,600 turns
                 more
"""

from __future__ import annotations

import argparse
import os
import resource
import shutil
import subprocess
import sys
import tempfile
import time
from collections.abc import Callable, Sequence
from typing import TypeVar

ROOT = os.path.dirname(os.path.dirname(os.path.realpath(__file__)))
sys.dont_write_bytecode = True
sys.path.insert(0, f"{ROOT}/tools")
from cds import journals, tool
from cds.processes import Process

TIME = shutil.which("time")
Figures = dict[str, float]
T = TypeVar("T")


def making(entries: int, root: str = "root") -> list[str]:
    """The lines that make a house."""
    made = ["house 1 00000000000a", root]
    for number in range(entries):
        made += [f"create 1 entry{number}", f"put 1 entry{number} A 0000"]
    return made


def turning(entries: int, turns: int) -> list[str]:
    """The lines of turns."""
    return [f"put 1 entry{turn % entries} A {turn:08x}" for turn in range(turns)]


def timed(command: list[str], place: str, read: Sequence[str] = ()) -> tuple[float, float, int]:
    """Seconds, processor seconds and the peak in KiB of a program that reads lines. (A child's peak begins at that of
    this process, so GNU time measures it.)"""
    with open(f"{place}/lines", "w", encoding="ascii") as file:
        file.writelines(f"{line}\n" for line in read)
    peak = f"{place}/peak"
    measured = [TIME, "-q", "-f", "%M", "-o", peak, *command] if TIME else command
    with open(f"{place}/lines", "rb") as source:
        before, begin = resource.getrusage(resource.RUSAGE_CHILDREN), time.perf_counter()
        status = subprocess.run(measured, stdin=source, stdout=subprocess.DEVNULL, check=False).returncode
        seconds, after = time.perf_counter() - begin, resource.getrusage(resource.RUSAGE_CHILDREN)
    if status:
        raise SystemExit(f"{command[0]} ended with status {status}")
    processor = after.ru_utime + after.ru_stime - before.ru_utime - before.ru_stime
    if not TIME:
        return seconds, processor, after.ru_maxrss
    with open(peak, encoding="ascii") as file:
        return seconds, processor, int(file.read())


class House:
    """A house in a folder of its own."""

    def __init__(self, program: str, room: str, entries: int, root: str = "root") -> None:
        self.program, self.room, self.folder = program, room, f"{room}/h"
        os.makedirs(self.folder)
        self.ran(making(entries, root))

    def ran(self, lines: Sequence[str] = ()) -> tuple[float, float, int]:
        return timed([self.program, self.folder], self.room, lines)

    def size(self) -> int:
        return sum(os.path.getsize(f"{self.folder}/{name}") for name in os.listdir(self.folder))

    def texts(self, segments: int) -> int:
        """The octets of the texts of all turns after so many segments."""
        found = [record for segment in list(journals.segments(self.folder))[segments:] for record in segment.records]
        return sum(len(line) + 1 for record in found if record.image is None for line in record.lines)


def measured(program: str, args: argparse.Namespace, place: str | None) -> Figures:
    """The figures of one life of a house."""
    with tempfile.TemporaryDirectory(dir=place) as room:
        house, turns = House(program, room, args.entries), turning(args.entries, args.turns)
        house.ran()
        before = house.size()
        empty, idle, _ = house.ran()
        seconds, processor, peak = house.ran(turns)
        octets = (house.size() - before) / len(turns)
        _, _, later = house.ran(turns + turns)
        return {
            "turns a second": len(turns) / (seconds - empty),
            "octets": octets,
            "microseconds": (processor - idle) / len(turns) * 1e6,
            "peak": peak,
            "peak after 2 N": later,
            "start": empty * 1000,
        }


def looped(octets: float, args: argparse.Namespace) -> float:
    """Turns a second of a loop that writes so many octets and then one, and syncs after each."""
    with tempfile.NamedTemporaryFile(dir=args.disk) as file:
        record, at, begin = bytes(int(octets) - 1), 1, time.perf_counter()
        for _ in range(args.turns):
            os.pwrite(file.fileno(), record, at)
            os.fsync(file.fileno())
            os.pwrite(file.fileno(), b"\1", at - 1)
            os.fsync(file.fileno())
            at += len(record) + 1
        seconds = time.perf_counter() - begin
        return float(args.turns / seconds)


# ---- ratios


def grown(program: str, room: str, entries: int, turns: int) -> tuple[float, float]:
    """What a folder grows by at a turn to the octets of the turn's text, and the microseconds of processor time for
    it."""
    house = House(program, room, entries, "root 2")
    house.ran()
    _, idle, _ = house.ran()
    before, segments = house.size(), len(journals.numbers(house.folder))
    _, processor, _ = house.ran(turning(entries, turns))
    return (house.size() - before) / house.texts(segments), (processor - idle) / turns * 1e6


def redone(program: str, room: str) -> tuple[float, float]:
    """The milliseconds of processor time of 10,000 turns, and of a start that does them again."""
    house = House(program, room, 100, "root 2")
    house.ran()
    _, idle, _ = house.ran()
    _, processor, _ = house.ran(turning(100, 10_000))
    _, again, _ = house.ran()
    return (processor - idle) * 1000, (again - idle) * 1000


def piped(program: str, room: str, entries: int) -> float:
    """The turns in a second of 1,000 lines at once, to those of 500 that come one by one."""
    house, (once, one) = House(program, room, entries, "root 2"), (1000, 500)
    house.ran()
    empty, _, _ = house.ran()
    seconds, _, _ = house.ran(turning(entries, once))
    process = Process(program, house.folder)
    process.answer()
    begin = time.perf_counter()
    for line in turning(entries, one):
        process.send([line])
        process.answer()
    slow = time.perf_counter() - begin
    process.close()
    return once / (seconds - empty) / (one / slow)


def explained(program: str, explainer: str, room: str) -> float:
    """The peak in MB of an explainer."""
    house = House(program, room, 300)
    house.ran(turning(300, 4600))
    return timed([explainer, house.folder], room)[2] / 1024


def compared(program: str, args: argparse.Namespace, place: str | None) -> Figures:
    """The figures of which the ratios are."""

    def fresh(measure: Callable[[str], T]) -> T:
        with tempfile.TemporaryDirectory(dir=place) as room:
            return measure(room)

    octets, large = fresh(lambda room: grown(program, room, args.entries, args.turns))
    _, small = fresh(lambda room: grown(program, room, 10, args.turns))
    turns, again = fresh(lambda room: redone(program, room))
    found = {"octets": octets, "microseconds": large, "at 10 entries": small, "10,000 turns": turns, "again": again}
    if args.disk:
        found["pipe"] = fresh(lambda room: piped(program, room, args.entries))
    if args.explainer:
        found["explained"] = fresh(lambda room: explained(program, path_of(args.explainer), room))
    return found


def ratios(found: Figures) -> Figures:
    return found | {
        "processor": found["microseconds"] / found["at 10 entries"],
        "start": found["again"] / found["10,000 turns"],
    }


def path_of(program: str) -> str:
    return shutil.which(program) or os.path.abspath(program)


def best(
    measure: Callable[[str, argparse.Namespace, str | None], Figures],
    program: str,
    args: argparse.Namespace,
    place: str | None,
) -> Figures:
    """The least of each figure of some runs; of turns in a second the greatest."""
    lives = [measure(program, args, place) for _ in range(args.runs)]
    return {key: (max if key in ("turns a second", "pipe") else min)(life[key] for life in lives) for key in lives[0]}


def arguments() -> argparse.Namespace:
    parser = tool.Words(__doc__)
    parser.add_argument("--ratios", action="store_true")
    parser.add_argument("--runs", type=int, default=3)
    parser.add_argument("--turns", type=int)
    parser.add_argument("--entries", type=int)
    parser.add_argument("--disk")
    parser.add_argument("--explainer")
    parser.add_argument("programs", nargs="+", metavar="NAME=PROGRAM")
    args = parser.parse_args()
    args.turns = args.turns or (20_000 if args.ratios else 2_000)
    args.entries = args.entries or (10_000 if args.ratios else 100)
    return args


def main() -> None:
    args = arguments()
    place = args.disk or ("/dev/shm" if os.access("/dev/shm", os.W_OK) else None)
    found = {}
    for word in args.programs:
        name, _, program = word.partition("=")
        figures = best(compared if args.ratios else measured, path_of(program), args, place)
        found[name] = ratios(figures) if args.ratios else figures
        print(f"{name:<10} " + ", ".join(f"{key} {value:,.2f}" for key, value in found[name].items()), flush=True)
    first, last = list(found.values())[0], list(found.values())[-1]
    if args.disk and not args.ratios:
        loop = max(looped(last["octets"], args) for _ in range(args.runs))
        print(
            f"{'loop':<10} turns a second {loop:,.1f}; a turn of the first takes"
            f" {loop / first['turns a second']:.2f} of a turn of the loop"
        )
    print(f"processor time of the first to the last: {first['microseconds'] / max(last['microseconds'], 0.001):.2f}")


if __name__ == "__main__":
    main()
