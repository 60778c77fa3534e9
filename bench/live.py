#!/usr/bin/env python3
"""Measures a door (docs/LIVE.md) beside a house at a bare pipe:

    live.py [--seconds N] [--house PROGRAM] [--clerk PROGRAM] [--houses K]

A cell of K houses (3) on this machine has ten servers and a group of them. One client, and then eight, each a process,
send one command after the other for N seconds (2). Each line has the commands in a second, the median and the 99th of
100 of the microseconds for one, the ratio of that median to the first row's, which is the line `look` at a house
through a pipe, and the microseconds of processor time that the door, the clerk and the houses need for one. Folders are
in memory (/dev/shm), where a sync costs nothing.
"""
from __future__ import annotations

import multiprocessing
import os
import signal
import subprocess
import sys
import tempfile
import time
from collections.abc import Callable

ROOT = os.path.dirname(os.path.dirname(os.path.realpath(__file__)))
sys.dont_write_bytecode = True
sys.path.insert(0, f"{ROOT}/tools")
from cds import tool
from cds.programs import plain_house
from doors import executables
from doors.trials.clients import INTERFACE, Client

CLIENTS = (1, 8)
WANTED = f"{INTERFACE}:1.0 - ncacn_ip_tcp"
LOOK = "look 1 s1 CDS_Towers"
# What is asked by client and turn.
ROWS: dict[str, Callable[[int, int], str]] = {
    "`@1 look`": lambda client, turn: f"@1 {LOOK}",
    "`read low`": lambda client, turn: "read low /.:/s1 CDS_Towers",
    "`import low` of one entry": lambda client, turn: f"import low /.:/s1 {WANTED}",
    "`import low` of a group of ten": lambda client, turn: f"import low /.:/all {WANTED}",
    "`import high` of a group of ten": lambda client, turn: f"import high /.:/all {WANTED}",
    "`add`, a turn": lambda client, turn: f"add /.:/s{client} Note {turn % 256:02x}",
    "`export` of one binding, a turn": lambda client, turn: f"export /.:/s{client} {INTERFACE}:1.0 {binding(client)} -",
}


def binding(number: int) -> str:
    return f"ncacn_ip_tcp:10.0.0.{number}[1025]"


def spin(ask: Callable[[int], object], seconds: float) -> list[float]:
    """Asks one after the other for so long. The seconds of each."""
    times: list[float] = []
    now = time.perf_counter()
    until = now + seconds
    while now < until:
        began = now
        ask(len(times))
        now = time.perf_counter()
        times.append(now - began)
    return times


def at_door(path: str, row: str, client: int, seconds: float) -> list[float]:
    door, line = Client(path), ROWS[row]
    return spin(lambda turn: door.ask(line(client, turn)), seconds)


def by_pipe(house: str, folder: str, seconds: float) -> list[float]:
    """A house that is asked by this process alone. (Its folder is one of a cell that has ended.)"""
    pipe = subprocess.PIPE
    with subprocess.Popen([house, folder], stdin=pipe, stdout=pipe, text=True, bufsize=1) as child:
        assert child.stdin and child.stdout
        source, sink = child.stdout, child.stdin
        while not source.readline().startswith("0 ok"):
            pass

        def ask(turn: int) -> None:
            sink.write(f"{LOOK}\n")
            while not source.readline().split(" ")[1].startswith(("end", "refused")):
                pass

        times = spin(ask, seconds)
        sink.close()
    return times


def processor(door: int, clerk: str) -> list[float]:
    """Seconds of processor time of a door, its clerk, and its houses."""
    with open(f"/proc/{door}/task/{door}/children", encoding="ascii") as file:
        children = list(map(int, file.read().split()))
    found = [0.0, 0.0, 0.0]
    for pid in [door, *children]:
        with open(f"/proc/{pid}/stat", encoding="ascii") as file:
            ticks = file.read().rpartition(")")[2].split()[11:13]
        with open(f"/proc/{pid}/cmdline", "rb") as file_of_words:
            is_clerk = file_of_words.read().startswith(clerk.encode() + b"\0")
        found[0 if pid == door else 1 if is_clerk else 2] += sum(map(int, ticks)) / os.sysconf("SC_CLK_TCK")
    return found


def told(name: str, clients: int, times: list[float], seconds: float, base: float, work: list[float]) -> float:
    """Prints a row. Its median."""
    times.sort()
    median, late = times[len(times) // 2], times[len(times) * 99 // 100]
    ratio = f"{median / base:.1f}" if base and clients == 1 else ""
    counts = f"{len(times) / seconds:,.0f} | {median * 1e6:,.0f} | {late * 1e6:,.0f}"
    own = " | ".join(f"{each / len(times) * 1e6:,.0f}" for each in work)
    print(f"| {name} | {clients} | {counts} | {ratio} | {own} |", flush=True)
    return median


def set_up(folder: str, house: str, clerk: str, houses: int) -> subprocess.Popen[bytes]:
    """A door, its houses, ten servers and a group of them."""
    lines = [f'program = "{house}"', f'clerk = "{clerk}"', 'log = "log"', "skulk_every = 0"]
    lines += [f'[house.{number}]\nfolder = "h{number}"' for number in range(1, houses + 1)]
    with open(f"{folder}/cell.toml", "w", encoding="ascii") as file:
        file.write("\n".join(lines) + "\n")
    door = subprocess.Popen([sys.executable, f"{ROOT}/tools/door", f"{folder}/cell.toml"])
    client = Client(f"{folder}/door")
    while client.ask(f"@{houses} dump 1") != ["refused NoHouse"]:
        time.sleep(0.05)
    made = [f"house {number} {number:012x}" for number in range(1, houses + 1)]
    made.append(f"root {' '.join(map(str, range(1, houses + 1)))}")
    for number in range(10):
        made += [f"export /.:/s{number} {INTERFACE}:1.0 {binding(number)} -", f"groupadd /.:/all /.:/s{number}"]
    for line in made:
        if not client.ask(line)[-1].startswith("ok"):
            raise SystemExit(f"{line} is refused")
    return door


def main() -> None:
    parser = tool.Words(__doc__)
    parser.add_argument("--seconds", type=float, default=2.0)
    parser.add_argument("--house")
    parser.add_argument("--clerk")
    parser.add_argument("--houses", type=int, default=3)
    args = parser.parse_args()
    house = plain_house(args.house)
    clerk = os.path.abspath(args.clerk or executables.clerk())
    with tempfile.TemporaryDirectory(dir="/dev/shm" if os.access("/dev/shm", os.W_OK) else None) as folder:
        door = set_up(folder, house, clerk, args.houses)
        door.send_signal(signal.SIGTERM)
        door.wait()
        print("| command | clients | a second | median | 99 of 100 | to the pipe | door | clerk | houses |")
        print("|---|---|---|---|---|---|---|---|---|")
        used = os.times()
        times = by_pipe(house, f"{folder}/h1", args.seconds)
        now = os.times()
        work = now.children_user + now.children_system - used.children_user - used.children_system
        base = told("`look` through a pipe", 1, times, args.seconds, 0.0, [0.0, 0.0, work])
        door = subprocess.Popen([sys.executable, f"{ROOT}/tools/door", f"{folder}/cell.toml"])
        while Client(f"{folder}/door").ask("read low /.:/s1 CDS_Towers")[-1][:2] != "ok":
            time.sleep(0.05)
        try:
            for row in ROWS:
                for clients in CLIENTS:
                    before = processor(door.pid, clerk)
                    with multiprocessing.Pool(clients) as pool:
                        words = [(f"{folder}/door", row, client, args.seconds) for client in range(clients)]
                        times = [each for found in pool.starmap(at_door, words, 1) for each in found]
                    after = processor(door.pid, clerk)
                    told(row, clients, times, args.seconds, base, [b - a for a, b in zip(before, after, strict=True)])
        finally:
            door.send_signal(signal.SIGTERM)
            door.wait()


if __name__ == "__main__":
    main()
