#!/usr/bin/env python3
"""Mends a directory of random cells in trouble, for as long as it is asked to.

    tools/fuzzing/mend.py SECONDS [--inputs N] [--seed N] [--program PATH] [--mender PATH] [--proved]

Without --program and --mender these are the proved ones of these sources, or else ones that are not proved, and
standard error says so; with --proved `tools/build` proves and builds them first, if that has to be. PATH may have words
behind it, as that of the plain program, whose form `mend` does the same. With --inputs it ends after so many scripts.
Each script makes a few houses and directories, loses messages, delivers some late or twice, crashes houses, and changes
epochs; then `cdsmend` mends one of its directories, now and then without some of the houses. What it has to write is
computed here from the answers of `cdsreplay`: who is listed, who is up, which epoch each house holds, which number
comes next, and the floors. Then the script followed by these lines is run: no added line may be refused or in vain, and
the last has to be answered `complete`. After the Advances that this answer names, each house of the list holds one
epoch, and their dumps are the same.

Script number K is made from the seed N + K, where N is 1 if it is not given. At the first script that is not mended its
seed is printed; it stands in out/fuzz-input. The last line is `N cells, all mended`, with how many were in which
trouble before it, or `N cells, 1 not`, and the exit status is 1 for that.
"""

from __future__ import annotations

import os
import random
import shlex
import sys
import time
from collections import Counter
from collections.abc import Sequence

sys.dont_write_bytecode = True
sys.path.insert(0, os.path.dirname(os.path.dirname(os.path.realpath(__file__))))
from building.sources import ROOT  # noqa: E402
from cds import programs, tool  # noqa: E402
from cds.answers import IN_VAIN, answers_of, serials_of  # noqa: E402
from cds.console import Members, listing  # noqa: E402

FOUND = f"{ROOT}/out/fuzz-input"
LAST_TIME = 2**64 - 1
# The kinds of the lines of a script, and how often each is made.
OFTEN: dict[str, float] = {
    "deliver": 60,
    "lose": 8,
    "create": 14,
    "skulk": 10,
    "epoch": 8,
    "crash": 5,
    "start": 4,
    "clock": 2,
    "mkdir": 5,
    "group": 2,
}
OFTEN["last"] = 0.3


class Maker:
    """A random script of a cell in trouble."""

    def __init__(self, source: random.Random) -> None:
        self.random = source
        self.houses = sorted(source.sample(range(1, 256), source.randint(1, 6)))
        self.directories = 1
        self.lines = [f"house {it} {it:012x}" for it in self.houses] + [f"root {self.a_list()}"]

    def a_list(self) -> str:
        """The words of a list: a master and others, some of them secondary."""
        chosen = self.random.sample(self.houses, self.random.randint(1, len(self.houses)))
        return " ".join([str(chosen[0]), *(("s" if self.random.random() < 0.3 else "") + str(it) for it in chosen[1:])])

    def house(self) -> int:
        """One of the houses."""
        return self.random.choice(self.houses)

    def directory(self) -> int:
        """One of the directories."""
        return self.random.randint(1, self.directories)

    def line(self, posted: int) -> str:
        """A line, where about so many messages were posted."""
        kind = self.random.choices([*OFTEN], [*OFTEN.values()])[0]
        recent = max(1, posted - self.random.choice([2, 6, 20, posted + 1]))
        if kind in ("deliver", "lose"):
            return f"{kind} {self.random.randint(recent, max(posted, recent))}"
        if kind == "create":
            return f"create {self.house()} {self.directory()} e{self.random.randrange(4)}"
        if kind == "skulk":
            return f"skulk {self.house()} {self.directory()}"
        if kind == "epoch":
            return f"epoch {self.directory()} {self.a_list()}"
        if kind == "clock":
            return f"clock {self.house()} {self.random.randrange(1000)}"
        if kind == "mkdir":
            self.directories += 1
            return f"mkdir {self.house()} 1 d{self.directories} {self.a_list()}"
        if kind == "group":
            return f"groupadd /.:/g{self.random.randrange(3)} /.:/e1"
        if kind == "last":
            return f"clock {self.house()} {LAST_TIME}"
        return f"{kind} {self.house()}"

    def script(self) -> list[str]:
        """The lines of a script."""
        posted = 0
        for _ in range(self.random.choice([3, 10, 30, 80])):
            line = self.line(posted)
            self.lines.append(line)
            posted += 2 if line.split()[0] in ("create", "skulk", "epoch", "mkdir") else 1
        return self.lines


def run(words: Sequence[str], lines: list[str]) -> tuple[dict[int, list[str]], int]:
    """The answers of a program to lines, by their numbers, and its status."""
    status, output = programs.ran(words, octets_of(lines))
    return answers_of(output), status


def octets_of(lines: Sequence[str]) -> bytes:
    """The octets of lines."""
    return "".join(f"{it}\n" for it in lines).encode()


class Directory:
    """A directory as the console knows it: its last epoch, and its members."""

    def __init__(self, epoch: int, words: list[str], before: Members | None = None) -> None:
        self.epoch, self.master = epoch, int(words[0])
        self.members = listing(before or {}, epoch, self.master, words[1:])

    def words(self, without: Sequence[int] = ()) -> list[tuple[int, str]]:
        """Its houses but these, each with its word of a list."""
        return [
            (house, f"s{house}" if kind == "s" else str(house))
            for house, (_, kind) in self.members.items()
            if house not in without
        ]


class Cell:
    """What the answers to a script tell of its cell: the directories by their numbers, and how many messages were
    posted."""

    def __init__(self, program: str, lines: list[str]) -> None:
        self.directories: dict[int, Directory] = {}
        self.posted = 0
        answers, _ = run([program, "run"], lines)
        for number, said in answers.items():
            self.take(lines[number - 1].split(), said[-1])

    def take(self, line: list[str], said: str) -> None:
        """Takes the answer of a line."""
        self.posted = max(self.posted, *serials_of(said), 0)
        if not said.startswith("ok"):
            return
        if line[0] == "root":
            self.directories[1] = Directory(1, line[1:])
        elif line[0] == "mkdir":
            self.directories[int(said.split()[1])] = Directory(1, line[4:])
        elif line[0] == "epoch":
            number = int(line[1])
            self.directories[number] = Directory(int(said.split()[1]), line[2:], self.directories[number].members)

    def choose(self, source: random.Random) -> int:
        """Chooses one of the directories, or now and then a number that none has."""
        if source.random() < 0.02:
            return source.choice([max(self.directories) + 1, 2**32 - 1])
        return source.choice(sorted(self.directories))


def houses_left_out(source: random.Random, cell: Cell, number: int) -> list[int]:
    """Chooses the houses that are left out: mostly none, else some of the listed ones, and now and then another one."""
    directory = cell.directories.get(number)
    if source.random() < 0.5 or not directory:
        return []
    listed = list(directory.members)
    most = len(listed) if source.random() < 0.1 else max(1, len(listed) - 1)
    chosen = source.sample(listed, min(source.randint(1, most), source.randint(1, most)))
    return chosen + ([source.randint(1, 255)] if source.random() < 0.1 else [])


def state_of(
    program: str, lines: list[str], number: int, houses: list[int]
) -> tuple[set[int], dict[int, int], set[int]]:
    """Which of these houses are down, the epoch that each holds, and which of them have a stamp left."""
    asked = [f"{line} {it}" for it in houses for line in ("start", "octets house")] + [
        f"dump {it} {number}" for it in houses
    ]
    answers, _ = run([program, "run"], lines + asked)
    told = [answers[it][0].split() for it in range(len(lines) + 1, len(lines) + len(asked) + 1)]
    down = {house for house, said in zip(houses, told[::2]) if said[0] == "ok"}
    images = {house: bytes.fromhex(said[2]) for house, said in zip(houses, told[1::2])}
    left = {house for house, image in images.items() if int.from_bytes(image[9:17], "big") < LAST_TIME}
    dumps = zip(houses, told[2 * len(houses) :])
    return down, {house: int(said[2]) for house, said in dumps if said[:2] == ["dump", "epoch"]}, left


def master_without(directory: Directory, held: dict[int, int], without: list[int]) -> int | None:
    """The master of a directory once these houses are left out, if any house can be."""
    if directory.master not in without:
        return directory.master
    able = [
        (held[it], -it)
        for it, (since, _) in directory.members.items()
        if it not in without and held.get(it, 0) >= since
    ]
    return -max(able)[1] if able else None


def wanted(program: str, lines: list[str], cell: Cell, number: int, without: list[int]) -> tuple[list[str], str]:
    """The lines that `cdsmend` has to write, and the name of the trouble."""
    directory = cell.directories.get(number)
    if not directory:
        return ["refused NoDirectory"], "no directory"
    down, held, left = state_of(program, lines, number, list(directory.members))
    master = master_without(directory, held, without)
    if master is None:
        return ["refused NoReplica"], "no replica"
    if master not in left:
        return ["refused StampsSpent"], "no stamp"
    stay = directory.words(without)
    others = [word for house, word in stay if house != master]
    ready = not without and not down and all(held.get(it) == directory.epoch for it in directory.members)
    first, found = cell.posted, list[str]()
    if not ready:
        found += [f"start {house}" for house, _ in stay if house in down]
        found.append(" ".join(["epoch", str(number), str(master), *others]))
        found += [f"deliver {first + it}" for it in range(1, len(others) + 1)]
        first += len(directory.members) - 1
    found.append(f"skulk {master} {number}")
    found += [f"deliver {first + it}" for it in range(1, 4 * len(others) + 1)]
    if without:
        return found, "without houses" if master == directory.master else "another master"
    return found, "ready" if ready else "down" if down else "in trouble"


def fault_of(
    program: str, mender: str, lines: list[str], cell: Cell, number: int, without: list[int]
) -> tuple[str | None, str]:
    """What is wrong with what mends the directory without these houses, if anything, and the name of the trouble."""
    due, trouble = wanted(program, lines, cell, number, without)
    words = [str(number), *(["-", *map(str, without)] if without else [])]
    first = [mender] if os.path.isfile(mender) else shlex.split(mender)
    status, output = programs.ran([*first, *words], octets_of(lines))
    added = output.decode().splitlines()
    if status or added != due:
        return f"cdsmend {' '.join(words)} ends with status {status} and {added}, not {due}", trouble
    if due[0].startswith("refused "):
        return None, trouble
    listed = [it for it, _ in cell.directories[number].words(without)]
    return vain_in(program, lines, added, [f"dump {it} {number}" for it in listed]), trouble


def vain_in(program: str, lines: list[str], added: list[str], asked: list[str]) -> str | None:
    """What is wrong with the added lines, if anything, where these questions after them tell what the houses hold."""
    answers, _ = run([program, "run"], lines + added)
    told = [said[-1] for number, said in answers.items() if number > len(lines)]
    vain = [it for it in told if IN_VAIN.match(it)]
    if vain or len(told) != len(added) or " complete " not in told[-1]:
        return f"it is in vain: {vain or told[-1:]}"
    advances = [f"deliver {it}" for it in serials_of(told[-1])]
    return difference_in(program, lines + added + advances, asked)


def difference_in(program: str, lines: list[str], asked: list[str]) -> str | None:
    """How the dumps after a script differ, if they do."""
    answers, _ = run([program, "run"], lines + asked)
    dumps = ["\n".join(said) for number, said in answers.items() if number > len(lines)]
    if len(dumps) != len(asked) or len(set(dumps)) != 1 or not dumps[0].startswith("dump epoch "):
        return f"the houses hold {sorted(set(dumps))}"
    return None


def keep(lines: list[str]) -> None:
    """Keeps a script that is not mended."""
    os.makedirs(os.path.dirname(FOUND), exist_ok=True)
    with open(FOUND, "wb") as it:
        it.write(octets_of(lines))


def mends(seconds: float, seed: int, program: str, mender: str, inputs: int = -1) -> bool:
    """Mends random cells for so long, or so many of them, prints their troubles and the first fault, and returns
    whether there is none."""
    troubles, start, count, fault = Counter[str](), time.monotonic(), 0, None
    while not fault and time.monotonic() - start < seconds and count != inputs:
        source = random.Random(seed + count)
        lines = Maker(source).script()
        cell = Cell(program, lines)
        number = cell.choose(source)
        fault, trouble = fault_of(program, mender, lines, cell, number, houses_left_out(source, cell, number))
        troubles[trouble] += 1
        count += 1
    print(", ".join(f"{number} {trouble}" for trouble, number in troubles.most_common()))
    if fault:
        keep(lines)
        print(f"seed {seed + count - 1}: {fault}")
    print(f"{count} cells, {'1 not' if fault else 'all mended'}", flush=True)
    return not fault


def main(words: list[str]) -> int:
    """Does what these words say, and returns the exit status."""
    parser = tool.Words(__doc__)
    parser.add_argument("seconds", type=float)
    parser.add_argument("--inputs", type=int, default=-1)
    parser.add_argument("--seed", type=int, default=1)
    parser.add_argument("--program")
    parser.add_argument("--mender")
    parser.add_argument("--proved", action="store_true")
    given = parser.parse_args(words)
    try:
        program = given.program or programs.chosen("cdsreplay", None, given.proved)
        mender = given.mender or programs.chosen("cdsmend", None, given.proved)
    except programs.NoProgram:
        return 1
    return 0 if mends(given.seconds, given.seed, program, mender, given.inputs) else 1


if __name__ == "__main__":
    tool.run(main)
