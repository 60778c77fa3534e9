"""Tries `cdsexplain` on altered journals (altered.py), and compares what it says with tools/houses and with a replay by
another program."""

from __future__ import annotations

import collections
import itertools
import re
import subprocess
from collections.abc import Callable, Sequence

from building.sources import ROOT
from cds import journals
from housing import explaining, replaying
from housing.altered import ROWS, Alterations, Case
from housing.tests import PATIENCE, HouseTest, Kit

PAGE = f"{ROOT}/tools/housing/README.md"
UNEXPLAINED = "# unexplained: "
FOLDER = re.compile(r"folder (\d+): ")
# What comes of a case: the journals are explained; or what is said first is of the entry that was altered, another one,
# or a folder.
COLUMNS = ("cases", "explained", "that entry", "a later entry", "another house", "a folder")
# The entries of folders.
Journals = list[list[journals.Record]]


class Located(explaining.Explainer):
    """An explainer that knows of which entry each line of its script is."""

    def __init__(self, houses: explaining.Houses) -> None:
        super().__init__(houses)
        # The house and the number of the entry, of each line and of this one.
        self.of: list[tuple[int, int]] = []
        self.at: tuple[int, int] | None = None

    def say(self, line: str, answer: list[str] | None = None) -> None:
        super().say(line, answer)
        self.of.append(self.at or (int(line.removeprefix("octets ").split(" ")[1]), 1))

    def step(self, house: int) -> None:
        item = self.items[house][self.next[house]]
        assert isinstance(item, journals.Record)
        self.at = (house, item.number)
        super().step(house)


def entries_of(folders: Sequence[str]) -> tuple[Journals, list[int]]:
    """The entries of each folder that has some, whose places are `house H entry N`; and the places of those that are
    not good to the end."""
    found, damaged = Journals(), list[int]()
    for at, folder in enumerate(folders, 1):
        # (a segment with its first record alone, which no house leaves, has no entry to explain)
        own, fault = journals.front(folder, fewest=1)
        damaged += [at] if fault else []
        for entry in own:
            entry.place = f"house {own[0].line.split(' ')[1]} entry {entry.number}"
        found += [own] if own else []
    return found, damaged


def twin_in(entries: Journals) -> str | None:
    """What is said of the first house, by its number, that has the number or the node of one before."""
    words = sorted((own[0].line.split(" ") for own in entries), key=lambda line: int(line[1]))
    for at, (_, house, node) in enumerate(words):
        for _, other, other_node in words[:at]:
            if house == other:
                return f"house {house} entry 1: the house of another journal"
            if node == other_node:
                return f"house {house} entry 1: the node of house {other}"
    return None


def due(kit: Kit, entries: Journals) -> tuple[list[str] | None, str]:
    """What `cdsexplain` has to say of entries: a script; or what it says of one, or the first words of that, which end
    in a colon."""
    if twin := twin_in(entries):
        return None, twin
    explainer, stuck = Located({int(own[0].line.split(" ")[1]): own for own in entries}), ""
    try:
        explainer.run()
    except explaining.Unexplained as reason:
        stuck = re.sub("(: the console would give) .*", r"\1 another list", str(reason))
    wrong = replaying.differences(kit.plain, explainer.script)
    if wrong:
        house, number = explainer.of[wrong[0].place]
        return None, f"house {house} entry {number}:"
    return (None, stuck) if stuck else (explaining.without_questions(explainer.script), "")


class Said:
    """What `cdsexplain` says: a script, what it says of an entry, or None, and what of folders."""

    def __init__(self, kit: Kit, folders: Sequence[str]) -> None:
        command = [str(kit.explainer), *folders]
        done = subprocess.run(command, capture_output=True, text=True, timeout=PATIENCE, check=False)
        lines = done.stdout.splitlines()
        told = [line.removeprefix(UNEXPLAINED) for line in lines if line.startswith(UNEXPLAINED)]
        assert done.returncode == (3 if told else 0) and not done.stderr, done
        self.script = lines[: len(lines) - len(told)]
        assert not any(line.startswith("#") for line in self.script), lines[-3:]
        self.entry = told.pop(0) if told and not FOLDER.match(told[0]) else None
        self.folders = told

    def places(self) -> list[int]:
        """The places of the folders of which it says something."""
        return [int(found[1]) for found in map(FOLDER.match, self.folders) if found]


def column(case: Case, said: Said) -> str:
    """Where what is said belongs."""
    words = (said.entry or "").split(" ")
    if said.folders:
        return "a folder"
    if not said.entry:
        return "explained"
    if int(words[1]) != case.house:
        return "another house"
    return "that entry" if case.entry in (None, int(words[3].rstrip(":"))) else "a later entry"


def agree(said: Said, script: list[str] | None, words: str) -> bool:
    """Whether a script had to be written, or this had to be said of an entry, and was."""
    if script is not None or said.entry is None:
        return said.script == script and said.entry is None
    return said.entry == words or words.endswith(":") and said.entry.startswith(words)


def tried(kit: Kit, case: Case) -> tuple[str, str | None]:
    """What comes of a case, and what is wrong with it, or None."""
    said, (entries, damaged) = Said(kit, case.folders), entries_of(case.folders)
    script, words = (None, case.due) if case.due else due(kit, entries)
    if said.places() == damaged:
        agrees = agree(said, script, words)
    else:
        # (a line that no house writes is a fault of the folder to the one, and of the entry to the other)
        agrees = not damaged and len(said.folders) == 1 and said.folders[0].startswith(case.own_folder)
    found = "; ".join([said.entry or "a script", *said.folders])
    return column(case, said), None if agrees else f"{found}, due is {words or 'a script'}, and of folders {damaged}"


def counted(kit: Kit, room: str, row: str) -> tuple[collections.Counter[str], list[str]]:
    """The counts of a row, and its faults."""
    counts, faults = collections.Counter[str](), list[str]()
    for case in itertools.islice(ROWS[row](Alterations(room, kit.house)), 0, None, kit.every):
        what, fault = tried(kit, case)
        counts.update(("cases", what))
        if fault:
            faults.append(f"house {case.house}, entry {case.entry}: {fault}")
    return counts, faults


def written(row: str, counts: collections.Counter[str]) -> str:
    """A row of the table on the page."""
    return f"| {row} | {' | '.join(str(counts[name]) for name in COLUMNS)} |"


def test_of(row: str) -> Callable[[HouseTest], None]:
    """The test of a row: each case is explained, or something is said of it, as it has to be; and the page has the
    counts."""

    def test(self: HouseTest) -> None:
        counts, faults = counted(self.kit, self.room, row)
        assert not faults, faults[:5]
        if self.kit.every > 1:
            return
        with open(PAGE, encoding="ascii") as page:
            assert written(row, counts) in page.read().split("\n"), f"{PAGE} has not: {written(row, counts)}"

    return test


class OfAltered(HouseTest):
    """A test for each row."""


for name in ROWS:
    setattr(OfAltered, f"test_where_{name}", test_of(name))
