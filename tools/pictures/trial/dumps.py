"""What the page says of a house and a directory, and what `dump` does, as the same words."""

from __future__ import annotations

import re
import subprocess
from typing import Any

# A house and a directory.
Place = tuple[int, int]


class Cut:
    """A script that is cut after a line, with questions after it."""

    def __init__(self, program: str, words: list[str], lines: list[str]) -> None:
        self.program, self.words, self.lines = program, words, lines

    def dumps(self, last: int, houses: list[int], directories: list[int], downs: list[int]) -> dict[Place, list[str]]:
        """The dumps after a line, by house and directory. Those that are down are started for it."""
        asked = [(house, directory) for house in houses for directory in directories]
        lines = [
            *self.lines[:last],
            *(f"start {it}" for it in downs),
            *(f"dump {house} {directory}" for house, directory in asked),
        ]
        ran = subprocess.run(
            [self.program, *self.words],
            input="".join(f"{it}\n" for it in lines).encode(),
            stdout=subprocess.PIPE,
            check=True,
        )
        first = last + len(downs) + 1
        found: dict[Place, list[str]] = {it: [] for it in asked}
        for line in ran.stdout.decode().split("\n")[:-1]:
            number, _, said = line.partition(" ")
            if int(number) >= first and said != "end":
                found[asked[int(number) - first]].append(said)
        return {place: shown(said, place[0]) for place, said in found.items() if not said[0].startswith("refused")}


def shown(said: list[str], house: int) -> list[str]:
    """What the page shows of a dump: of the members what the house itself is, and the rest as it is."""
    words = said[0].split()
    own = next((it for it in words[6:] if it.startswith(f"{house}:")), "none:none:none").split(":")
    return [f"epoch {words[2]} allupto {words[4]} since {own[1]} {own[2]}", *said[1:]]


def of_tables(tables: list[Any], nodes: dict[str, str]) -> dict[Place, list[str]]:
    """What the tables of the page say, by house and directory."""
    found: dict[Place, list[str]] = {}
    for table in tables:
        heads = {row[0]: row[1:] for row in table["heads"][1:]}
        for at, name in enumerate(table["heads"][0][1:]):
            for house in houses_of(name):
                if heads["is"][at].endswith("holds none") or heads["is"][at].startswith("left") or not heads["is"][at]:
                    continue
                lines = [head_of(heads["is"][at], heads["AllUpTo"][at], nodes)]
                facts = (line_of(row[0], row[1], row[2 + at], nodes) for row in table["rows"])
                found[house, int(table["dir"])] = lines + [it for it in facts if it]
    return found


def houses_of(name: str) -> list[int]:
    """The houses of a column's head."""
    found: list[int] = []
    for one, other in re.findall(r"(\d+)(?: to (\d+))?", name):
        found += range(int(one), int(other or one) + 1)
    return found


def stamp(text: str, nodes: dict[str, str]) -> str:
    """A whole stamp: after its time the house or the node."""
    time, _, house = text.partition("@")
    return f"{time}@{nodes.get(house) or house.rjust(12, '0')}"


def head_of(role: str, up_to: str, nodes: dict[str, str]) -> str:
    """The first line of a dump, as far as the page shows it."""
    ((kind, epoch, since),) = re.findall(
        r"^(master|secondary|read-only|unlisted), epoch (\d+)(?:, since (\d+))?$", role
    )
    known = {"master": "m", "secondary": "s", "read-only": "r", "unlisted": "none"}[kind]
    since = "none" if kind == "unlisted" else since or "1"
    return f"epoch {epoch} allupto {up_to if up_to == 'none' else stamp(up_to, nodes)} since {since} {known}"


def line_of(kind: str, key: str, cell: str, nodes: dict[str, str]) -> str | None:
    """A line of a dump, or nothing where the house has not this fact."""
    if cell in ("–", "", "gone"):
        return None
    if kind == "value":
        is_present, at = cell.split()
        return f"value {key} {is_present} {stamp(at, nodes)}"
    if kind == "attr":
        return f"attr {key} none" if cell == "never cleared" else f"attr {key} {stamp(cell.split()[1], nodes)}"
    ((what, birth, death),) = re.findall(r"^(\w+), born (\S+), (live|deleted \S+)$", cell)
    return f"entry {key} {what} {stamp(birth, nodes)} {'live' if death == 'live' else stamp(death.split()[1], nodes)}"
