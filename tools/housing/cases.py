"""Cases of a house: what it reads and what it says, with starts between. They are in house.case and on the page
docs/HOUSE.md."""

from __future__ import annotations

import os
import re
import tempfile
from collections.abc import Iterator

from building.sources import ROOT
from cds.processes import Process

CASES = f"{ROOT}/tools/housing/house.case"
PAGE = f"{ROOT}/docs/HOUSE.md"
# What is read in a life, and what is said; and a title, with the lives of a case.
Life = tuple[list[str], list[str]]
Case = tuple[str, list[Life]]


def of_file() -> Iterator[Case]:
    """The cases of house.case."""
    with open(CASES, encoding="ascii") as file:
        parts = re.split(r"^## (.*)\n", file.read(), flags=re.MULTILINE)[1:]
    for title, text in zip(parts[::2], parts[1::2]):
        yield title, [life(part) for part in re.split(r"^! again\n", text, flags=re.MULTILINE)]


def of_page() -> list[Case]:
    """The examples of the page: one case for each block, with the blocks `again` after it."""
    with open(PAGE, encoding="ascii") as file:
        blocks = re.findall(r"^```house( again)?\n(.*?)^```$", file.read(), flags=re.MULTILINE | re.DOTALL)
    found: list[Case] = []
    for again, text in blocks:
        if not again:
            found.append((f"docs/HOUSE.md, example {len(found) + 1}", []))
        found[-1][1].append(life(text))
    return found


def life(text: str) -> Life:
    """What is read in a life, and what is said. (The line that ends a case is blank, and no line of it.)"""
    lines = text.removesuffix("\n").split("\n")
    lines = lines[:-1] if lines and not lines[-1] else lines
    return [line for line in lines if not line.startswith("=> ")], [
        line[3:] for line in lines if line.startswith("=> ")
    ]


def failure(program: str, lives: list[Life]) -> str | None:
    """What a house says otherwise than a case, or None."""
    with tempfile.TemporaryDirectory() as folder:
        os.makedirs(f"{folder}/h")
        for read, due in lives:
            said = said_in_a_life(program, f"{folder}/h", read, len(due))
            if said != due:
                at = next((at for at, line in enumerate(due) if said[at : at + 1] != [line]), len(due))
                return f"line {at + 1} is {said[at : at + 1]}, due is {due[at : at + 1]}"
    return None


def said_in_a_life(program: str, folder: str, read: list[str], count: int) -> list[str]:
    """So many lines that a house says of these; then it is killed, and what it said besides is added."""
    process, found = Process(program, folder), list[str]()
    process.send(read)
    while len(found) < count and (line := process.next_line()) is not None:
        found.append(line)
    process.kill()
    while (line := process.next_line()) is not None:
        found.append(line)
    process.drained()
    return found
