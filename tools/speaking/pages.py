"""What docs/SCRIPT.md and docs/FORMS.md say of words, commands and refusals, for the tools that say it again."""

from __future__ import annotations

import functools
import os
import pathlib
import re

from cds.commands import COMMANDS
from speaking import language

ROOT = os.path.dirname(os.path.dirname(os.path.dirname(os.path.realpath(__file__))))
PAGES = [f"{ROOT}/docs/{it}.md" for it in ("SCRIPT", "FORMS")]


@functools.lru_cache(1)
def text() -> str:
    """The pages, or nothing if they are not there."""
    try:
        return "\n".join(pathlib.Path(it).read_text(encoding="utf-8") for it in PAGES)
    except OSError:
        return ""


def tables() -> object:
    """The rows of all tables, each a list of cells."""
    return [
        [cell.strip() for cell in line.strip("|").split(" | ")] for line in text().splitlines() if line.startswith("| ")
    ]


def chapter(title: str) -> str:
    """The lines of a chapter up to the next one."""
    _, _, after = text().partition(f"\n## {title}\n")
    return re.split(r"\n## ", after)[0]


def rows(title: str) -> list[list[str]]:
    """The rows of the tables of a chapter."""
    lines = [line for line in chapter(title).splitlines() if line.startswith("| ")]
    return [[cell.strip() for cell in line.strip().removeprefix("|").removesuffix("|").split("|")] for line in lines]


def plain(cell: str) -> str:
    """A cell without links."""
    return re.sub(r"\[([^\]]*)\]\([^)]*\)", r"\1", cell)


@functools.lru_cache(1)
def words() -> dict[str, tuple[str, str]]:
    """For each kind of word what it is, and its form."""
    found = {kind: (what, form) for kind, what, form in (it for it in rows("Words") if len(it) == 3)}
    for kind, (what, form) in list(found.items()):
        found[kind] = what, re.sub(r"\bas H\b", found["H"][1], form)
    found.update(language.OTHER_WORDS)
    return found


@functools.lru_cache(1)
def commands() -> dict[str, str]:
    """What each command does, in a few words."""
    found: dict[str, str] = {}
    for title in ("All commands", "`journal`", "`inquire`"):
        for cells in rows(title):
            for name in re.findall(r"`([a-z]+)[^`]*`", plain(cells[0])):
                if name in COMMANDS:
                    found.setdefault(name, plain(cells[1]))
    return found


@functools.lru_cache(1)
def refusals() -> dict[str, str]:
    """The cause of each refusal."""
    found: dict[str, str] = {}
    for cells in rows("All refusals"):
        for name in re.findall(r"`([A-Za-z]+)[^`]*`", cells[0]):
            found.setdefault(name, plain(cells[1]))
    return found


def paragraph(command: str) -> str:
    """The paragraph that explains a command, or nothing. Of several in one paragraph those sentences that begin with
    it."""
    found = re.search(rf"(?m)^(?:.*\s)?\*\*`{command}\b[^`]*`(?:\*\*| and \*\*).*(?:\n(?!\n).+)*", text())
    if not found:
        return ""
    said = " ".join(found.group().split())
    return plain(said[said.index(f"**`{command}") :]).replace("**", "")
