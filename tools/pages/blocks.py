"""The commands that pages show: in fenced blocks, and between the words of a page.

A fenced block `sh` has commands, a line each. One `console` is a session: after a line `$ COMMAND` comes what the
command prints, and `PROMPT> LINE` is what is typed into it. Other blocks have no commands: a block without a word of a
kind, or of another language.

A sentence "Not tried by `./test`:", with the reason, says that the commands after it are not run, up to the end of its
part; in front of the first part it is said of the whole page. The words "keeps that terminal" after a block say that
its last command goes on while others run.
"""

from __future__ import annotations

import dataclasses
import glob
import os
import re

from building.sources import ROOT

SH, CONSOLE = "sh", "console"
UNTRIED, KEEPS = re.compile(r"Not\s+tried\s+by\s+`\./test`(:\s+[^.]+\.)?"), "keeps that terminal"
PART = re.compile(r"^## ", re.M)
PROMPT = re.compile(r"(?:cell|\d+)> ?(.*)")
# The first words of a command of this repository, of a session, and of what makes files or compiles.
BEGINS = re.compile(r"(?:\$ |\./|(?:tools|bench|out)/[a-z]|(?:mkdir|cp|rustc|cargo|cc|head|cat|export|nsi) )")
TOOLS = ("./", "tools/", "bench/")
# A command between the words of a page: it reads or writes a file or another command, and no word of it is to be
# replaced.
INLINE = re.compile(r"`((?:\./|tools/|bench/|printf |\()[^`]* [<>|]+ ?[^`]*)`")
REPLACED = re.compile(r"\b[A-Z]{2,}\b|\b[A-Z]\b|\.\.")


@dataclasses.dataclass(frozen=True)
class Block:
    """A fenced block: its page, the line on which it begins, its kind, its lines, why it is not tried, and the words
    after it."""

    page: str
    line: int
    kind: str
    lines: tuple[str, ...]
    reason: str = ""
    after: str = ""
    # Whether the page says that its command fails.
    fails: bool = False

    @property
    def place(self) -> str:
        """Where it is."""
        return f"{self.page}, line {self.line}"

    @property
    def has_commands(self) -> bool:
        """Whether it shows commands."""
        return self.kind in (SH, CONSOLE)

    @property
    def keeps(self) -> bool:
        """Whether its last command goes on."""
        return KEEPS in self.after

    def fault(self) -> str | None:
        """What a block that is not run has that it may not have, or None."""
        if not self.kind:
            hidden = next((it for it in self.lines if BEGINS.match(it)), None)
            return f"a block of no kind has a command: {hidden}" if hidden else None
        if self.kind == SH:
            lacking = [
                it.command
                for it in steps(self)
                if it.command.startswith(TOOLS) and not os.access(f"{ROOT}/{it.command.split()[0]}", os.X_OK)
            ]
            return f"there is no such program: {lacking[0]}" if lacking else None
        return None


@dataclasses.dataclass(frozen=True)
class Step:
    """A command, what is typed into it, and the lines that it has to print, or None if the page does not show them."""

    command: str
    typed: tuple[str, ...] = ()
    printed: tuple[str, ...] | None = None


def steps(block: Block) -> list[Step]:
    """The commands of a block."""
    if block.kind == SH:
        return [Step(it.partition("  #")[0].strip()) for it in block.lines if it.strip() and not it.startswith("#")]
    found: list[Step] = []
    for line in block.lines:
        typed = PROMPT.fullmatch(line)
        if line.startswith("$ "):
            found.append(Step(line[2:], printed=()))
        elif found and typed:
            found[-1] = dataclasses.replace(found[-1], typed=(*found[-1].typed, typed[1]))
        elif found:
            found[-1] = dataclasses.replace(found[-1], printed=(*(found[-1].printed or ()), line))
    return found


def reasons(page: str, text: str) -> list[tuple[int, int, str]]:
    """Which lines of a page are not tried, from the first to the one before the last, and why."""
    parts, found = [it.start() for it in PART.finditer(text)], list[tuple[int, int, str]]()
    for mark in UNTRIED.finditer(text):
        if not mark[1]:
            raise ValueError(f"{page} does not say why something is not tried")
        is_of_page = not parts or mark.start() < parts[0]
        end = len(text) if is_of_page else next((it for it in parts if it > mark.start()), len(text))
        found.append(
            (
                text.count("\n", 0, mark.start()) + 1,
                text.count("\n", 0, end) + 2,
                " ".join(mark[1].strip(":. ").split()),
            )
        )
    return found


def blocks(page: str, text: str) -> list[Block]:
    """The fenced blocks of a page, and each command between its words, as a block of its own, in their order."""
    lines, untried, found, at = text.split("\n"), reasons(page, text), list[Block](), 0
    while at < len(lines):
        why = next((it for first, end, it in untried if first <= at + 1 < end), "")
        if lines[at].startswith("```"):
            end = lines.index("```", at + 1)
            after = " ".join(lines[end + 1 : end + 3])
            found.append(Block(page, at + 1, lines[at][3:].strip(), tuple(lines[at + 1 : end]), why, after))
            at = end
        else:
            for span in INLINE.finditer(lines[at]):
                if not REPLACED.search(span[1]):
                    found.append(Block(page, at + 1, SH, (span[1],), why, fails="fails" in lines[at][: span.start()]))
        at += 1
    return found


def pages() -> list[str]:
    """The pages that a reader follows."""
    more = [
        it for top in ("examples", "tools", "bench") for it in glob.glob(f"{ROOT}/{top}/**/README.md", recursive=True)
    ]
    return [
        os.path.relpath(it, ROOT)
        for it in (f"{ROOT}/README.md", *sorted(glob.glob(f"{ROOT}/docs/*.md")), *sorted(more))
    ]


def text_of(page: str) -> str:
    """The text of a page."""
    with open(f"{ROOT}/{page}", encoding="utf-8") as file:
        return file.read()
