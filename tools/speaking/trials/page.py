"""Trials of docs/TOOLS.md: a fenced block `console` whose first line begins with `1> ` is what the console says.

Those that begin with `$ ` are sessions of a shell, which tools/testing/page-commands tries.
"""

from __future__ import annotations

import re
from collections.abc import Iterator

from speaking import console, pages, program


def blocks() -> list[str]:
    """The fenced blocks of the page."""
    with open(f"{pages.ROOT}/docs/TOOLS.md", encoding="ascii") as it:
        return re.findall(r"(?ms)^```console\n(.*?)^```$", it.read())


def typed(path: str, block: str) -> str:
    """What the console says to the lines of a session, with the lines."""
    said: list[str] = []
    at = console.Console(program.Program(path), said.append)
    for line in re.findall(r"(?m)^\d+> (.*)$", block):
        said.append(at.prompt() + line)
        at.take(line)
    return "".join(f"{line}\n" for line in said)


def trials(path: str) -> Iterator[tuple[str, str | None]]:
    """All trials of the page."""
    count = 0
    for block in blocks():
        if block.startswith("1> "):
            count += 1
            said = typed(path, block)
            yield "a session of the console", None if said == block else f"it says\n{said}"
    yield "how many sessions the page has", None if count else str(count)
