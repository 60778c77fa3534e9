"""What each planted bug changes, and which functions of docs/RULES.md it so belongs to."""

from __future__ import annotations

import functools
import re
from collections.abc import Iterator

from . import sources


def changed_lines(crate: str, name: str) -> Iterator[tuple[str, int]]:
    """The file and the line of each text that a planted bug changes."""
    files, olds = sources.bugs()[crate, name]
    for file in files:
        path = f"crates/{crate}/{file}"
        text = sources.text_of(path)
        for old in olds:
            if old in text:
                yield path, text.count("\n", 0, text.index(old)) + 1


@functools.cache
def functions_in(path: str) -> list[sources.Function]:
    """The functions of a file, in the order of their lines."""
    return sorted((it for it in sources.functions() if it.file == path), key=lambda it: it.line)


def changed(crate: str, name: str) -> set[sources.Function]:
    """The functions that a planted bug changes; of a constant or a derived order those that name it, and of a
    definition the crate's laws."""
    found = set()
    for path, line in changed_lines(crate, name):
        if "/specs/" in path:
            found |= set(functions_in(f"crates/{crate}/src/laws.rt"))
            continue
        above = [it for it in functions_in(path) if it.line <= line]
        found |= {above[-1]} if above else users_of(crate, path, line)
    return found


def users_of(crate: str, path: str, line: int) -> set[sources.Function]:
    """The functions that name the constant or the type at a line: of its crate, or else of those above it."""
    before = sources.text_of(path).split("\n")[:line]
    named = [it for text in before for it in re.findall(r"^ *(?:pub(?:\([^)]*\))? )?(?:const|struct|enum) (\w+)", text)]
    known = [it for it in sources.functions() if named and re.search(rf"\b{named[-1]}\b", it.head + it.body)]
    above = {it for it in known if crate in sources.stood_on()[it.crate]}
    return {it for it in above if it.crate == crate} or above


@functools.cache
def callers() -> dict[sources.Function, set[sources.Function]]:
    """Of each function those that can call it."""
    calls = sources.Calls()
    found: dict[sources.Function, set[sources.Function]] = {}
    for it in sources.functions():
        if not it.is_test and it.crate not in sources.TESTS:
            for called in calls.of(it):
                found.setdefault(called, set()).add(it)
    return found


def nearest(functions: set[sources.Function], named: set[sources.Function]) -> set[sources.Function]:
    """The functions of `named` that are these, or else the nearest ones above them that call them."""
    known, level = set(functions), set(functions)
    while level and not level & named:
        level = set().union(*(callers().get(it, set()) for it in level)) - known
        known |= level
    return level & named


def by_function(
    named: set[sources.Function],
) -> tuple[dict[sources.Function, list[tuple[str, str]]], list[tuple[str, str]]]:
    """Of each function of `named` the planted bugs that change it, or what only such functions call; and the bugs of
    none."""
    found: dict[sources.Function, list[tuple[str, str]]] = {}
    lost = []
    for crate, name in sorted(sources.bugs()):
        at = nearest(changed(crate, name), named)
        for it in at:
            found.setdefault(it, []).append((crate, name))
        if not at:
            lost.append((crate, name))
    return found, lost
