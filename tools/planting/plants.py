"""Planted bugs: what each changes, in which functions, and what came of it."""

from __future__ import annotations

import re

KINDS = REFUSED, BY_NAME, PASSED, BAD, UNTRIED = "refused", "by name alone", "let through", "bad", "not tried"
# A reason that says that a proof names what is not there, or uses one that does.
NO_SUCH_NAME = re.compile(
    r"has no field|is not in scope|has no `|was not admitted|`goal\.[^`]*`: module `|which was rejected"
)
# A form that the toolchain does not check, so that its refusal shows nothing.
NOT_COVERED = re.compile(r"does not cover this function")
HEAD = re.compile(r"( *)(?:pub(?:\([a-z ]+\))? )?(?:const )?(?:unsafe )?fn (\w+)")
# A block of a type, and of no trait. A check names the functions there after the type and the type's module, wherever
# the block is.
BLOCK = re.compile(r"impl\b(?!.* for )(?:<.*?>)? (?:\w+::)*(\w+)")


class Plant:
    """A planted bug: its file, the texts that it changes there, and what came of it."""

    def __init__(self, crate: str, name: str, text: str) -> None:
        self.crate, self.name = crate, name
        self.file, self.kind, self.why = "", UNTRIED, ""
        self.changes: list[tuple[str, str]] = []
        self.functions: tuple[str, ...] = ()
        old = None
        for line in text.split("\n"):
            word, _, rest = line.partition(": ")
            if word == "file":
                self.file = rest.strip()
            elif word == "old":
                old = rest
            elif line.startswith("new:") and old is not None:
                self.changes.append((old, rest))
                old = None

    def end(self, kind: str, why: str = "") -> None:
        """Notes what came of it."""
        self.kind, self.why = kind, why

    def fall(self, reasons: list[str]) -> None:
        """Notes that the bug was refused for these reasons, or what else that shows."""
        covered = [why for why in reasons if not NOT_COVERED.search(why)]
        other = [why for why in covered if not NO_SUCH_NAME.search(why)]
        kind = REFUSED if other else BY_NAME if covered else BAD
        self.end(kind, (other or covered or reasons)[0])

    def changed(self, text: str) -> str | None:
        """The text with the bug, or None if it cannot be planted there."""
        for old, new in self.changes:
            if text.count(old) != 1:
                return None
            text = text.replace(old, new)
        return text if self.changes else None

    def heads(self, text: str) -> list[str]:
        """The functions that the bug changes, or nothing if a change is in none."""
        found = [function_at(text, text.find(old)) for old, _ in self.changes]
        return [it for it in found if it] if all(found) else []


def function_at(text: str, at: int) -> str | None:
    """The function around a place of a file in the layout of `rt fmt`, as `name`, or `Type::name` in a type's block, or
    None."""
    lines, number = text.split("\n"), text.count("\n", 0, max(at, 0))
    for first in range(number, -1, -1):
        head = HEAD.match(lines[first])
        if head and number <= end_of(lines, first, head[1]):
            block = head[1] and BLOCK.match(item_above(lines, first))
            return f"{block[1]}::{head[2]}" if block else head[2]
    return None


def item_above(lines: list[str], number: int) -> str:
    """The first line of the item that a line with an indent is in."""
    return next((it for it in reversed(lines[:number]) if it[:1].isalpha() and not it.startswith("where")), "")


def end_of(lines: list[str], first: int, indent: str) -> int:
    """The number of the last line of the function that begins in this line."""
    if lines[first].endswith("}"):
        return first
    return next((last for last in range(first, len(lines)) if lines[last] == f"{indent}}}"), len(lines))
