"""Walks of full names over what a script made, for the commands that name no house."""

from __future__ import annotations

from collections.abc import Sequence

from .facts import Entry, Epoch
from cds.commands import MOST_LINKS


class Walks:
    """What a replay knows of names: entries, epochs, which of these houses hold, and when houses were down."""

    entries: dict[tuple[int, str], Entry]
    epochs: dict[int, list[Epoch]]
    held: dict[tuple[int, int], Epoch | None]
    downs: dict[int, list[tuple[int, int | None]]]

    def is_down(self, house: int) -> bool:
        """Whether the house crashed and was not started again."""
        downs = self.downs.get(house, [])
        return bool(downs) and downs[-1][1] is None

    def entry(self, directory: int, name: str) -> Entry:
        """What is known of a name in a directory."""
        return self.entries.setdefault((directory, name), Entry())

    def asked(self, directory: int, listed: Sequence[int]) -> int:
        """The first of these houses that is up and holds the directory as its master, or 0."""
        for house in listed:
            epoch = self.held.get((house, directory))
            if epoch and epoch.master == house and not self.is_down(house):
                return house
        return 0

    def walk(self, name: str) -> tuple[int, int, str] | None:
        """The house, directory and simple name to which a full name leads, or None where the script alone does not
        tell."""
        for _ in range(MOST_LINKS + 1):
            found = self.walk_once(name.split("/")[2:])
            if not isinstance(found, str):
                return found
            name = found
        return None

    def walk_once(self, names: list[str]) -> str | tuple[int, int, str] | None:
        """As `walk`, of one name; or the next name, behind a link."""
        if 1 not in self.epochs:
            return None
        root = self.epochs[1][-1]
        directory, listed = 1, (root.master, *root.others(root.master))
        for at, name in enumerate(names):
            house, entry = self.asked(directory, listed), self.entries.get((directory, name)) or Entry()
            # A house shows what was made of a name last where it alone accepts updates, or what was made of it ever, if
            # that is one.
            if not house or not entry.is_plain and any(it.master != house for it in self.epochs[directory]):
                return None
            if entry.kind == "link":
                return "/".join([entry.target, *names[at + 1 :]])
            if at + 1 == len(names):
                return house, directory, name
            if entry.child is None:
                return None
            directory, listed = entry.child
        return None
