"""What the console of a cell numbered, kept in a file over its ends: each line before a house gets it, and then what
came of it."""
from __future__ import annotations

import os
from collections.abc import Iterator

from cds.console import Console


class Ledger:
    """`console` is what is known to be done, and `made` are the houses that were made, with their nodes. `pending` is
    the house and the line of which nothing is known yet, or None."""

    def __init__(self, path: str) -> None:
        self.console = Console()
        self.made: dict[int, str] = {}
        self.pending: tuple[int, str] | None = None
        self.path = path
        for line in self.lines():
            if line in ("done", "not done"):
                self.came(line == "done")
            else:
                house, _, text = line.partition(" ")
                self.pending = (int(house), text)

    def lines(self) -> Iterator[str]:
        if not os.path.exists(self.path):
            return
        with open(self.path, encoding="ascii") as file:
            text = file.read()
        # (a line without its end was never sent)
        yield from text.split("\n")[:-1]

    def write(self, line: str) -> None:
        """Adds a line, over what a crash may have left of one."""
        kept, is_new = sum(len(line) + 1 for line in self.lines()), not os.path.exists(self.path)
        with open(self.path, "w" if is_new else "r+", encoding="ascii") as file:
            file.truncate(kept)
            file.seek(kept)
            file.write(f"{line}\n")
            file.flush()
            os.fsync(file.fileno())
        if is_new:
            sync_folder(os.path.dirname(self.path) or ".")

    def begin(self, house: int, text: str) -> None:
        self.write(f"{house} {text}")
        self.pending = (house, text)

    def settle(self, is_done: bool) -> None:
        """What came of the line that was pending."""
        self.write("done" if is_done else "not done")
        self.came(is_done)

    def came(self, is_done: bool) -> None:
        if is_done and self.pending:
            house, text = self.pending
            self.console.done(house, text)
            if text.startswith("house "):
                self.made[house] = text.split(" ")[2].lower()
        self.pending = None


def sync_folder(path: str) -> None:
    """A new file is in its folder for good."""
    folder = os.open(path, os.O_RDONLY)
    try:
        os.fsync(folder)
    finally:
        os.close(folder)
