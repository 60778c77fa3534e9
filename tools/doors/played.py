"""A house that a test plays, for the tests of the parts of a door."""
from __future__ import annotations

from collections.abc import Callable

from doors.houses import Answer, House
from doors.loops import Loop


class Played(House):
    """A house whose answers are given by a test: `asked` has its lines, each with who hears the answer."""

    def __init__(self, number: int) -> None:
        super().__init__(Loop(), number, [], lambda text: None)
        self.is_up, self.starts = True, 1
        self.asked: list[tuple[str, Callable[[Answer], None]]] = []

    def ask(self, line: str, hear: Callable[[Answer], None]) -> None:
        self.asked.append((line, hear))

    def answer(self, *lines: str) -> str:
        """Answers the oldest line; no lines are none."""
        line, hear = self.asked.pop(0)
        hear(list(lines) or None)
        return line
