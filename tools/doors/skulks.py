"""The skulks that a door begins: of the directories whose master is a house of this door, if something is new since
the last one."""
from __future__ import annotations

import collections
import time
from collections.abc import Callable, Mapping

from doors.houses import Answer, House
from doors.lines import directory_of
from doors.states import State, ask_state

# The kinds of messages after which a directory has something to be skulked: Update, Join and Leave.
NEWS = ("01", "07", "08")
# A skulk that runs is left alone for so long, in seconds.
YOUNG = 30.0


class Skulks:
    def __init__(self, houses: Mapping[int, House], counts: collections.Counter[str]) -> None:
        self.houses, self.counts = houses, counts
        self.changed: set[int] = set()
        self.began: dict[int, float] = {}

    def mark(self, octets: str) -> None:
        """A message was posted or taken here."""
        if octets[2:4] in NEWS:
            self.changed.add(directory_of(octets))

    def learn(self, house: House) -> None:
        """After a start nobody knows what is new: all that the house holds may be."""

        def heard(told: Answer) -> None:
            for words in (line.split(" ") for line in told or []):
                if len(words) == 4 and words[0] == "directory" and words[2] == "held" and words[1].isdigit():
                    self.changed.add(int(words[1]))

        house.ask("directories", heard)

    def begin_all(self) -> None:
        for directory in list(self.changed):
            for house in self.houses.values():
                if house.is_here:
                    ask_state(house, directory, self.begin_at(house, directory))

    def begin_at(self, house: House, directory: int) -> Callable[[State | None], None]:
        """What begins a skulk by the state of a directory: if the house is its master, and none runs that is young."""

        def heard(state: State | None) -> None:
            began = self.began.get(directory, 0.0)
            is_young = time.monotonic() - began < YOUNG and began > 0
            if state and state.master == house.number and not (state.runs and is_young):
                self.begin(house, directory)

        return heard

    def begin(self, house: House, directory: int) -> None:
        self.began[directory] = time.monotonic()
        self.changed.discard(directory)
        self.counts["skulks"] += 1

        def heard(told: Answer) -> None:
            if not told or not told[-1].startswith("ok"):
                self.changed.add(directory)

        house.ask(f"skulk {directory}", heard)
