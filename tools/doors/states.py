"""How a directory is at a house: its epoch, its skulk and its members, by `status` or, where a house does not know
that, by `dump`."""
from __future__ import annotations

from collections.abc import Callable

from doors.houses import Answer, House

UNKNOWN = "fault UnknownCommand"


class State:
    """What a house holds of a directory, if it holds any: `epoch` is 0 if not. `runs` says whether it runs a skulk, if
    that is known. `line` is what says so."""

    def __init__(self, line: str) -> None:
        self.line, words = line, line.split(" ")
        at = words.index("members") if "members" in words else len(words)
        self.epoch = int(words[words.index("epoch") + 1]) if "epoch" in words else 0
        self.runs = "skulk" in words[:at] and words[words.index("skulk") + 1] != "none"
        self.members = [word.split(":") for word in words[at + 1 :]]

    @property
    def master(self) -> int:
        return next((int(house) for house, _, kind in self.members if kind == "m"), 0)


def state_of(line: str) -> State | None:
    """The state that a line of a house says, if it says one."""
    try:
        state = State(line)
        return state if state.master or not state.epoch else None
    except (ValueError, IndexError):
        return None


def ask_state(house: House, directory: int, hear: Callable[[State | None], None]) -> None:
    """Asks for a state. None is heard where the house is not reached."""

    def dumped(told: Answer) -> None:
        hear(state_of(told[0]) if told else None)

    def heard(told: Answer) -> None:
        if told and told[-1].startswith(UNKNOWN):
            house.ask(f"dump {directory}", dumped)
        else:
            hear(state_of(told[-1]) if told else None)

    house.ask(f"status {directory}", heard)
