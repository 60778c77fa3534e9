"""The entries that a question of the name service comes to, in their order, for the tree of names on a page."""

from __future__ import annotations

from collections.abc import Iterator

from .cell import Replay
from .entries import State
from .facts import Step

QUESTIONS = ("import", "lookup", "grouplist", "entrylist", "proflist", "read", "readlink")


def searches(replay: Replay, steps: list[Step]) -> dict[int, list[tuple[int, str]]]:
    """For each such question of these steps, by its place, the directory and the simple name of each entry."""
    found, states = {}, State(replay, 0)
    waiting = iter(replay.steps)
    for step in steps:
        if step.command in QUESTIONS:
            take_up_to(states, waiting, step)
            order = searched(states, step)
            if order:
                found[step.at] = order
    return found


def take_up_to(state: State, waiting: Iterator[Step], last: Step) -> None:
    """Takes the steps before this one."""
    for step in waiting:
        if step is last:
            return
        if step.is_done():
            state.take(step)


def searched(state: State, step: Step) -> list[tuple[int, str]]:
    """The places that a question comes to."""
    name = step.words[2]
    if step.command in ("import", "lookup"):
        return state.order(name, step.words[3])
    place = state.place_of(name, step.command != "readlink")
    return [place] if place else []
