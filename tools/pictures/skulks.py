"""Who has answered in the skulks that run: it is in no answer of the program, and follows from the deliveries."""

from __future__ import annotations

from .cell import Replay
from .facts import Skulk, Step


def answered(replay: Replay) -> list[list[tuple[int, int, bool]]]:
    """For each skulk the steps at which its house took an answer, with the member that gave it and whether the round
    ended then."""
    found = []
    for skulk in replay.skulks:
        last = len(replay.steps) - 1 if skulk.end is None else skulk.end
        found.append([it for it in map(lambda step: answer(step, skulk), replay.steps[skulk.start : last + 1]) if it])
    return found


def answer(step: Step, skulk: Skulk) -> tuple[int, int, bool] | None:
    """What a step says of a skulk: its place, who answered, and whether the next round began; or None."""
    message = step.message
    if (
        message is None
        or step.command != "deliver"
        or not step.has_changed
        or message.kind not in ("Gathered", "SpreadAck")
    ):
        return None
    if (message.receiver, message.dir, message.stamp) != (skulk.house, skulk.dir, skulk.stamp):
        return None
    return step.at, message.sender, message.kind == "Gathered" and " posted " in step.answer
