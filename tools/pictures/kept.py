"""Which reads a clerk answers from its list, as far as the words of a script and its answers say.

They do where nothing went out of the list: where all that the reads of the script ask for has room in it. Then a read
that was asked and answered before is answered from the list, unless the houses of a directory were changed since.
"""

from __future__ import annotations

from .cell import Replay
from .facts import Step


def used_answers(replay: Replay, room: int) -> dict[int, Step]:
    """For each read that is answered from the list, the read that it is kept from; or nothing where that is not
    known."""
    reads = [it for it in replay.steps if it.command == "read" and it.words[1] == "low" and it.house]
    asked: dict[tuple[str, ...], list[Step]] = {}
    for step in reads:
        asked.setdefault((step.words[0], step.words[2], step.words[3]), []).append(step)
    # (a question for each component of a name, and one for the attribute; links are walked again)
    if (
        any(it.command == "link" for it in replay.steps)
        or sum(len(it[0].words[2].split("/")) for it in asked.values()) > room
    ):
        return {}
    found: dict[int, Step] = {}
    for steps in asked.values():
        found.update(used_of(replay, steps))
    return found


def used_of(replay: Replay, steps: list[Step]) -> dict[int, Step]:
    """Of reads that ask the same, those that are answered by an earlier one."""
    found: dict[int, Step] = {}
    kept = None
    for step in steps:
        if kept and any(it.command in ("epoch", "repoint") and kept.at < it.at < step.at for it in replay.steps):
            kept = None
        if kept and step.outcome == "ok" and step.answer.split()[1:] == kept.answer.split()[1:]:
            found[step.at] = kept
        elif step.outcome == "ok":
            kept = step
    return found
