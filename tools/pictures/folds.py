"""Steps that share a column of a picture: houses that are made, a fan of deliveries, and answers that come to one
house."""

from __future__ import annotations

from collections.abc import Callable

from .facts import Message, Step
from .shapes import short

MOST_HOUSES, LEAST_FOLDED = 4, 6
MOST_NAMED = 6  # of messages that are lost


class Column:
    """Steps of one column. `kind` is `one`, `houses`, `fan` or `answers`."""

    def __init__(self, kind: str, steps: list[Step]) -> None:
        self.kind, self.steps, self.first, self.last = kind, steps, steps[0], steps[-1]

    def counts(self, messages: dict[int, Message]) -> str:
        """What is said of a fan or of answers: how many of the messages that were posted with them were taken, and
        which were lost."""
        taken = {it.way.serial for it in self.steps if it.has_changed and it.command == "deliver"}
        if self.kind == "answers":
            return f"{len(taken)} of {len(self.steps)} taken"
        first = self.first.way
        mates = [it for it in messages.values() if it.posted == first.posted and it.kind == first.kind]
        lost = [str(it.way.serial) for it in self.steps if it.command == "lose"]
        named = ", ".join(lost[:MOST_NAMED]) + (" …" if len(lost) > MOST_NAMED else "")
        return f"{len(taken)} of {len(mates)} taken" + (f", lost: {named}" if lost else "")

    def label(self, messages: dict[int, Message]) -> str:
        """The words above a column of several steps."""
        if self.kind == "houses":
            return f"houses {self.first.house} to {self.last.house}"
        return short(f"{self.first.way.kind}: {self.counts(messages)}", 44)


def is_house(step: Step, _: list[Step]) -> bool:
    """Whether a step makes a house."""
    return step.command == "house" and step.outcome == "ok"


def is_fan(step: Step, run: list[Step]) -> bool:
    """Whether a step delivers or loses one more of the messages that were posted together, at another house."""
    message = step.message
    if message is None or not message.receiver or step.stop is not None or step.outcome == "complete":
        return False
    if step.command not in ("deliver", "lose") or message.lost == message.posted:
        return False
    first = run[0].way if run else message
    is_mate = message.posted == first.posted and message.kind == first.kind and message.sender == first.sender
    return is_mate and all(it.way.receiver != message.receiver for it in run)


def is_answer(step: Step, run: list[Step]) -> bool:
    """Whether a step delivers one more answer to a skulk, which is not the last of its round."""
    message = step.message
    if (
        message is None
        or step.command != "deliver"
        or step.stop is not None
        or step.outcome == "complete"
        or " posted " in step.answer
    ):
        return False
    first = run[0].way if run else message
    is_same = (
        message.kind == first.kind
        and message.receiver == first.receiver
        and message.stamp == first.stamp
        and message.dir == first.dir
    )
    return message.kind in ("Gathered", "SpreadAck") and is_same


RUNS = (("houses", is_house, MOST_HOUSES + 1), ("fan", is_fan, LEAST_FOLDED), ("answers", is_answer, LEAST_FOLDED))


def run_from(steps: list[Step], begin: int, belongs: Callable[[Step, list[Step]], bool]) -> list[Step]:
    """The steps from a place on that belong together."""
    run: list[Step] = []
    for at in range(begin, len(steps)):
        if not belongs(steps[at], run):
            break
        run.append(steps[at])
    return run


def fold(steps: list[Step]) -> list[Column]:
    """The columns of steps, in their order."""
    columns, at = [], 0
    while at < len(steps):
        runs = [(kind, run_from(steps, at, belongs), least) for kind, belongs, least in RUNS]
        kind, run = next(((kind, run) for kind, run, least in runs if len(run) >= least), ("one", [steps[at]]))
        columns.append(Column(kind, run))
        at += len(run)
    return columns
