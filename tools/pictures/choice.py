"""Which steps of a replay a picture has: those between two lines, of a directory, of houses, of an entry, or of a
message."""

from __future__ import annotations

from collections.abc import Callable

from .cell import Replay
from .facts import Step
from .shapes import Undrawable
from cds import answers, commands

MOST_STEPS = 20_000
# Whether a step is chosen.
Test = Callable[[Step], bool]


class Choice:
    """What a picture is of. None is all."""

    def __init__(
        self,
        first: int = 1,
        last: int = 2**63,
        directory: int | None = None,
        houses: set[int] | None = None,
        entry: str | None = None,
        message: int | None = None,
    ) -> None:
        self.first, self.last, self.dir, self.houses = first, last, directory, houses
        self.entry, self.message = entry, message

    def steps(self, replay: Replay) -> list[Step]:
        """The steps that are chosen."""
        if self.dir and self.dir not in replay.epochs:
            raise Undrawable(f"the script makes no directory {self.dir}")
        if self.message and self.message not in replay.messages:
            raise Undrawable(f"the script posts no message {self.message}")
        asked = self.is_of_directory(replay), self.is_of_houses(), self.is_of_entry(replay), self.is_of_message(replay)
        tests = [it for it in asked if it]
        steps = [it for it in replay.steps if self.first <= it.line <= self.last and all(test(it) for test in tests)]
        if not steps:
            raise Undrawable("no step of the script is to be drawn")
        if len(steps) > MOST_STEPS:
            raise Undrawable(f"{len(steps)} steps are more than {MOST_STEPS}; choose some with --from, --to and --dir")
        return steps

    def words(self) -> str:
        """What is chosen besides lines, for a heading."""
        houses = ", ".join(map(str, sorted(self.houses))) if self.houses else ""
        parts = [self.dir and f"directory {self.dir}", houses and f"houses {houses}"]
        parts += [self.entry and f"entry {self.entry}", self.message and f"message {self.message}"]
        return "".join(f", {it}" for it in parts if it)

    def part(self, first: int, last: int) -> Choice:
        """The same between two other lines."""
        return Choice(first, last, self.dir, self.houses, self.entry, self.message)

    def is_of_directory(self, replay: Replay) -> Test | None:
        """Asks whether a step is of the directory, or of a member of it alone."""
        if self.dir is None:
            return None
        members = {house for epoch in replay.epochs[self.dir] for house in epoch.members}

        def is_of(step: Step) -> bool:
            is_of_house = step.command in commands.OF_HOUSES or step.outcome in answers.STOPS.values()
            return self.dir in step.dirs or is_of_house and step.house in members

        return is_of

    def is_of_houses(self) -> Test | None:
        """Asks whether a step is at one of the houses, or loses a message between two of them."""
        if not self.houses:
            return None
        houses = self.houses

        def is_at(step: Step) -> bool:
            between = {step.message.sender, step.message.receiver} if step.message else {0}
            return step.house in houses or step.command == "lose" and between <= houses

        return is_at

    def is_of_entry(self, replay: Replay) -> Test | None:
        """Asks whether a step names the entry, or delivers or loses an update of it."""
        if self.entry is None:
            return None

        def names(step: Step) -> bool:
            if step.found:
                return step.found[2] == self.entry
            words = [it for it in step.words if it]
            return any(it.startswith("/.:") and it.split("/")[-1] == self.entry for it in words) or (
                step.command in (*commands.UPDATES, "mkdir") and step.words[2] == self.entry
            )

        return lambda it: names(it) or (
            it.message is not None and it.message.kind == "Update" and names(replay.steps[it.message.posted])
        )

    def is_of_message(self, replay: Replay) -> Test | None:
        """Asks whether a step posts, delivers or loses the message."""
        if self.message is None:
            return None
        message = replay.messages[self.message]
        return lambda it: it.at in (message.posted, message.lost, *message.deliveries)
