"""Which messages are under way in a replay, and to whom."""

from __future__ import annotations

import itertools
from collections.abc import Callable

from pictures.cell import Replay
from pictures.facts import Message

DELIVERED = ("taken", "complete", "late", "early", "stale", "noreplica", "stopped after")


class Way:
    """A message that is under way."""

    def __init__(self, message: Message, line: int, text: str) -> None:
        self.serial, self.kind, self.dir, self.line, self.text = message.serial, message.kind, message.dir, line, text
        self.sender, self.receiver = message.sender, message.receiver


class Post:
    """The messages of a replay that grows: which of them are under way."""

    open: dict[int, Message]

    def __init__(self) -> None:
        # The steps that were read, the messages that were seen, and those of them that were neither lost nor delivered.
        self.steps, self.seen, self.open = 0, 0, {}

    def under_way(self, replay: Replay, ask: Callable[[int], bytes]) -> list[Way]:
        """The messages that were posted and neither lost nor delivered. `ask` answers the octets of a message by its
        serial."""
        new = list(itertools.islice(replay.messages.items(), self.seen, None))
        self.seen += len(new)
        self.open.update(new)
        for step in itertools.islice(replay.steps, self.steps, None):
            if step.command == "lose" or step.command == "deliver" and step.outcome in DELIVERED:
                self.open.pop(int(step.words[0]), None)
        self.steps = len(replay.steps)
        return [way_of(replay, serial, message, ask) for serial, message in self.open.items() if message.lost is None]


def way_of(replay: Replay, serial: int, message: Message, ask: Callable[[int], bytes]) -> Way:
    """A message that is under way, and to whom."""
    step = replay.steps[message.posted]
    way = Way(message, step.line, step.text)
    if not way.receiver:
        resolve(replay, way, [it.serial for it in replay.messages.values() if it.posted == message.posted], ask(serial))
    return way


def resolve(replay: Replay, way: Way, together: list[int], octets: bytes) -> None:
    """Finds the sender and the receiver of an Update of the name service: it names its sender, who posts each to all
    others."""
    way.dir, way.sender = int.from_bytes(octets[2:6], "big"), octets[6]
    others = replay.held_epoch(way.sender, way.dir).others(way.sender)
    way.receiver = others[together.index(way.serial) % len(others)]
