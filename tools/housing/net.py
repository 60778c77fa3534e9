"""A net that loses, repeats, delays and reorders messages. It never makes one up, and gives each to its receiver
alone."""

from __future__ import annotations

from random import Random

Message = tuple[int, str]


class Net:
    """Messages on their way, each as (to, octets). Of 100 messages `loss` are lost, and `repeats` come once more."""

    def __init__(self, random: Random, loss: int = 0, repeats: int = 0, kept: int = 0) -> None:
        self.random, self.loss, self.repeats, self.kept = random, loss, repeats, kept
        self.messages: list[Message] = []
        self.lost = self.repeated = self.posted = 0

    def chance(self, of_hundred: float) -> bool:
        """Whether something happens that does so often of a hundred times."""
        return self.random.random() * 100 < of_hundred

    def post(self, messages: list[Message]) -> None:
        """Takes messages that were posted."""
        for message in messages:
            self.posted += 1
            if self.chance(self.loss):
                self.lost += 1
                continue
            self.messages.append(message)
            while self.chance(self.repeats):
                self.messages.append(message)
                self.repeated += 1

    def next_for(self, house: int) -> str | None:
        """A message for a house, mostly its oldest one, which mostly does not come again; or None."""
        places = [place for place, (to, _) in enumerate(self.messages) if to == house]
        if not places:
            return None
        place = places[0] if self.chance(40) else self.random.choice(places)
        octets = self.messages[place][1]
        if not self.chance(self.kept):
            del self.messages[place]
        return octets
