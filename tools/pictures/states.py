"""What each house has after each step of a replay, as the program answers it, in differences from step to step."""

from __future__ import annotations

from cds.octets import Image, Load, Replica

from . import asking
from .cell import Replay


class House:
    """A house as it is now: the octets of its image, its floor, and for each directory the head and the facts of its
    replica."""

    octets: bytes | None
    heads: dict[int, str]
    facts: dict[int, dict[str, str]]

    def __init__(self) -> None:
        self.octets, self.floor, self.size, self.puts, self.heads, self.facts = None, 0, 0, 0, {}, {}

    def take(self, found: bytes, directory: int | None) -> Change | None:
        """Takes the octets of its image, and returns what is new: the floor, and the changes of each directory."""
        if found == self.octets:
            return None
        image = Image(found)
        replicas = {it: own for it, own in image.replicas.items() if directory in (None, it)}
        changes = [(it, *self.change(it, replicas.get(it))) for it in sorted({*self.heads, *replicas})]
        self.puts += 1
        self.octets, self.floor, self.size = found, image.floor, image.size
        return Change(self, [it for it in changes if it[1] is not None or it[2]])

    def change(self, directory: int, replica: Replica | None) -> tuple[str | None, list[tuple[str, str | None]]]:
        """The new head of a directory, or None where it is the old one, and the facts that changed; None is one that is
        gone."""
        head, facts = (replica.head(), replica.facts) if replica else ("", {})
        before = self.facts.get(directory, {})
        is_same = head == self.heads.get(directory, "")
        changed = [] if facts == before else differences(before, facts)
        self.heads[directory], self.facts[directory] = head, facts
        return None if is_same else head, changed


class Change:
    """What a step changed of a house. `directories` has for each the new head or None, and pairs of a key and what it
    says now."""

    def __init__(self, house: House, directories: list[tuple[int, str | None, list[tuple[str, str | None]]]]) -> None:
        self.floor, self.size, self.puts, self.directories = house.floor, house.size, house.puts, directories


def differences(before: dict[str, str], facts: dict[str, str]) -> list[tuple[str, str | None]]:
    """Pairs of a key and what it says now, or None."""
    changed = [(key, said) for key, said in facts.items() if before.get(key) != said]
    return changed + [(key, None) for key in before if key not in facts]


class States:
    """The changes of each step from `first` to `last`, by house, and at `first - 1` what is there before. `loads` has
    what messages carry. `is_whole` says that no house changed at a step after which it was not asked."""

    houses: dict[int, House]
    changes: dict[int, dict[int, Change]]

    def __init__(self, replay: Replay, asked: asking.Asked, first: int, last: int, directory: int | None) -> None:
        self.houses, self.changes, self.is_whole = {}, {}, True
        by_step: dict[int, list[tuple[int, bytes]]] = {}
        for (at, house), found in asked.images.items():
            by_step.setdefault(at, []).append((house, found))
        for at in range(first - 1, last + 1):
            self.changes[at] = self.take(by_step.get(at, []), directory)
        due = asking.houses_of(replay.steps[last], replay)
        self.is_whole = due is None or all(house in due or not it for house, it in self.changes[last].items())
        self.is_kept = all(asked.images[place] == it for place, it in asked.journals.items())
        carried = {serial: Load(it) for serial, it in asked.loads.items()}
        self.loads = {serial: carried[it] for serial, it in asking.leaders(replay).items() if it in carried}

    def take(self, images: list[tuple[int, bytes]], directory: int | None) -> dict[int, Change]:
        """Takes the images of houses after a step, and returns the changes of those that are others than before."""
        changes = {}
        for house, found in images:
            change = self.houses.setdefault(house, House()).take(found, directory)
            if change:
                changes[house] = change
        return changes


def read(about: asking.Asking, directory: int | None) -> States:
    """The states between two steps, from the answers of the program."""
    for is_thorough in (False, True):
        asked = asking.ask(about, is_thorough)
        states = States(about.replay, asked, about.first, about.last, directory)
        if states.is_whole:
            break
    return states
