"""Reads the octets of a house's image and of a message into the words that `dump` has. docs/FORMATS.md lays them out.

What a replica has is a table of facts. The key of a fact is the name of its entry, and after tabs its attribute and its
value; what it says is the rest of the line of `dump`: `object 1@00000000000a live`, `none`, `present 2@00000000000a`.
Sorted by their keys, facts have the order of `dump`.
"""

from __future__ import annotations

from cds.records import CHILD, KINDS, LINK, MASTER, OBJECT, READ_ONLY, SECONDARY

ENTRIES = {OBJECT: "object", LINK: "link", CHILD: "child"}
MEMBERS = {MASTER: "m", READ_ONLY: "r", SECONDARY: "s"}
HELD = 1
Facts = dict[str, str]


class Octets:
    """Octets that are read from the left."""

    def __init__(self, octets: bytes) -> None:
        self.octets, self.at = octets, 0

    def take(self, count: int) -> bytes:
        """The next octets."""
        self.at += count
        return self.octets[self.at - count : self.at]

    def number(self, size: int) -> int:
        """A number of so many octets."""
        self.at += size
        return int.from_bytes(self.octets[self.at - size : self.at], "big")

    def name(self) -> str:
        """A simple name, or that of an attribute."""
        return self.take(self.number(1)).decode("ascii")

    def stamp(self) -> str:
        """A stamp, as answers have it."""
        at, self.at = self.at, self.at + 14
        return f"{int.from_bytes(self.octets[at : at + 8], 'big')}@{self.octets[at + 8 : at + 14].hex()}"

    def stamp_or_none(self) -> str | None:
        """A stamp, or None."""
        return self.stamp() if self.number(1) else None

    def members(self) -> str:
        """A list of members, in the words of `dump`."""
        return " ".join(self.member() for _ in range(self.number(1)))

    def member(self) -> str:
        """A member: its house, the epoch with which its term began, and its kind."""
        house, since = self.number(1), self.number(8)
        return f"{house}:{since}:{MEMBERS[self.number(1)]}"

    def entries(self, facts: Facts) -> None:
        """So many entries, each with its name."""
        for _ in range(self.number(8)):
            self.entry(self.name(), facts)

    def entry(self, name: str, facts: Facts) -> None:
        """An entry of this name, with its attributes."""
        kind, birth, death = ENTRIES[self.number(1)], self.stamp(), self.stamp_or_none()
        facts[name] = f"{kind} {birth} {death or 'live'}"
        for _ in range(self.number(8)):
            self.attribute(f"{name}\t{self.name()}", facts)

    def attribute(self, key: str, facts: Facts) -> None:
        """The clear of an attribute, and its values."""
        facts[key] = self.stamp_or_none() or "none"
        octets, at = self.octets, self.at + 8
        # (most of an image are values: these are read at their places)
        for _ in range(self.number(8)):
            end = at + 2 + int.from_bytes(octets[at : at + 2], "big")
            time, node = int.from_bytes(octets[end + 1 : end + 9], "big"), octets[end + 9 : end + 15].hex()
            said = "present" if octets[end : end + 1] != b"\0" else "absent"
            facts[f"{key}\t{octets[at + 2 : end].hex()}"] = f"{said} {time}@{node}"
            at = end + 15
        self.at = at


class Replica:
    """What a house has of a directory: its epoch, AllUpTo (None where no skulk was complete), members, and facts. A
    house that left the directory has an epoch alone.
    """

    def __init__(self, epoch: int, up_to: str | None = None, members: str = "", facts: Facts | None = None) -> None:
        self.epoch, self.up_to, self.members, self.facts = epoch, up_to, members, {} if facts is None else facts

    def is_held(self) -> bool:
        """Whether the house holds the directory, and did not leave it."""
        return bool(self.members)

    def head(self) -> str:
        """The first line of `dump`, after its first word."""
        if not self.is_held():
            return f"left {self.epoch}"
        return f"epoch {self.epoch} allupto {self.up_to or 'none'} members {self.members}"


class Image:
    """What a house keeps of itself: its floor, the greatest time that it knows, and its replicas by directory."""

    def __init__(self, octets: bytes) -> None:
        it = Octets(octets)
        it.take(9)
        self.size, self.floor = len(octets), it.number(8)
        self.replicas: dict[int, Replica] = {}
        for _ in range(it.number(8)):
            directory = it.number(4)
            self.replicas[directory] = replica_of(it)


def replica_of(it: Octets) -> Replica:
    """A replica of an image, or where the house left."""
    state, epoch = it.number(1), it.number(8)
    if state != HELD:
        return Replica(epoch)
    facts: Facts = {}
    members, up_to = it.members(), it.stamp_or_none()
    it.entries(facts)
    it.take(8)
    return Replica(epoch, up_to, members, facts)


class Load:
    """What a message carries: `up_to` is the AllUpTo of the replica that a Join brings, and what a delta is above."""

    def __init__(self, octets: bytes) -> None:
        it = Octets(octets)
        it.take(1)
        self.kind = KINDS[it.number(1) - 1]
        it.take(4 + 1 + 8)
        self.floor = it.number(8)
        self.members = ""
        self.up_to: str | None = None
        self.facts: Facts = {}
        if self.kind == "Update":
            it.entry(it.name(), self.facts)
        elif self.kind == "Join":
            self.members = it.members()
            self.carry(it)
        elif self.kind in ("Gathered", "Spread"):
            it.stamp()
            self.carry(it)

    def carry(self, it: Octets) -> None:
        """A replica or a delta."""
        self.up_to = it.stamp_or_none()
        it.entries(self.facts)
