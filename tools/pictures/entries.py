"""The names of a cell at a line of the script: entries with what they have, and the order of a search."""

from __future__ import annotations

from typing import NamedTuple

from .cell import Replay
from .facts import Epoch, Step
from cds import commands


class Element(NamedTuple):
    """An element of a profile, in the order of its octets, with what was said of it."""

    priority: int
    octets: str
    major: int
    minor: int
    length: int
    interface: str
    note: str
    member: str


class Entry:
    """An entry as the script made it: its kind, the name or the directory that it leads to, and what its attributes
    have."""

    values: dict[str, list[str]]
    # (each an interface and a binding)
    towers: list[tuple[str, str]]
    objects: list[str]
    members: list[str]
    elements: list[Element]

    def __init__(self, kind: str, target: str = "", directory: int = 0) -> None:
        self.kind, self.target, self.directory, self.values = kind, target, directory, {}
        self.towers, self.objects, self.members, self.elements = [], [], [], []

    def change(self, command: str, attribute: str, value: str) -> None:
        """A change of the values of an attribute."""
        own = self.values.setdefault(attribute, [])
        if command in ("put", "clear"):
            own.clear()
        if command in ("add", "put") and value not in own:
            own.append(value)
        if command == "remove" and value in own:
            own.remove(value)


class State:
    """The names of the cell up to a line of the script."""

    entries: dict[tuple[int, str], Entry]
    epochs: dict[int, Epoch]

    def __init__(self, replay: Replay, last: int) -> None:
        self.entries, self.untold, self.epochs = {}, 0, {}
        for step in replay.steps:
            if step.line > last:
                break
            if step.is_done():
                self.take(step)
        for directory, epochs in replay.epochs.items():
            known = [it for it in epochs if replay.steps[it.step].line <= last]
            if known:
                self.epochs[directory] = known[-1]

    def take(self, step: Step) -> None:
        """Takes a command that was not refused."""
        command, words = step.command, step.words
        if command in commands.SERVICES:
            if step.found:
                self.serve(command, words, step.found[1:])
            else:
                self.untold += 1
        elif command == "mkdir":
            self.entries[int(words[1]), words[2]] = Entry("child", directory=int(step.answer.split()[2]))
        elif command in ("create", "link"):
            kind = "object" if command == "create" else "link"
            self.entries[int(words[1]), words[2]] = Entry(kind, words[3] if kind == "link" else "")
        elif command == "delete":
            self.entries.pop((int(words[1]), words[2]), None)
        elif command in ("add", "remove", "put", "clear"):
            entry = self.entries.get((int(words[1]), words[2]))
            if entry:
                entry.change(command, words[3], (words[4] if len(words) > 4 else "").lower())

    def serve(self, command: str, words: tuple[str, ...], place: tuple[int, str]) -> None:
        """Takes a command of the name service at the entry of a place."""
        if command in ("export", "groupadd", "profadd"):
            self.entries.setdefault(place, Entry("object"))
        entry = self.entries.get(place)
        if entry is None:
            return
        if command == "export":
            entry.towers += [
                (words[1].lower(), it) for it in listed(words[2]) if (words[1].lower(), it) not in entry.towers
            ]
            entry.objects += [it.lower() for it in listed(words[3]) if it.lower() not in entry.objects]
        elif command == "unexport":
            entry.towers = [it for it in entry.towers if it[0] != words[1].lower()]
            entry.objects = [it for it in entry.objects if it not in words[2].lower().split(",")]
        elif command == "groupadd":
            entry.members = sorted({*entry.members, words[1]})
        elif command == "groupdel":
            entry.members = [it for it in entry.members if it != words[1]]
        elif command == "profadd":
            entry.elements = sorted({*entry.elements, element_of(*words[1:5])})
        else:
            entry.elements = [it for it in entry.elements if (it.interface, it.member) != (words[1].lower(), words[2])]

    def place_of(self, name: str, follows: bool = False, left: int = commands.MOST_LINKS) -> tuple[int, str] | None:
        """The directory and the simple name of a full name; links on the way are followed, and the last one where that
        is asked."""
        directory, names = 1, name.split("/")[2:]
        for at, it in enumerate(names):
            entry, is_last = self.entries.get((directory, it)), at + 1 == len(names)
            if entry and entry.kind == "link" and left and (follows or not is_last):
                return self.place_of("/".join([entry.target, *names[at + 1 :]]), follows, left - 1)
            if is_last:
                return (directory, it) if entry else None
            if not entry or entry.kind != "child":
                return None
            directory = entry.directory
        return None

    def order(self, name: str, interface: str) -> list[tuple[int, str]]:
        """The entries that a search from a name comes to, each where it comes first."""
        order: list[tuple[int, str]] = []
        waiting = [name]
        while waiting:
            place = self.place_of(waiting.pop(), True)
            entry = self.entries[place] if place else None
            if place and entry and entry.kind == "object" and place not in order:
                order.append(place)
                taken = [it for it in entry.elements if it.interface == "default" or serves(it.interface, interface)]
                waiting += [*(it.member for it in reversed(taken)), *reversed(entry.members)]
        return order


def listed(words: str) -> list[str]:
    """The items of a list of words, or none of `-`."""
    return [] if words == "-" else words.split(",")


def element_of(interface: str, member: str, priority: str, note: str) -> Element:
    """An element of a profile, in the order of its octets, with what was said of it."""
    uuid, _, version = interface.lower().partition(":")
    major, _, minor = version.partition(".")
    is_default = interface.lower() == "default"
    first, second = (0, 0) if is_default else (int(major), int(minor))
    octets = bytes(16).hex() if is_default else uuid.replace("-", "")
    said = note if note != "-" else ""
    return Element(int(priority), octets, first, second, len(member), interface.lower(), said, member)


def serves(offered: str, wanted: str) -> bool:
    """Whether an interface that is offered serves the one that is wanted."""
    (uuid, _, version), (own, _, least) = offered.partition(":"), wanted.lower().partition(":")
    (major, _, minor), (of, _, at) = version.partition("."), least.partition(".")
    return uuid == own and major == of and int(minor) >= int(at)
