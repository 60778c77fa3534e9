"""The list of answers that a clerk keeps. No answer of the program has it: it follows from what the houses have at each
read.

Each read is answered here too, and where the program answers otherwise the list is given up.
"""

from __future__ import annotations

import dataclasses
import functools
from collections.abc import Callable

from .cell import Replay
from .facts import Step, numbers
from .states import Change, States
from cds import commands

LONGEST_NAME = 1023
# Of a child: its directory, its master, and the other houses.
Pointer = tuple[int, int, tuple[int, ...]]
# Which house asks, what of, which name, and which attribute.
Query = tuple[int, Pointer, str, str | None]


@dataclasses.dataclass(frozen=True)
class Sight:
    """What a house shows of a name: what it is, and where a link or a child leads."""

    kind: str
    house: int
    target: str = ""
    pointer: Pointer | None = None


@dataclasses.dataclass(frozen=True)
class Walked:
    """How the walk of a name ends: with an answer that refuses it, at a link to another name, or at an entry."""

    refused: str = ""
    again: str = ""
    place: tuple[Pointer, str] | None = None


Answer = Sight | list[str]


class Reads:
    """What houses show: their tables by house and directory, and which of them are up."""

    tables: dict[tuple[int, int], dict[str, str]]
    heads: dict[tuple[int, int], bool]
    downs: set[int]
    root: Pointer | None

    def __init__(self) -> None:
        self.tables, self.heads, self.downs, self.root = {}, {}, set(), None

    def take(self, step: Step, changes: dict[int, Change]) -> None:
        """Takes a step, and what it changed."""
        if step.command == "start" and step.outcome == "ok":
            self.downs.discard(step.house)
        elif step.outcome == "ok" and step.command == "crash":
            self.downs.add(step.house)
        elif step.command in ("root", "epoch") and step.outcome == "ok" and step.dirs == (1,):
            named = numbers(step.words[-1])
            self.root = (1, int(step.words[-2]), tuple(sorted(named)))
        for house, change in changes.items():
            for directory, head, facts in change.directories:
                self.change(house, directory, head, facts)

    def change(self, house: int, directory: int, head: str | None, facts: list[tuple[str, str | None]]) -> None:
        """Changes the table of a house."""
        if head is not None:
            self.heads[house, directory] = head.startswith("epoch")
        table = self.tables.setdefault((house, directory), {})
        for key, said in facts:
            if said is None:
                table.pop(key, None)
            else:
                table[key] = said

    def asked(self, pointer: Pointer, prefer: int) -> int:
        """The house that is asked for a directory, or 0."""
        directory, master, others = pointer
        answering = [it for it in (master, *others) if it not in self.downs and self.heads.get((it, directory))]
        return prefer if prefer in answering else next(iter(answering), 0)

    def sees(self, pointer: Pointer, prefer: int, name: str) -> Sight | None:
        """What is seen of a name, or None where no house answers."""
        house = self.asked(pointer, prefer)
        if not house:
            return None
        kind, _, death = self.tables.get((house, pointer[0]), {}).get(name, "absent - -").split()
        if death == "live" and kind == "object":
            return Sight(kind, house)
        if death == "live" and kind == "link" and len(targets := self.links(house, pointer[0], name)) == 1:
            return Sight(kind, house, targets[0])
        if death == "live" and kind == "child" and len(leads := self.pointers(house, pointer[0], name)) == 1:
            return Sight(kind, house, "", leads[0])
        return Sight("absent", house)

    def values(self, house: int, directory: int, name: str, attribute: str) -> list[str]:
        """The values of an attribute that a house shows, in the order of their octets."""
        prefix = f"{name}\t{attribute}\t"
        table = self.tables.get((house, directory), {})
        return sorted(
            key[len(prefix) :] for key, said in table.items() if key.startswith(prefix) and said.startswith("present")
        )

    def links(self, house: int, directory: int, name: str) -> list[str]:
        """The names to which a link leads."""
        return [bytes.fromhex(it).decode("ascii") for it in self.values(house, directory, name, "CDS_LinkTarget")]

    def pointers(self, house: int, directory: int, name: str) -> list[Pointer]:
        """The pointers that a child has."""
        octets = [bytes.fromhex(it) for it in self.values(house, directory, name, "CDS_Replicas")]
        return [(int.from_bytes(it[:4], "big"), it[5], tuple(it[6:])) for it in octets if len(it) == 5 + it[4]]


class Clerk:
    """A clerk with room for so many answers. `used` has what the present read did with them: whether it used a kept
    answer, or keeps a fresh one; the question, the answer, and the line of the read that got it."""

    kept: dict[Query, tuple[Answer, int]]
    used: list[tuple[str, Query, Answer, int]]

    def __init__(self, room: int, reads: Reads) -> None:
        self.room, self.reads, self.kept, self.used = room, reads, {}, []

    def ask(self, query: Query, fresh: Callable[[], Answer | None], line: int) -> Answer | None:
        """The kept answer to a question, or a fresh one, which is kept where it is one."""
        if query in self.kept:
            answer, since = self.kept[query] = self.kept.pop(query)
            self.used.append(("used", query, answer, since))
            return answer
        found = fresh()
        if found is not None:
            if len(self.kept) == self.room:
                del self.kept[next(iter(self.kept))]
            self.kept[query] = found, line
            self.used.append(("kept", query, found, line))
        return found

    def read(self, step: Step) -> str:
        """Reads as the program does, and returns the answer."""
        house, name, attribute = int(step.words[0]), step.words[2], step.words[3]
        seen: set[str] = set()
        self.used = []
        while True:
            if len(seen) > commands.MOST_LINKS:
                return "refused TooManyLinks"
            if len(name) > LONGEST_NAME:
                return "refused NameTooLong"
            if name in seen:
                return "refused LinkCycle"
            seen.add(name)
            found = self.walk(house, name.split("/")[2:], step.line)
            if found.place:
                return self.values(found.place, house, attribute, step.line)
            if found.refused:
                return found.refused
            name = found.again

    def walk(self, house: int, names: list[str], line: int) -> Walked:
        """Walks a name."""
        pointer = self.reads.root
        if not names:
            return Walked("refused RootName")
        for at, name in enumerate(names):
            if pointer is None:
                return Walked("refused Unreachable 1")
            sight = self.ask(
                (house, pointer, name, None), functools.partial(self.reads.sees, pointer, house, name), line
            )
            if not isinstance(sight, Sight):
                return Walked(f"refused Unreachable {pointer[0]}")
            if sight.kind == "absent":
                return Walked(f"refused NoSuchName {at}")
            if sight.kind == "link":
                return Walked(again="/".join([sight.target, *names[at + 1 :]]))
            if at + 1 == len(names):
                return Walked(place=(pointer, name))
            if sight.kind == "object":
                return Walked(f"refused NotDirectory {at + 1}")
            pointer = sight.pointer
        return Walked("refused RootName")

    def values(self, place: tuple[Pointer, str], house: int, attribute: str, line: int) -> str:
        """The values of an entry that was found."""
        pointer, name = place

        def fresh() -> list[str] | None:
            sight = self.reads.sees(pointer, house, name)
            if sight is None or sight.kind == "absent":
                return None
            return self.reads.values(sight.house, pointer[0], name, attribute)

        values = self.ask((house, pointer, name, attribute), fresh, line)
        return " ".join(["ok", str(len(values)), *values]) if isinstance(values, list) else "refused Vanished"


def lists(replay: Replay, states: States, room: int) -> dict[int, list[list[object]] | None]:
    """For each read at low confidence what it did with the list, by its place; or None from where the program answers
    otherwise."""
    reads = Reads()
    clerk = Clerk(room, reads)
    found: dict[int, list[list[object]] | None] = {}
    for step in replay.steps:
        reads.take(step, states.changes.get(step.at, {}))
        if step.command == "read" and step.words[1] == "low" and step.house:
            if f"{step.line} {clerk.read(step)}" != step.answer:
                found[step.at] = None
                return found
            found[step.at] = [
                [it, *query_text(query), answer_text(answer), line] for it, query, answer, line in clerk.used
            ]
    return found


def query_text(query: Query) -> tuple[int, str]:
    """A question: by way of which house, and what of."""
    house, (directory, master, others), name, attribute = query
    asks = f"{attribute} of {name}" if attribute else name
    return house, f"{asks}, directory {directory} at {', '.join(map(str, (master, *others)))}"


def answer_text(answer: Answer) -> str:
    """An answer in words."""
    if isinstance(answer, list):
        return " ".join(answer) or "no value"
    kind = "no such entry" if answer.kind == "absent" else answer.kind
    if answer.pointer:
        directory, master, others = answer.pointer
        kind = f"child, directory {directory} at {', '.join(map(str, (master, *others)))}"
    elif kind == "link":
        kind = f"link to {answer.target}"
    return f"house {answer.house}: {kind}"
