"""What happens in a replay: steps, messages, epochs, skulks, rises of AllUpTo, and what the script makes of names."""

from __future__ import annotations

from collections.abc import Sequence


class Fault(Exception):
    """A fault of an input: which one, the number of its line, and what is wrong with it."""

    def __init__(self, source: str, line: int | str, what: str) -> None:
        super().__init__(f"{source}, line {line}: {what}")


class Step:
    """A command with its answer. `house` acts or is asked, and is 0 where the words don't tell. `stop` is the house
    that is to lose its power inside it, if one is. `posted` are the serials of its answer that no message has yet.
    `found` are the house, the directory and the simple name of the entry that a command of the name service changed.
    """

    house: int = 0
    outcome: str = "ok"
    dirs: tuple[int, ...] = ()
    message: Message | None = None
    answer: str = ""
    posted: Sequence[int] = ()
    has_changed: bool = False
    found: tuple[int, int, str] | None = None

    def __init__(
        self, at: int, line: int, command: str, words: tuple[str, ...], text: str, stop: int | None = None
    ) -> None:
        self.at, self.line, self.command, self.words, self.text, self.stop = at, line, command, words, text, stop

    @property
    def way(self) -> Message:
        """The message of a step that delivers or loses one."""
        assert self.message is not None
        return self.message

    def is_done(self) -> bool:
        """Whether it was not refused, and not undone by a loss of power."""
        return self.outcome in ("ok", "stopped after")


class Message:
    """A message; `up_to` is the AllUpTo of the replica that it brings. What the words don't tell is 0, or None."""

    deliveries: tuple[int, ...] = ()
    lost: int | None = None

    def __init__(
        self,
        serial: int,
        kind: str,
        sender: int,
        receiver: int,
        directory: int,
        epoch: int,
        stamp: str | None,
        up_to: str | None,
        posted: int,
    ) -> None:
        self.serial, self.kind, self.sender, self.receiver, self.dir = serial, kind, sender, receiver, directory
        self.epoch, self.stamp, self.up_to, self.posted = epoch, stamp, up_to, posted


class Epoch:
    """An epoch of a directory: `since` has for each member the epoch with which its term began."""

    known: dict[int, list[int]]
    since: dict[int, int]

    def __init__(
        self,
        directory: int,
        number: int,
        master: int,
        members: list[int],
        secondary: list[int],
        before: Epoch | None,
        step: int,
    ) -> None:
        self.dir, self.number, self.master, self.members, self.step = directory, number, master, sorted(members), step
        self.secondary = sorted(secondary)
        self.since = {house: before.since.get(house, number) if before else number for house in self.members}
        self.known = {}

    def role(self, house: int) -> str:
        """What a member is."""
        return "master" if house == self.master else "secondary" if house in self.secondary else "member"

    def others(self, house: int) -> list[int]:
        """The members but this house."""
        if house not in self.known:
            self.known[house] = [it for it in self.members if it != house]
        return self.known[house]


class Skulk:
    """A skulk; `end` is the step that completed it or ended it, or None where it still runs. `answered` are the members
    whose answers it has in its round."""

    end: int | None
    answered: set[int]

    def __init__(self, directory: int, house: int, stamp: str, start: int) -> None:
        self.dir, self.house, self.stamp, self.start = directory, house, stamp, start
        self.end, self.is_complete, self.answered = None, False, set()


class Rise:
    """Where the AllUpTo of a house rises."""

    def __init__(self, house: int, directory: int, stamp: str, before: str | None, step: int) -> None:
        self.house, self.dir, self.stamp, self.before, self.step = house, directory, stamp, before, step


def order(stamp: str | None) -> tuple[int, str]:
    """Stamps by their times, and then by their nodes."""
    time, _, node = (stamp or "-1@").partition("@")
    return int(time), node


def plural(count: int, word: str) -> str:
    """A count of things."""
    return f"{count} {word}{'' if count == 1 else 's'}"


def numbers(text: str) -> list[int]:
    """The numbers of a text, as they stand, of secondary houses too."""
    return [int(it.removeprefix("s")) for it in text.split()]


def secondary(text: str) -> list[int]:
    """The numbers of the secondary houses of a text."""
    return [int(it[1:]) for it in text.split() if it.startswith("s")]


class Entry:
    """What the script made of a name in a directory: what it is now, the name that a link leads to, the directory of a
    child with its houses, and whether that is all it ever was."""

    kind: str | None = None
    target: str = ""
    child: tuple[int, tuple[int, ...]] | None = None
    is_plain: bool = True

    def become(self, kind: str | None, target: str = "", child: tuple[int, tuple[int, ...]] | None = None) -> None:
        """Makes it of this kind; what was a link once, or led elsewhere, is not plain."""
        is_same = self.kind in (None, kind) and (self.target, self.child) in (("", None), (target, child))
        self.is_plain = self.is_plain and kind not in ("link", None) and is_same
        self.kind, self.target, self.child = kind, target, child
