"""The names of an operator: houses, directories and times, and the numbers that a script has for them."""

from __future__ import annotations

import datetime
import re

from cds.commands import COMMANDS
from speaking import texts
from speaking.tokens import Fault, Text

STAMPED = ("mkdir", "repoint", "create", "link", "delete", "add", "remove", "put", "clear", "skulk", "stop")


class Names:
    """What was named so far. `clocks` are the times that the houses' clocks were set to."""

    houses: dict[str, int]
    nodes: dict[int, str]
    clocks: dict[str, int]
    first_day: datetime.date | None
    day: datetime.date | None
    last: int | None

    def __init__(self) -> None:
        self.houses, self.nodes, self.directories, self.clocks = {}, {}, {"/.:": 1}, {}
        self.first_day, self.day, self.last = None, None, None

    # Houses.

    def house(self, word: str) -> str:
        """The number of a house."""
        bare = word.rstrip(",")
        if bare in self.houses:
            return str(self.houses[bare])
        if bare.isdecimal() or not bare:
            return bare
        known = ", ".join(self.houses) or "none yet"
        raise Fault(f"There is no house `{bare}`; the houses are: {known}. `house {bare}` makes it.")

    def called(self, number: int) -> str:
        """The name of a house."""
        return next((name for name, it in self.houses.items() if it == number), f"house {number}")

    def listed(self, words: list[str]) -> list[str]:
        """The words of a list of houses, those after `secondary` with an `s` in front."""
        found, mark = [], ""
        for word in words:
            if word.lower().rstrip(":") == "secondary":
                mark = "s"
            elif word[:1] == "s" and word[1:].rstrip(",").isdecimal() and word.rstrip(",") not in self.houses:
                found.append(word.rstrip(","))
            elif word.lower() not in ("and", ","):
                found.append(mark + self.house(word))
        return found

    def add_houses(self, words: list[str]) -> list[str]:
        """The lines that make houses, each named by its name or number, with its node after it or not."""
        made, rest = [], [word.rstrip(",") for word in words]
        while rest:
            name, node = rest.pop(0), None
            if rest and texts.node(rest[0]):
                node = texts.node(rest.pop(0))
            if name.isdecimal():
                number = int(name)
            elif name in self.houses:
                raise Fault(f"House `{name}` is made already; it is house {self.houses[name]}.")
            elif not re.fullmatch("[A-Za-z][!-~]*", name):
                raise Fault(f"`{name}` is no name of a house: one begins with a letter. A node goes after the name.")
            else:
                number = next(it for it in range(1, 257) if it not in self.nodes)
                self.houses[name] = number
            self.nodes[number] = node or f"{number:012x}"
            made.append(f"house {number} {self.nodes[number]}")
        if not made:
            raise Fault(
                "Name the houses, as `house a_ch 08:00:2b:1c:4d:01 b_ch 08:00:2b:1c:4d:02`. Without a node they get"
                " one."
            )
        return made

    # Directories and entries.

    def directory(self, word: str) -> str:
        """The number of a directory."""
        if word.isdecimal():
            return word
        number = self.directories.get(word.rstrip("/"))
        if number is None:
            known = ", ".join(self.directories)
            raise Fault(
                f"No directory {word} was made here; there are {known}. `mkdir HOUSE {word} MASTER ..` makes it."
            )
        return str(number)

    def entry(self, rest: list[str | Text]) -> list[str]:
        """Takes a directory and an entry off the words, and answers the number and the simple name."""
        word = rest.pop(0)
        if isinstance(word, Text):
            raise Fault(f'Only a value is a text in quotes; "{word}" is not in the place of one.')
        if word.isdecimal() and rest:
            return [word, rest.pop(0)]
        if word.startswith("/"):
            above, _, name = word.rstrip("/").rpartition("/")
            return [self.directory(above), name]
        return ["1", word]

    def made(self, number: int, above: str, name: str) -> None:
        """A directory was made."""
        path = next((path for path, it in self.directories.items() if it == int(above)), f"directory {above}")
        self.directories[f"{path}/{name}"] = number

    def path(self, number: int) -> str:
        """The full name of a directory."""
        return next((path for path, it in self.directories.items() if it == number), f"directory {number}")

    # Times.

    def time(self, date: str | None, seconds: int) -> tuple[int, bool]:
        """The time of a script for a time of day, and whether it is earlier than the one before without a date that
        says so."""
        if date:
            try:
                self.day = datetime.date.fromisoformat(date)
            except ValueError as error:
                raise Fault(f"{date} is no date.") from error
            self.first_day = self.first_day or self.day
        days = (self.day - self.first_day).days if self.day and self.first_day else 0
        if days < 0:
            raise Fault(f"{date} is before {self.first_day}, the first date; times are counted from there.")
        time = days * 86400 + seconds
        is_back = not date and self.last is not None and time < self.last
        self.last = time
        return time, is_back

    # Lines.

    def plain(self, words: list[str | Text]) -> list[str]:
        """The words of a line of a script, in place of those of an operator."""
        command, rest, made = words[0], list(words[1:]), [words[0]]
        kinds = COMMANDS[command].split()
        if command == "stop":
            return self.stop(rest)
        if command == "octets":
            kinds = ["WHAT", "H"] if rest[:1] == ["house"] else ["WHAT", "N"]
        for at, kind in enumerate(kinds):
            if kind == "S" and kinds[at - 1] == "D":
                continue
            made += self.taken(kind, kinds[at + 1 : at + 2], rest)
        return [*made, *rest]

    def values(self, rest: list[str | Text]) -> list[tuple[str, str]]:
        """Takes attributes with a value each off the words after the name of an entry that is made."""
        found = []
        while len(rest) > 1:
            name, value = rest.pop(0), rest.pop(0)
            found.append((name, texts.value(value) if isinstance(value, Text) else value))
        return found

    def lines(self, words: list[str | Text]) -> list[str]:
        """The lines of a script for a command: one, and one more for each attribute with a value that a `create`
        has."""
        if words[0] != "create":
            return [" ".join(self.plain(words))]
        rest = list(words[1:])
        front = ["create", *self.taken("H", [], rest), *(self.taken("D", ["S"], rest) if rest else [])]
        values = self.values(rest)
        return [" ".join([*front, *rest]), *(" ".join(["add", *front[1:], *it]) for it in values)]

    def stop(self, rest: list[str | Text]) -> list[str]:
        """The words of a `stop`."""
        inner = self.plain(rest[3:]) if len(rest) > 3 and rest[3] in COMMANDS else rest[3:]
        return ["stop", *map(self.house, rest[:1]), *rest[1:3], *inner]

    def taken(self, kind: str, after: list[str], rest: list[str | Text]) -> list[str]:
        """Takes what one kind wants off the words, and answers it as a script has it."""
        if kind in ("R..", "H.."):
            found, rest[:] = self.listed(rest), []
            return found
        if kind == "D" and after != ["S"]:
            return [self.directory(rest.pop(0)) if rest and (rest[0].isdecimal() or rest[0].startswith("/")) else "1"]
        if kind == "C" and rest and rest[0].lower() not in ("low", "high"):
            return ["low"]
        if not rest:
            return []
        if kind == "D":
            return self.entry(rest)
        word = rest.pop(0)
        if kind in ("H", "M"):
            return [self.house(word)]
        if kind == "TIME" and (seconds := texts.seconds(word)) is not None:
            return [str(self.time(None, seconds)[0])]
        if isinstance(word, Text):
            if kind != "VALUE":
                raise Fault(f'Only a value is a text in quotes; "{word}" is not in the place of one.')
            return [texts.value(word)]
        if kind == "NAME" and not word.startswith("/"):
            return [f"/.:/{word}"]
        better = {"NODE": texts.node(word), "C": word.lower()}
        return [better.get(kind) or word]
