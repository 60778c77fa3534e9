"""The console of a cell: it numbers directories and epochs, and knows the last list of members of each directory."""

from __future__ import annotations

# The members of an epoch, ascending: {house: (since, kind)}.
Members = dict[int, tuple[int, str]]


def member_kind(word: str) -> tuple[int, str]:
    """The house of a word as `2` or `s3`, and its kind."""
    return (int(word[1:]), "s") if word.startswith("s") else (int(word), "r")


def listing(before: Members, epoch: int, master: int, others: list[str]) -> Members:
    """The members of an epoch. Who was a member before keeps its term."""
    kinds = dict(map(member_kind, others)) | {master: "m"}
    return {house: (before[house][0] if house in before else epoch, kinds[house]) for house in sorted(kinds)}


class Console:
    """Of each directory its last epoch, and the members."""

    def __init__(self) -> None:
        self.directories: dict[int, tuple[int, Members]] = {}

    @property
    def next_directory(self) -> int:
        """The number of the directory that is made next."""
        return max(self.directories, default=0) + 1

    def mkdir_line(self, directory: int | str, name: str, others: list[str]) -> str:
        """The line for the master of a new directory with these other houses."""
        return " ".join(["mkdir", str(directory), name, str(self.next_directory), *others])

    def epoch_line(self, directory: int, master: int, others: list[str]) -> str:
        """The line for the master of a new epoch with these other houses."""
        epoch, before = self.directories[directory]
        members = listing(before, epoch + 1, master, others)
        words = [f"{house}:{since}:{kind}" for house, (since, kind) in members.items()]
        left = [str(house) for house in sorted(before) if house not in members]
        return " ".join(["epoch", str(directory), str(epoch + 1), *words, *(["-", *left] if left else [])])

    def done(self, house: int, line: str) -> None:
        """A house did a line."""
        words = line.split()
        if words[0] == "root":
            self.directories[1] = (1, listing({}, 1, house, words[1:]))
        elif words[0] == "mkdir":
            self.directories[int(words[3])] = (1, listing({}, 1, house, words[4:]))
        elif words[0] == "epoch":
            members = words[3 : words.index("-")] if "-" in words else words[3:]
            parts = [word.split(":") for word in members]
            self.directories[int(words[1])] = (
                int(words[2]),
                {int(at): (int(since), kind) for at, since, kind in parts},
            )

    def master(self, directory: int) -> int:
        """The master of a directory."""
        return next(house for house, (_, kind) in self.directories[directory][1].items() if kind == "m")

    def others(self, directory: int) -> list[str]:
        """The members of a directory but the master, as words."""
        members = self.directories[directory][1].items()
        return [("s" if kind == "s" else "") + str(house) for house, (_, kind) in members if kind != "m"]
