"""A line of an operator, in words: quoted texts, remarks, a time in front, a house in front."""

from __future__ import annotations

import re

from cds.commands import COMMANDS
from speaking import texts

# Words of logs for commands.
DONE = {
    "created": "create", "linked": "link", "deleted": "delete", "added": "add", "removed": "remove", "cleared": "clear",
    "made": "mkdir", "repointed": "repoint", "crashed": "crash", "stopped": "crash", "down": "crash",
    "started": "start", "up": "start", "skulked": "skulk", "exported": "export", "unexported": "unexport",
    "houses": "house", "lost": "lose", "delivered": "deliver",
}  # fmt: skip


class Fault(Exception):
    """A line that says nothing that is known; the lines of its text say why, and what to do."""


class Line:
    """A line of an operator: its text, its words from the command on, and the house and the time in front, each None
    where it has none."""

    def __init__(self, text: str, words: list[str | Text], house: str | None, time: int | None) -> None:
        self.text, self.words, self.house, self.time = text, words, house, time

    def turned(self) -> list[str | Text]:
        """The words, with the house that is in front of the command, as in a log, where the command names its house."""
        kinds = COMMANDS[self.words[0]].split()
        at = next((at for at, kind in enumerate(kinds) if kind in ("H", "M")), None)
        if at is None or self.house is None:
            return self.words
        if at == 1 and not (self.words[1:2] and (self.words[1].isdecimal() or self.words[1].startswith("/"))):
            at = 0
        return [*self.words[: at + 1], self.house, *self.words[at + 1 :]]


class Text(str):
    """A word that was written in quotes."""


def words_of(line: str) -> list[str | Text]:
    """The words of a line, without its remark; a quoted text is one word."""
    found: list[str | Text] = []
    at = 0
    while at < len(line):
        if line[at].isspace():
            at += 1
        elif line[at] == "#":
            break
        elif line[at] in '"\u201c':
            word, at = quoted(line, at)
            found.append(word)
        else:
            end = next((it for it in range(at, len(line)) if line[it].isspace()), len(line))
            found.append(line[at:end])
            at = end
    return found


def quoted(line: str, at: int) -> tuple[Text, int]:
    """The text in quotes that begins at a place, and the place after it."""
    end = re.compile('["\u201d]').search(line, at + 1)
    if not end:
        raise Fault(f"The quotes that begin at {line[at : at + 20]} are not closed.")
    if end.end() < len(line) and not line[end.end()].isspace():
        raise Fault(f"A space goes after the text {line[at : end.end()]}.")
    return Text(line[at + 1 : end.start()]), end.end()


def timed(words: list[str | Text]) -> tuple[str | None, int | None, list[str | Text]]:
    """The date and the time in front of a line, each None where it has none, and the words after them."""
    date = None
    if words and texts.DATE.fullmatch(words[0]):
        date, words = words[0], words[1:]
    found = texts.CLOCK.fullmatch(words[0]) if words else None
    if not found:
        if date:
            raise Fault(f"A time of day goes after {date}, as 08:12:00.")
        return None, None, words
    return date or found.group(1), texts.seconds(words[0]), words[1:]


def command_of(word: str) -> str:
    """The command that a word of an operator names."""
    lower = word.lower()
    return lower if lower in COMMANDS else DONE.get(lower, word)
