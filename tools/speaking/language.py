"""What words of commands are, beside what `docs/SCRIPT.md` says of them, and which of them a line has."""

from __future__ import annotations

from cds.commands import COMMANDS, FORMS, LISTS, STOPPED

# The words of the forms `journal` and `inquire`, which the table of words in SCRIPT.md does not have.
OTHER_WORDS = {
    "K": ("which of the four calls of the put fails", "a number from 1 to 4"),
    "W": ("what the disk has of what was not synced", "`keep`, `drop` or `torn`"),
    "COMMAND": (
        "the command inside which the house stops",
        ", ".join(f"`{it}`" for it in STOPPED) + ", with its words",
    ),
    "KIND": ("which elements are listed", "`all`, `default`, `byif`, `bymbr` or `byboth`"),
    "VERS": (
        "how versions are compared",
        "`all`, `compatible`, `exact`, `major_only` or `upto`; `all` where IFN is `-`",
    ),
    "MBR": ("the member of an element, or none", "a full name with the kinds `bymbr` and `byboth`, else `-`"),
    "MAX": ("how many bindings a batch has", "a number from 1 to 65,535"),
    "WHAT": ("what has octets", "`msg` or `house`"),
    "H..": ("further houses", "any number of words, none included, each a number from 1 to 255"),
}
GREATEST = {
    "H": 255,
    "M": 255,
    "R..": 255,
    "H..": 255,
    "D": 2**32 - 1,
    "N": 2**64 - 1,
    "TIME": 2**64 - 1,
    "PRI": 255,
    "K": 4,
    "MAX": 65535,
}
FAULTS = {
    "LineTooLong": "a line has at most 4,096 octets",
    "NotAscii": (
        "a line has spaces and the visible letters of ASCII, nothing else: no tab, no carriage return, no accent"
    ),
    "NoLineEnd": "the last line has to be ended too",
    "TooManyLines": "a script has at most 16,777,216 lines",
    "UnknownCommand": "the first word is no command",
    "WrongCount": "the line has too few words or too many",
    "BadWord": "this word has not the form that its place wants",
}


def form_of(command: str) -> str | None:
    """The words of the first form that knows a command, or None."""
    return next((form for form, known in FORMS.items() if command in known), None)


def pattern(command: str) -> str:
    """The command with the words that it takes."""
    return f"{command} {COMMANDS[command]}"


def kinds(words: list[str]) -> list[str]:
    """The kind of each word of a line after its command, as far as the command says; for `stop` those of its command
    too."""
    taken = COMMANDS[words[0]].split()
    if words[0] == "stop" and len(words) > 4 and words[4] in STOPPED:
        return [*taken[:3], "COMMAND", *kinds(words[4:])]
    if words[:2] == ["octets", "house"]:
        return ["WHAT", "H"]
    if taken[-1] in LISTS:
        return taken[:-1] + [taken[-1]] * max(0, len(words) - len(taken))
    return taken


def expects(command: str) -> tuple[int, int | None]:
    """How many words a command takes after itself: the least, and the most or None."""
    taken = COMMANDS[command].split()
    if taken[-1] in LISTS:
        return len(taken) - 1, None
    return len(taken), len(taken)
