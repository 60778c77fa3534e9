"""The lines that a door is given: which kind each is of, and which have no form at all."""
from __future__ import annotations

# The commands of a clerk (docs/LIVE.md): those that change nothing, and those that are plans.
ASKS = ("read", "readlink", "import", "grouplist", "entrylist", "proflist", "lookup")
PLANS = ("export", "unexport", "groupadd", "groupdel", "profadd", "profdel")
# What one update of an entry is, at a house or by a full name.
UPDATES = ("create", "link", "delete", "add", "remove", "put", "clear")
# What a house is asked (docs/LINES.md).
QUESTIONS = ("show", "status", "directories", "look", "dump")
# The console numbers these.
NUMBERED = ("root", "mkdir", "epoch")
# What is of doors alone.
CARRIED = ("more", "take")
# What a house does as turns: it may wait for its disk.
TURNS = ("house", "repoint", "skulk", "take", *NUMBERED, *UPDATES)
# Of the answers to `take` those that are no turns.
NOT_TAKEN = ("late", "early", "stale", "noreplica", "foreign")

# The most octets of a command, as of a line of a script; of a line of a house; and of a line of another door, which
# may have a message.
LONGEST, LONGEST_OF_HOUSES, LONGEST_OF_DOORS = 4096, 4080, 2 * 16_777_216 + 64


def fault_of(line: str | None, longest: int = LONGEST) -> str | None:
    """The fault of a line's octets, or None. (A line that is None was too long to be kept.)"""
    if line is None or len(line) > longest:
        return f"fault LineTooLong {longest + 1}"
    if line.isascii() and line.isprintable():
        return None
    at = next(at for at, letter in enumerate(line) if not " " <= letter <= "~")
    return f"fault NotAscii {at + 1}"


def class_of(words: list[str]) -> str:
    """The class of a line, by its first word: `questions`, `updates`, `messages`, and all else is `operation`."""
    word = words[0]
    if word in ASKS or word in QUESTIONS:
        return "questions"
    if word in PLANS or word in UPDATES:
        return "updates"
    return "messages" if word in CARRIED else "operation"


def is_turn(line: str, answer: list[str]) -> bool:
    """Whether a house did a turn, by its line and its answer."""
    words = answer[-1].split(" ")
    return line.split(" ")[0] in TURNS and words[0] == "ok" and words[1:2] not in [[word] for word in NOT_TAKEN]


def number_of(digits: str, length: int) -> int:
    """The number that so many hexadecimal digits are, or 0."""
    return int(digits, 16) if len(digits) == length and set(digits.lower()) <= set("0123456789abcdef") else 0


def sender_of(octets: str) -> int:
    """The house that a message says it is from: its octet 7. 0 where it has none."""
    return number_of(octets[12:14], 2)


def directory_of(octets: str) -> int:
    """The directory that a message is about: octets 3 to 6. 0 where it has none."""
    return number_of(octets[4:12], 8)
