"""Words of operators in the form that a script wants: nodes, times of day, values, names."""

from __future__ import annotations

import re

from speaking.tokens import Text

OCTET_PARTS = re.compile(r"[0-9A-Fa-f]{1,2}([:-])[0-9A-Fa-f]{1,2}(?:\1[0-9A-Fa-f]{1,2}){4}")
CISCO = re.compile(r"[0-9A-Fa-f]{4}\.[0-9A-Fa-f]{4}\.[0-9A-Fa-f]{4}")
CLOCK = re.compile(r"(?:(\d{4}-\d\d-\d\d)[ T])?([01]?\d|2[0-3]):([0-5]\d)(?::([0-5]\d)(?:\.\d+)?)?Z?")
DATE = re.compile(r"\d{4}-\d\d-\d\d")
UUID = r"[0-9A-Fa-f]{8}-[0-9A-Fa-f]{4}-[0-9A-Fa-f]{4}-[0-9A-Fa-f]{4}-[0-9A-Fa-f]{12}"
SIMPLE = re.compile(r"[!-.0-~]{1,254}")


def node(word: str) -> str | None:
    """The 12 digits of a node that is written with colons, dashes or dots, or None."""
    word = word.strip("\"'").removeprefix("0x")
    if OCTET_PARTS.fullmatch(word):
        return "".join(part.zfill(2) for part in re.split("[:-]", word)).lower()
    if CISCO.fullmatch(word):
        return word.replace(".", "").lower()
    return word.lower() if re.fullmatch("[0-9A-Fa-f]{12}", word) else None


def seconds(word: str) -> int | None:
    """The seconds of a time of day since midnight, or None."""
    found = CLOCK.fullmatch(word)
    if not found:
        return None
    return int(found.group(2)) * 3600 + int(found.group(3)) * 60 + int(found.group(4) or 0)


def value(text: Text | str) -> str:
    """The digits of a text as a value."""
    return text.encode().hex()


def shown(digits: str) -> str:
    """A value as text in quotes, where it is a text, or its digits."""
    octets = bytes.fromhex(digits)
    if octets and all(0x20 <= octet <= 0x7E for octet in octets):
        return '"' + octets.decode() + '"'
    return digits


def full_name(word: str) -> str | None:
    """A full name in place of one that is nearly one, or None."""
    bare = word.strip("\"'")
    rest = re.sub(r"^(/\.:|/\.\.\.(/[^/]+)?|/:|\./:|\.:|:)?/*", "", bare)
    parts = [part for part in rest.split("/") if part]
    if not all(SIMPLE.fullmatch(part) for part in parts):
        return None
    return "/".join(["/.:", *parts])


def is_hex(word: str) -> bool:
    """Whether a word is hexadecimal digits."""
    return bool(re.fullmatch("[0-9A-Fa-f]+", word))


def plural(count: int, word: str) -> str:
    """A count of things."""
    return f"{count} {word}{'' if count == 1 else 's'}"
