"""The usual slips where a number is wanted. Each answers what to do, and the word to write, or None where that is not
known."""

from __future__ import annotations

import re

from speaking import texts
from speaking.language import GREATEST

# What to do, and the word to write, or None where that is not known.
Slip = tuple[str, str | None]
LEAST = {"TIME": 0, "PRI": 0}
NAMES = {"H": "house", "M": "house", "R..": "house", "H..": "house", "D": "directory", "N": "message", "TIME": "time"}


def slip(kind: str, word: str, words: list[str]) -> Slip:
    """What is wrong with a word where a number of a kind is wanted."""
    for look in (date_or_time, listed, secondary, spelled, out_of_range, named):
        found = look(kind, word, words)
        if found:
            return found
    return f"Write a number here, from {LEAST.get(kind, 1)} to {GREATEST[kind]:,}.", None


def date_or_time(kind: str, word: str, _: list[str]) -> Slip | None:
    """A time of day, or a date, where a time is wanted."""
    if kind != "TIME":
        return None
    at = texts.seconds(word)
    if at is not None:
        return f"A time is a whole number: {word} is {at} seconds of the day.", str(at)
    if texts.DATE.match(word):
        return "A time is a whole number, in any unit: seconds since the first day of the log will do.", None
    return None


def listed(kind: str, word: str, words: list[str]) -> Slip | None:
    """Several numbers with commas in between, or a comma after one."""
    parts = [part for part in re.split("[,;]", word) if part]
    if len(parts) > 1 and kind in ("M", "R..", "H.."):
        return "Houses have spaces between them, and no commas.", " ".join(parts)
    if len(parts) > 1 and kind in ("H", "N", "D"):
        return f"One {NAMES[kind]} a line: `{words[0]}` takes a single one here.", None
    if parts and parts[0] != word:
        return "Words have spaces between them, and no commas.", parts[0]
    return None


def secondary(kind: str, word: str, words: list[str]) -> Slip | None:
    """A mark of a house's kind where it does not go."""
    digits = re.fullmatch(r"[sS]+:?(\d{1,3})|(\d{1,3}):?[sS]", word)
    if digits and kind in ("M", "H..", "H"):
        number = digits.group(1) or digits.group(2)
        why = {
            "M": "The first house is the master, and has no `s`.",
            "H..": f"`{words[0]}` names houses without their kinds.",
        }
        return (
            why.get(kind, "A house is its number alone; `s` marks a secondary member of `root`, `mkdir` and `epoch`."),
            number,
        )
    if digits and kind == "R..":
        return "A secondary house is one small `s` and its number.", f"s{int(digits.group(1) or digits.group(2))}"
    found = re.fullmatch(r"(\d{1,3})(?::\d+)?:([msr])", word)
    if found and kind in ("M", "R..", "H..", "H"):
        mark = "s" if found.group(2) == "s" and kind == "R.." else ""
        said = (
            "That is how a dump prints a member. A script has its number alone, with `s` in front of a secondary one."
        )
        return said, mark + found.group(1)
    if word in ("s", "S") and kind == "R..":
        return "No space goes between `s` and the number of a secondary house, as in `s3`.", None
    return None


def spelled(kind: str, word: str, _: list[str]) -> Slip | None:
    """A number in another spelling."""
    bare = word.strip("\"'").removeprefix("#")
    least = LEAST.get(kind, 1)
    if re.fullmatch(r"0+\d+", bare):
        number = int(bare)
        return "Numbers have no leading zeros.", str(number) if number >= least else None
    if re.fullmatch(r"\+\d+", bare):
        return "Numbers have no sign.", bare.lstrip("+")
    if re.fullmatch(r"-\d+", bare):
        return f"Numbers have no sign; the least one here is {least}.", None
    if re.fullmatch(r"\d+\.\d+", bare):
        return "Numbers are whole. Choose a smaller unit, and multiply all times alike.", None
    if re.fullmatch(r"\d{1,3}([,_]\d{3})+", bare):
        return "Numbers have no marks between their digits.", re.sub("[,_]", "", bare)
    if re.fullmatch(r"0[xX][0-9A-Fa-f]+", bare):
        return "Numbers are decimal.", str(int(bare, 16))
    if re.fullmatch(r"\d+@[0-9a-f]{12}", bare):
        return "That is a stamp. Its time alone goes here.", bare.partition("@")[0] if kind == "TIME" else None
    if re.fullmatch(r"[1-9]\d*", bare) and bare != word:
        return "A number is digits alone.", bare
    return None


def out_of_range(kind: str, word: str, words: list[str]) -> Slip | None:
    """A number that is too small or too great."""
    if not word.isdecimal():
        return None
    if kind == "D" and int(word) == 0:
        return "Directories are counted from 1; the root is 1.", "1"
    if kind == "N" and int(word) == 0:
        return (
            "Messages are counted from 1. The answer to the command that posted it names its number, after `posted`.",
            None,
        )
    if int(word) == 0:
        return (
            f"The least number here is {LEAST.get(kind, 1)}; give each {NAMES.get(kind, 'thing')} one from there on.",
            None,
        )
    more = "; a cell has at most 255 houses" if kind in ("H", "M", "R..", "H..") else ""
    return f"The greatest number here is {GREATEST[kind]:,}{more}.", None


def named(kind: str, word: str, words: list[str]) -> Slip | None:
    """A name where a number is wanted."""
    if kind == "N":
        return named_message(word, words)
    if kind == "D":
        return named_directory(word)
    if kind in ("H", "M", "R..", "H..") and re.search("[A-Za-z]", word):
        digits = re.fullmatch(r"(?:house|h|H|clearinghouse)[_-]?(\d{1,3})", word)
        if digits:
            return "A house is its number alone.", digits.group(1)
        shown = f"`{word}`" if len(word) <= 40 else "it"
        return (
            f"A house is a number in a script: write the one that `house H NODE` gave {shown}. tools/write takes"
            " names.",
            None,
        )
    return None


def named_message(word: str, words: list[str]) -> Slip:
    """A name where the number of a message is wanted."""
    if word == "all":
        return (
            f"`{words[0]}` takes the number of one message. tools/write and tools/console know `{words[0]} all`.",
            None,
        )
    if word in ("to", "msg", "message", "but"):
        said = f"`{words[0]}` takes the number of one message and no more, as `{words[0]} 1`."
        return f"{said} tools/write knows `{words[0]} to HOUSE`.", None
    return "Write the number of the message: the answer to the command that posted it names it, after `posted`.", None


def named_directory(word: str) -> Slip:
    """A name where the number of a directory is wanted."""
    if word in ("/.:", "/.:/", "/", "root", "."):
        return "A directory is a number; the root is 1.", "1"
    if word.startswith("/"):
        said = f"A directory is a number: the one after `ok` in the answer to the `mkdir` that made {word[:60]}."
        return f"{said} tools/write takes names.", None
    return "A directory is a number: 1 is the root, and `mkdir` answers `ok` and the number of a new one.", None
