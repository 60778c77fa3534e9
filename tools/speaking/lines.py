"""The usual slips of whole lines: an unknown command, too few or too many words, and octets that no line has.

Each answers what to do, and the lines to write in place of this one, or none where they are not known.
"""

from __future__ import annotations

import difflib
import re

from cds.commands import COMMANDS, FORMS, LISTS
from speaking import language, texts

# What other tools of a cell call the same.
OTHERS = {
    "show": "read", "list": "dump", "ls": "dump", "cat": "dump", "define": "create", "new": "create", "make": "create",
    "touch": "create", "rm": "delete", "del": "delete", "set": "put", "modify": "put", "mv": "link", "ln": "link",
    "stopped": "crash", "down": "crash", "kill": "crash", "reboot": "start", "up": "start", "restart": "start",
    "send": "deliver", "receive": "deliver", "drop": "lose", "clearinghouse": "house", "server": "house",
    "time": "clock", "directory": "mkdir", "replica": "epoch", "sync": "skulk", "lookup": "import",
}  # fmt: skip
TALK = {
    "help": "Help is in docs/SCRIPT.md, and tools/console answers `help` and `help COMMAND`.",
    "?": "tools/console answers `help`.", "exit": "A script ends where its input ends: at a terminal Ctrl-D ends it.",
    "quit": "A script ends where its input ends: at a terminal Ctrl-D ends it.", "undo": "tools/console knows `undo`.",
    "save": "tools/console knows `save FILE`.", "messages": "tools/console knows `messages`.",
    "always": "tools/write knows `from here deliver all`.",
    "from": "That is a line for tools/write, which makes a script of it.",
}  # fmt: skip
ANSWERS = ("ok", "refused", "fault", "dump", "end", "binding", "entry", "attr", "value")
COMMENTS = ("//", ";", "--", "rem", "!", "%", "'", "/*", "*")


def unknown(words: list[str], form: str, line: str) -> tuple[str, list[str]]:
    """Slips of a first word that is no command."""
    word = words[0]
    lower = word.lower().strip("\"',;:")
    if re.fullmatch(r"\d+", word) and words[1:2] and words[1] in ANSWERS:
        return "This is a line of answers. The script is the other file.", []
    if re.fullmatch(r"\d+[.:)]?", word) and words[1:2] and words[1] in COMMANDS:
        return "A line begins with its command; lines are counted without numbers in front.", [" ".join(words[1:])]
    if word in ("$", ">") or word.startswith("./cds") or lower in ("cdsreplay", "cdsmend"):
        return "This is a command for the shell. A script has its own commands alone.", []
    if lower in TALK:
        return TALK[lower], []
    if lower in COMMENTS or word.startswith(COMMENTS):
        return "A comment begins with `#`.", [
            "# " + line.strip().lstrip("/;-!%'* ").removeprefix("rem ").removeprefix("REM ")
        ]
    if texts.CLOCK.fullmatch(word) or texts.DATE.match(word):
        said = "A line begins with its command, and a time is set by `clock H TIME` before it."
        return f"{said} tools/write takes lines of a log, with their times.", []
    known = FORMS[form]
    if lower in COMMANDS and lower not in known:
        other = language.form_of(lower)
        return f"`{lower}` is a command of the form `{other}`: replay the script by ./cdsreplay {other}.", []
    if lower in known:
        return "Commands are in small letters, with nothing after them but a space.", [" ".join([lower, *words[1:]])]
    near = difflib.get_close_matches(lower, known, 1, 0.6)
    if lower in OTHERS and not (near and difflib.SequenceMatcher(None, lower, near[0]).ratio() > 0.85):
        return f"The command for that is perhaps `{language.pattern(OTHERS[lower])}`.", []
    if near:
        return f"Is `{near[0]}` meant?", [" ".join([near[0], *words[1:]])]
    return 'SCRIPT.md, "All commands", has each command; a comment begins with `#`.', []


def fitting(words: list[str]) -> bool:
    """Whether a line has as many words as its command takes."""
    least, most = language.expects(words[0])
    return least < len(words) and (most is None or len(words) <= most + 1)


def miscounted(words: list[str]) -> tuple[str, list[str]]:
    """Slips of a line with too few or too many words."""
    cut = next((at for at, word in enumerate(words) if at and word.startswith(("#", "=>", "//", ";"))), None)
    if cut:
        rest = words[:cut] if fitting(words[:cut]) else None
        said = "A remark needs a line of its own: a `#` further on begins no comment."
        if words[cut].startswith("=>"):
            said = "What follows `=>` on the pages is the answer, and no part of the line."
        return said, [" ".join(rest)] if rest else []
    for look in (several, missing, split, generic):
        found = look(words)
        if found:
            return found
    return "", []


def several(words: list[str]) -> tuple[str, list[str]] | None:
    """One command for several houses or messages."""
    command, rest = words[0], [word.strip(",") for word in words[1:]]
    if command in ("deliver", "lose", "crash", "start") and len(rest) > 1 and all(word.isdecimal() for word in rest):
        what = "message" if command in ("deliver", "lose") else "house"
        return f"`{command}` takes one {what}: write a line for each.", [f"{command} {word}" for word in rest]
    if command in ("deliver", "lose") and len(rest) > 1:
        said = f"`{command}` takes the number of one message and no more."
        return f"{said} tools/write and tools/console know `deliver all but to HOUSE`.", []
    if command == "clear" and len(words) == 6:
        return "`clear` takes all values away. `remove` takes one.", [" ".join(["remove", *words[1:]])]
    return None


def missing(words: list[str]) -> tuple[str, list[str]] | None:
    """A word of a known place is missing."""
    command, rest, kinds = words[0], words[1:], COMMANDS[words[0]].split()
    least, _ = language.expects(command)
    if command == "octets" and len(rest) == 1:
        return octets_missing(rest[0])
    if len(rest) >= least:
        return None
    if "C" in kinds and len(rest) == len(kinds) - 1 and rest[1:2] and rest[1].startswith("/"):
        said = "The confidence is missing, `low` (ask the house) or `high` (ask the master)."
        return said, [" ".join([command, rest[0], "low", *rest[1:]])]
    if kinds[:3] == ["H", "D", "S"] and rest[1:2] and not rest[1].isdecimal():
        name = rest[1].rpartition("/")[2] if rest[1].startswith("/.:/") else rest[1]
        mended = [command, rest[0], "1", name, *rest[2:]]
        said = "The number of the directory is missing, before the entry's name; the root is 1."
        return said, [" ".join(mended)] if fitting(mended) else []
    if command in ("skulk", "dump") and len(rest) == 1:
        return "The number of the directory is missing; the root is 1.", [f"{command} {rest[0]} 1"]
    if command in ("mkdir", "repoint") and len(rest) == 3:
        return "The house that is its master is missing, after the name.", [" ".join([*words, rest[0]])]
    if command == "house" and len(rest) == 1:
        return (
            "The node is missing: the address of its network card (MAC), 12 hexadecimal digits; any will do that no"
            " other house has.",
            [],
        )
    if command in ("read",) and len(rest) == 3 and rest[2].startswith("/"):
        return "The name of an attribute is missing, as CDS_Class. `dump H D` lists all that a house holds.", []
    if command in ("export", "unexport", "import", "proflist", "lookup", "profadd"):
        return f"`{language.pattern(command)}`: a `-` goes in the place of what is not there.", []
    return None


def octets_missing(word: str) -> tuple[str, list[str]]:
    """`octets` takes two words."""
    if word.isdecimal():
        return "Say whether the octets of a message or of a house are meant.", [
            f"octets msg {word}",
            f"octets house {word}",
        ]
    return "The number of the message or of the house is missing.", []


def split(words: list[str]) -> tuple[str, list[str]] | None:
    """One word was written as several."""
    command, rest, kinds = words[0], words[1:], COMMANDS[words[0]].split()
    if kinds[-1] in LISTS or len(rest) <= len(kinds):
        return None
    if kinds[-1] == "VALUE":
        parts, front = rest[len(kinds) - 1 :], words[: len(kinds)]
        if all(re.fullmatch("([0-9A-Fa-f]{2})+", part) for part in parts):
            return "One value a line.", [" ".join([*front, part]) for part in parts]
        text = " ".join(parts).strip("\"'")
        return f'A value is one word of hexadecimal digits. Where the text "{text[:40]}" is meant:', [
            " ".join([*front, texts.value(text)])
        ]
    if kinds == ["H", "NODE"]:
        digits = "".join(part.zfill(2) if len(part) < 2 else part for part in rest[1:])
        return "A node is one word of 12 digits.", [f"house {rest[0]} {digits.lower()}"] if texts.node(digits) else []
    if kinds[-1] == "S":
        return "A name has no spaces.", [" ".join([*words[:3], "_".join(rest[2:])])]
    if kinds[-1] == "NOTE":
        return "An annotation is one word, without spaces.", [" ".join([*words[:5], "_".join(rest[4:])])]
    if kinds[-1] == "ATTR" and command == "read":
        return "One attribute a line.", [" ".join([*words[:4], part]) for part in rest[3:]]
    if any(word.endswith(",") for word in rest[:-1]) or "," in rest:
        said = "Lists of bindings, objects and protocol sequences are one word: no space after a comma."
        return said, [re.sub(r" ?, +", ",", " ".join(words))]
    return None


def generic(words: list[str]) -> tuple[str, list[str]]:
    """How many words there have to be."""
    least, most = language.expects(words[0])
    if words[0] == "stop":
        return (
            "`stop H K W COMMAND`: after W comes a whole command with its words, as `stop 1 4 keep create 1 1 lpr`.",
            [],
        )
    wanted = f"{'at least ' if most is None else ''}{texts.plural(least, 'word')}"
    return f"`{language.pattern(words[0])}` has {wanted} after the command; here {are(len(words) - 1)}.", []


def are(count: int) -> str:
    """How many words there are."""
    return "is 1" if count == 1 else f"are {count or 'none'}"


def octet(line: bytes, place: int) -> tuple[str, list[str]]:
    """Slips at an octet that no line has."""
    found, plain = line[place - 1 : place], line
    if found == b"\t":
        said = "This is a tab. Words have spaces between them."
        plain = line.replace(b"\t", b" ")
    elif found == b"\r":
        said = (
            "This is a carriage return: the file has the line ends of DOS. `tr -d '\\r' <FILE >NEW` takes them out of"
            " all lines."
        )
        plain = line.replace(b"\r", b"")
    elif line.startswith(b"\xef\xbb\xbf"):
        said = (
            "These are the three octets of a byte order mark, which an editor put there. `tail -c +4 FILE >NEW` takes"
            " them away."
        )
        plain = line[3:]
    elif found == b"\0" or found == b"\xff" or found == b"\xfe":
        return "This is no text of ASCII: it may be UTF-16, an image of a house, or another file.", []
    else:
        said, plain = letter(line, place)
    plain = plain.replace(b"\t", b" ").replace(b"\r", b"")
    return said, [plain.decode()] if re.fullmatch(rb"[ -~]*", plain) else []


def letter(line: bytes, place: int) -> tuple[str, bytes]:
    """A letter of another alphabet, or a mark that an editor put in place of one."""
    dashes, quotes = {"\u2013": "-", "\u2014": "-"}, {"\u2018": "'", "\u2019": "'", "\u201c": '"', "\u201d": '"'}
    marks = {"\u00a0": " ", "\u2026": "..", "\u2192": "->"} | dashes | quotes
    text = line[place - 1 :].decode("utf-8", "replace")
    if text[:1] in marks:
        better = line.decode("utf-8", "replace")
        for mark, plain in marks.items():
            better = better.replace(mark, plain)
        names = {"\u00a0": "a space that does not break", "\u2026": "one letter of three points", "\u2192": "an arrow"}
        return f"This is {names.get(text[0], 'a mark that an editor put here')}, outside ASCII.", better.encode()
    if line.strip().startswith(b"#"):
        return "Comments have letters of ASCII alone, too.", line
    return "Names have letters of ASCII alone. In a value any octet goes, as two digits: `printf TEXT | xxd -p`.", line
