"""The numbers of a rule, and those that its definitions and its code have."""
from __future__ import annotations

import functools
import re

from . import beliefs, sources

# Smaller numbers are in every list.
LEAST = 10
SAID = re.compile(r"(?<![\w.^-])(2\^\d+|\d{1,3}(?:,\d{3})+|\d+)(?![\w^.-]*\w)")
WRITTEN = re.compile(r"\b(?:(2) ?\^ ?(\d+)|1(?:_?[ui]\d+)? << (\d+)|(0x[0-9a-fA-F_]+)|(\d[\d_]*))")
CONSTANT = re.compile(r"(?m)^(?:pub(?:\([^)]*\))? )?const (\w+): [^=]+ = ([^;]+);")


def said_in(rule: str) -> dict[str, set[int]]:
    """The numbers that the words of a rule name, each with what it may be: octets of names are in hexadecimal."""
    text = re.sub(r"`[^`]*`", "", rule)
    found: dict[str, set[int]] = {}
    for word in SAID.findall(text):
        number = word.replace(",", "")
        octet = {int(number, 16)} if len(number) == 2 else set()
        meant = {2 ** int(number[2:])} if "^" in number else {int(number)} | octet
        if max(meant) >= LEAST:
            found[word] = meant
    return found


def written_in(text: str) -> set[int]:
    """The numbers that a text of definitions or code writes, with those of the constants that it names."""
    found = set()
    for two, power, shift, hexadecimal, decimal in WRITTEN.findall(text):
        if two or shift:
            found.add(1 << int(power or shift))
        else:
            found.add(int((hexadecimal or decimal).replace("_", ""), 0 if hexadecimal else 10))
    return found


@functools.cache
def constants() -> dict[str, str]:
    """What the constants of all crates are, by name."""
    found: dict[str, str] = {}
    for crate in sources.stood_on():
        for file in sources.files_of(crate, "src", "rt"):
            for name, value in CONSTANT.findall(sources.text_of(file)):
                found[name] = f"{found.get(name, '')} {value}"
    return found


def with_constants(text: str) -> str:
    """A text, with what the constants are that it names, and that these name."""
    for _ in range(2):
        named = set(re.findall(r"\b[A-Z][A-Z0-9_]{3,}\b", text)) & constants().keys()
        text += " ".join(constants()[it] for it in sorted(named))
    return text


def of_definitions(names: list[tuple[str, str]]) -> str:
    """The text of definitions, each of a crate and `File.name`, of those that they name, and of those that these
    name."""
    known = {it for crate, word in names if (it := beliefs.found_in(crate, *word.split(".", 1))) is not None}
    for _ in range(2):
        known |= {it for one in known for it in one.file.named_by(one) if it is not None}
    return "\n".join(line for it in known for line in it.lines)


def lost(rule: str, definitions: list[tuple[str, str]], code: str) -> list[str]:
    """The numbers of a rule that neither its definitions nor the text of its code have."""
    said = said_in(rule)
    if not said:
        return []
    written = written_in(with_constants(of_definitions(definitions) + "\n" + code))
    return [word for word, meant in said.items() if not meant & written]
