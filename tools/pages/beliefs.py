"""The definitions of `specs/` under a clause: those that it names, those that these name, and so on."""

from __future__ import annotations

import functools
import os
import re
from collections.abc import Iterator

from . import sources

# A name, also a mixfix one or one with a hyphen.
WORD = r"[^\s(){}\[\],.;λ→×⊎¬]+"
SIGNATURE = re.compile(
    rf"(?:(?:abbrev|unfoldable|opaque|pub|data|record)\s+)+({WORD})(?=[\s:(])|(?P<private>{WORD}) : "
)


class Definition:
    """A definition: its crate, its file, its name, the number of its first line, and its lines, without comments."""

    lines: list[str]

    def __init__(self, crate: str, file: File, name: str, number: int) -> None:
        self.crate, self.file, self.name, self.number, self.lines = crate, file, name, number, []


class File:
    """A file of definitions: these in their order, and what its imports name."""

    definitions: dict[str, Definition]
    known: dict[str, Definition | tuple[str, str, str]]
    aliases: dict[str, tuple[str, str]]

    def __init__(self, crate: str, path: str) -> None:
        self.crate, self.name, self.definitions, self.known, self.aliases = (
            crate,
            os.path.basename(path)[:-5],
            {},
            {},
            {},
        )
        last, in_module = None, False
        for number, line in enumerate(sources.text_of(path).split("\n"), 1):
            # What a module of parameters has is two places to the right.
            if line.startswith("module ") or in_module and line[:1] not in ("", " "):
                in_module = line.startswith("module ")
            elif in_module:
                line = line[2:]
            if line.startswith("use "):
                self.take_import(line)
            elif not line.strip() or line.startswith(("--", "module ")):
                last = None
            elif line.lstrip().startswith("--"):
                # (a comment inside a definition)
                continue
            elif (head := SIGNATURE.match(line)) and "pub mod" not in line:
                last = Definition(crate, self, head[1] or head["private"], number)
                last.lines.append(line)
                self.definitions[last.name] = last
            elif last:
                last.lines.append(line)
            elif self.definitions and not line.startswith("pub mod"):
                # Equations after a comment or a blank line belong to the definition before.
                last = [*self.definitions.values()][-1]
                last.lines.append(line)
        for it in list(self.definitions.values()):
            if re.search(r"\bdata\b", it.lines[0].split(":")[0]):
                for constructor in re.findall(rf"(?m)^  (?:pub )?({WORD}) :", "\n".join(it.lines[1:])):
                    self.known[constructor] = it

    def take_import(self, line: str) -> None:
        """Takes what an import names, for later."""
        named = re.match(r"use Rattle\.(\w+)\.specs\.([\w.]+?)\.\{(.*)\}", line)
        alias = re.match(r"use Rattle\.(\w+)\.specs\.([\w.]+) as (\w+)", line)
        if named:
            for name in (it.strip() for it in named.group(3).split(",")):
                self.known.setdefault(name, (named.group(1), named.group(2), name))
        elif alias:
            self.aliases[alias.group(3)] = (alias.group(1), alias.group(2))

    def meant(self, name: str) -> Definition | None:
        """The definition of a name in this file, if the repository has it."""
        if name in self.definitions:
            return self.definitions[name]
        found = self.known.get(name)
        return found_in(*found) if isinstance(found, tuple) else found

    def named_by(self, definition: Definition) -> Iterator[Definition | None]:
        """The definitions that a definition names."""
        text = "\n".join(re.sub(r"--.*", "", it) for it in definition.lines)
        for alias, name in re.findall(rf"\b(\w+)\.({WORD})", text):
            if alias in self.aliases:
                yield found_in(*self.aliases[alias], name)
        words = set(re.findall(WORD, text))
        for name in {*self.definitions, *self.known}:
            parts = [it for it in re.split(r"[◌ ]+", name) if it]
            if "◌" in name and all(it in text for it in parts) or name in words:
                yield self.meant(name)


@functools.cache
def files() -> dict[tuple[str, str], File]:
    """The files of definitions, by crate and name."""
    found = {}
    for crate in sources.stood_on():
        for path in sources.files_of(crate, "specs", "antt"):
            it = File(crate, path)
            found[crate, it.name] = it
    return found


def found_in(crate: str, file: str, name: str) -> Definition | None:
    """The definition of a name that a file of a crate has, if the repository has it."""
    it = files().get((crate, file.split(".")[0]))
    return it.meant(name) if it and not file.startswith("declared") else None


def under(names: list[str]) -> set[Definition]:
    """The definitions under these, each `crate/File.name`."""
    begin = [found_in(*words) for it in names for words in re.findall(r"^(\w+)/(\w+)\.(.*)", it)]
    known: set[Definition] = set()
    while begin:
        it = begin.pop()
        if it is None or it in known:
            continue
        known.add(it)
        begin += it.file.named_by(it)
    return known


def all_lines() -> int:
    """How many lines the files of definitions have."""
    return sum(
        sources.text_of(path).count("\n")
        for crate in sources.stood_on()
        for path in sources.files_of(crate, "specs", "antt")
    )
