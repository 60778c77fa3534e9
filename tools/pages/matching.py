"""Which files match over what a change adds to: an enum of the code, or a type of the model."""

from __future__ import annotations

import re
from collections.abc import Iterator

from . import sources

# What is added, by the heading of docs/CHANGING.md: enums of the code, and types of the model with their files.
ADDED = {
    "a command": (("Command", "Question"), (("Commands", "Command"),)),
    "a message": (("Body",), (("Cells", "Body"),)),
    "a form": (("Form", "LineForm"), ()),
    "a line of a house": (("HouseLine", "HouseOrder"), ()),
    "a question of a house": (("HouseQuestion",), ()),
    "a reason": (("Cause",), ()),
}
# A file that names so many variants matches over them.
SEVERAL = 3


def matching(added: str) -> Iterator[tuple[str, str]]:
    """The crates and the names of the files that match over what is added: `file.rt`, and `File` of definitions."""
    enums, types = ADDED[added]
    for crate in sources.stood_on():
        if crate not in sources.TESTS:
            for file in sources.files_of(crate, "src", "rt"):
                if any(len(in_code(sources.bare(sources.text_of(file)), it)) >= SEVERAL for it in enums):
                    yield crate, file.split("/src/")[1]
            for file in sources.files_of(crate, "specs", "antt"):
                text = sources.text_of(file)
                if any(len(in_definitions(text, rf"\w+\.{it}\.TheVariants")) >= SEVERAL for it in enums) or any(
                    len(in_definitions(text, rf"cell_model\.specs\.{of}") & variants(of, it)) >= SEVERAL
                    for of, it in types
                ):
                    yield crate, file.split("/")[-1][:-5]


def in_code(text: str, enum: str) -> set[str]:
    """The variants of an enum that patterns of a source name."""
    text = re.sub(r"(?m)^ghost use.*$", "", text)
    return set(re.findall(rf"\b{enum}::([A-Z]\w+)(?=[^=;{{}}]*(?:=>|\|))", text))


def in_definitions(text: str, imported: str) -> set[str]:
    """The names of an import that definitions use."""
    body = "\n".join(it for it in text.split("\n") if not it.startswith(("use ", "--")))
    found = set()
    for alias in re.findall(rf"(?m)^use .*\b{imported} as (\w+)", text):
        found |= set(re.findall(rf"\b{alias}\.([A-Z]\w+)", body))
    for names in re.findall(rf"(?m)^use .*\b{imported}\.\{{(.*)\}}", text):
        words = [it.strip().split(" as ") for it in names.split(",")]
        found |= {it[0] for it in words if re.search(rf"\b{re.escape(it[-1])}\b", body)}
    return found


def variants(file: str, kind: str) -> set[str]:
    """The constructors of a type of the model."""
    rows = re.search(rf"data {kind} .*?where\n((?:  .*\n)+)", sources.text_of(f"crates/cell_model/specs/{file}.antt"))
    return set(re.findall(r"(?m)^  (?:pub )?(\w+) :", rows.group(1))) if rows else set()
