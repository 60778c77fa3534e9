"""The laws of the crates, functions of `src/laws.rt` that do nothing: crates/LAWS.md is made from their comments."""
from __future__ import annotations

import re

from . import sources
from .groups import Group

LAW = re.compile(r"(?m)((?:^///.*\n)*)(?:^#\[.*\n)*^pub fn (\w+)")


def told_in(text: str) -> list[tuple[str, str]]:
    """The laws of a source, each with what its comment says."""
    return [(name, " ".join(it[3:].strip() for it in comment.splitlines())) for comment, name in LAW.findall(text)]


def page(groups: list[Group]) -> str:
    """The text of crates/LAWS.md."""
    lines = [
        "# The laws",
        "",
        (
            "Made by `tools/map` from the comments of `crates/NAME/src/laws.rt`. A law is a function that does"
            " nothing, and"
        ),
        (
            "whose contract is a theorem. [PROVED](../docs/PROVED.md) says which of them carry the promises of the"
            " programs."
        ),
    ]
    for crate in (it for group in groups for it in group.crates):
        laws = told_in(sources.text_of(f"crates/{crate}/src/laws.rt"))
        if laws:
            lines += ["", f"## `{crate}`", "", *(f"- **`{name}`**: {said}" for name, said in laws)]
    return "\n".join(lines) + "\n"
