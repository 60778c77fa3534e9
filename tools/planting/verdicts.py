"""What a check says of functions: which are not proved, and why."""

from __future__ import annotations

import re

# The name of a function, a word of it, and the rest of its line.
Verdict = tuple[str, str, str]
# What a check says of a function, its last line if it came to an end, and that line if all is proved.
VERDICT = re.compile(r"(?m)^fn (.+?): (proved|not proved|no proof|could not tell)\b(.*)$")
ENDED = re.compile(r"(?m)^(?:only=\d|logic=(?:not-)?proved)")
PROVED = re.compile(r"(?m)^logic=proved")
# What is wrong in a proof, by its folder.
IN_PROOF = re.compile(r"(?m)^(?:\./)?proofs/(\S+)/\w+\.antt:\d+:\d+: error: (.*(?:\n  .*)*)$")
# A function that is not proved since what it calls is not.
BY_A_CALL = re.compile(r"it calls|it passes|a call of")


def verdicts_in(said: str) -> list[Verdict]:
    """What a check says of functions."""
    return VERDICT.findall(said)


def has_ended(said: str) -> bool:
    """Whether a check came to an end."""
    return bool(ENDED.search(said))


def is_proved(said: str) -> bool:
    """Whether a check says that the crate is proved."""
    return bool(PROVED.search(said))


def is_named(name: str, head: str, start: str) -> bool:
    """Whether a check means a function of a module by this name."""
    return name.endswith(f"::{head}") and ("::" in head or name.startswith(start))


def is_of(name: str, functions: tuple[str, ...]) -> bool:
    """Whether a function is one of these, or a closure inside one."""
    return name.replace("::fn::", "::", 1).startswith(tuple(f"{it}::" for it in functions)) or name in functions


def fallen_in(said: str, told: list[Verdict]) -> tuple[list[tuple[str, str]], list[str]]:
    """Which of these functions are not proved, and why those are not that fall by themselves, and not by a call."""
    fallen = [(name, rest) for name, word, rest in told if word in ("not proved", "no proof")]
    return fallen, [why for name, rest in fallen if not BY_A_CALL.search(rest) for why in reasons_in(said, name, rest)]


def reasons_in(said: str, name: str, rest: str) -> list[str]:
    """Why a check says that a function is not proved: what is wrong in its proof's files, or else what its line
    says."""
    folder = "/".join(name.split("::")[1:])
    return [" ".join(why.split()) for at, why in IN_PROOF.findall(said) if at == folder] or [
        rest.strip(": ") or "its line gives no reason"
    ]


def last_words(said: str) -> str:
    """The last lines of what a check said that are no empty ones."""
    return " / ".join([it for it in said.split("\n") if it.strip()][-3:])[:300]
