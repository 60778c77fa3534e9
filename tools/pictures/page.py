"""Writes the page on which a replay is stepped through: one HTML file, with its style, its script and what happened
inside."""

from __future__ import annotations

import base64
import hashlib
import html
import json
import os

from . import clerk, packing, states as states_
from .asking import Asking
from .cell import Replay
from .facts import Step
from .shapes import Undrawable, styles

FOLDER = f"{os.path.dirname(os.path.realpath(__file__))}/page"
SCRIPTS = ("model", "words", "life", "lines", "lanes", "arrows", "signs", "tables", "state", "forms", "moves", "keys")
MOST_STEPS = 10_000
MOST_OCTETS = 40_000_000


def part(name: str) -> str:
    """A part of the page."""
    with open(f"{FOLDER}/{name}", encoding="utf-8") as it:
        return it.read()


def sum_of(text: str) -> str:
    """What the page's policy names a text by."""
    return base64.b64encode(hashlib.sha256(text.encode()).digest()).decode()


def as_data(packed: dict[str, object]) -> str:
    """Data as a page has them: no word of them ends its element."""
    text = json.dumps(packed, separators=(",", ":"), ensure_ascii=True)
    return text.replace("<", "\\u003c").replace(">", "\\u003e").replace("&", "\\u0026")


def pack(
    replay: Replay,
    program: str,
    words: list[str],
    script: bytes,
    answers: bytes,
    first: int,
    last: int,
    directory: int | None,
) -> dict[str, object]:
    """What the page has of a replay."""
    steps = packing.chosen(replay, first, last, directory)
    if len(steps) > MOST_STEPS:
        raise Undrawable(
            f"{len(steps)} steps are more than a page's {MOST_STEPS}; choose some with --from, --to and --dir"
        )
    lines = script.decode("ascii").split("\n")[:-1]
    said = answers.decode("ascii").split("\n")[:-1]
    begin, end = steps[0].at, steps[-1].at
    states = states_.read(Asking(program, words, lines, said, replay, begin, end), directory)
    packed = packing.Pack(replay, states, steps, directory).all()
    packed["lines"] = texts(lines, steps)
    packed["form"], packed["isKept"], packed["dir"] = " ".join(words), states.is_kept, directory
    is_whole = begin == 0 and directory is None
    packed["clerk"] = clerk.lists(replay, states, int(words[1])) if words[0] == "clerk" and is_whole else None
    return packed


def texts(lines: list[str], steps: list[Step]) -> list[tuple[int, str]]:
    """The lines of the script from the first chosen step, with the comments before it, to the last one, by their
    numbers."""
    begin, end = steps[0].line, steps[-1].line
    while begin > 1 and lines[begin - 2].lstrip()[:1] in ("", "#"):
        begin -= 1
    numbers = {it.line for it in steps}
    return [
        (at, lines[at - 1]) for at in range(begin, end + 1) if at in numbers or lines[at - 1].lstrip()[:1] in ("", "#")
    ]


def write(
    packed: dict[str, object],
    name: str,
) -> str:
    """The page."""
    packed["name"] = name
    data = as_data(packed)
    if len(data) > MOST_OCTETS:
        raise Undrawable(
            f"a page of {len(data)} octets is more than {MOST_OCTETS}; choose a part with --from, --to and --dir"
        )
    style = styles().removeprefix("<style>\n").removesuffix("\n</style>") + "\n" + part("page.css")
    script = '"use strict";\n' + "".join(part(f"{it}.js") for it in SCRIPTS)
    policy = (
        f"default-src 'none'; style-src 'sha256-{sum_of(style)}'; script-src 'sha256-{sum_of(script)}'; base-uri"
        " 'none'; form-action 'none'"
    )
    parts = {"TITLE": html.escape(name), "POLICY": policy, "STYLE": style, "SCRIPT": script, "DATA": data}
    return "".join(parts.get(it, it) for it in part("page.html").split("%%"))
