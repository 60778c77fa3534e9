"""How the sources of the crates look: places of what they have and should not, by kind (tools/check-style)."""

from __future__ import annotations

import collections
import functools
import re
from collections.abc import Callable, Iterator

from . import sources
from .sources import text_of

WORDS = ("behind", "stands", "told", "want of memory")
WIDEST, IN_A_ROW = 100, 6


def lines_of(folder: str, ending: str) -> Iterator[tuple[str, str, str]]:
    """Each line of the sources of all crates: the crate, its place, and its text."""
    for crate in sorted(sources.stood_on()):
        for file in sources.files_of(crate, folder, ending):
            for number, line in enumerate(text_of(file).splitlines(), 1):
                yield crate, f"{file}:{number}", line


def comments() -> Iterator[tuple[str, str]]:
    """Each comment: its place and its words."""
    for _, place, line in lines_of("src", "rt"):
        found = re.search(r"//[/!]?(.*)", line)
        if found:
            yield place, found[1]
    for folder in ("specs", "proofs"):
        for _, place, line in lines_of(folder, "antt"):
            found = re.match(r"\s*--(.*)", line)
            if found:
                yield place, found[1]


def wide(folder: str, ending: str, is_comment: bool) -> Iterator[str]:
    """Lines with too many columns. (Those that only name what is used, by a `use` or a tactic, are as long as they
    get.)"""
    for _, place, line in lines_of(folder, ending):
        if (
            len(line) > WIDEST
            and not re.match(r"(?:ghost )?use |\s*#\[tactic\(", line)
            and is_comment == bool(re.match(r"\s*(?://|--)", line))
        ):
            yield place


def wide_comments() -> Iterator[str]:
    """Comments with too many columns."""
    for folder, ending in (("src", "rt"), ("specs", "antt"), ("proofs", "antt")):
        yield from wide(folder, ending, True)


def word(which: str) -> Iterator[str]:
    """Comments that have the word."""
    return (place for place, said in comments() if re.search(rf"\b{which}\b", said))


def the_same() -> Iterator[str]:
    """Comments that begin with the words."""
    return (place for place, said in comments() if re.match(r"\s*the same\b", said, re.I))


def participles() -> Iterator[str]:
    """Public definitions whose name is one participle."""
    for _, place, line in lines_of("specs", "antt"):
        found = re.match(r"(?:abbrev |unfoldable )*pub (\w+) :", line)
        if found and re.fullmatch(
            r"[a-z]+(?:ed|ing)|(?:held|kept|told|said|shown|taken|known|given|made|left|lost|found|written|read)",
            found[1],
        ):
            yield place


def twins() -> Iterator[str]:
    """Files that name modules of one name in two crates."""
    for folder, ending in (("specs", "antt"), ("src", "rt")):
        for crate in sorted(sources.stood_on()):
            for file in sources.files_of(crate, folder, ending):
                crates: dict[str, set[str]] = collections.defaultdict(set)
                for of, module in re.findall(r"^(?:ghost )?use Rattle\.(\w+)\.specs\.(\w+)\.", text_of(file), re.M):
                    if module != "declared" and of in sources.stood_on():
                        crates[module].add(of)
                yield from (f"{file}: {module}" for module, of in crates.items() if len(of) > 1)


def pairs() -> Iterator[str]:
    """Places whose next six lines of code stand elsewhere too."""
    seen: dict[tuple[str, ...], str] = {}
    for folder, ending in (("src", "rt"), ("specs", "antt")):
        for crate in sorted(sources.stood_on()):
            for file in sources.files_of(crate, folder, ending):
                code = [(at, it.strip()) for at, it in enumerate(text_of(file).splitlines(), 1)]
                code = [(at, it) for at, it in code if it and not re.match(r"//|--|(?:ghost |pub )*use\b|#", it)]
                last = ""
                for at in range(len(code) - IN_A_ROW + 1):
                    row = tuple(it for _, it in code[at : at + IN_A_ROW])
                    if sum(map(len, row)) < 120:
                        continue
                    first = seen.setdefault(row, f"{file}:{code[at][0]}")
                    if first != f"{file}:{code[at][0]}":
                        if not last:
                            yield f"{file}:{code[at][0]} as {first}"
                        last = first
                    else:
                        last = ""


KINDS: dict[str, Callable[[], Iterator[str]]] = {
    "wide clause": lambda: wide("src", "rt", False),
    "wide definition": lambda: wide("specs", "antt", False),
    "wide comment": wide_comments,
    **{it: functools.partial(word, it) for it in WORDS},
    "the same ..": the_same,
    "participle": participles,
    "twin": twins,
    "pair": pairs,
}


def counts(text: str) -> dict[str, int]:
    """The counts that a text notes, by kind."""
    return {kind.strip(): int(count) for kind, _, count in (it.partition(":") for it in text.splitlines()) if count}


def noted(before: dict[str, int], now: dict[str, list[str]]) -> dict[str, int]:
    """The counts to note: those of now, but none that is greater than before."""
    return {kind: min(len(places), before.get(kind, len(places))) for kind, places in now.items()}


def changes(before: dict[str, int], now: dict[str, list[str]]) -> tuple[list[str], int]:
    """What there is to say of the counts that are others than before, and how many have grown."""
    said, grown = [], 0
    for kind, places in now.items():
        most = before.get(kind, 0)
        if len(places) > most:
            grown += 1
            said.append(
                f"{kind}: {len(places)}, where {most} were noted. `tools/check-style --list '{kind}'` prints all places"
            )
        elif len(places) < most:
            said.append(
                f"{kind}: {len(places)}, fewer than the {most} that were noted: `tools/check-style --note` notes that"
            )
    return said, grown
