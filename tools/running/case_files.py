"""Reads the files `NAME.case`, whose form the head of tools/cases has."""

from __future__ import annotations

import os
import re

from running.runs import ROOT, Mending, Run

CASES = f"{ROOT}/crates/cdsreplay/cases"
MENDER_CASES = f"{ROOT}/crates/cdsmend/cases"


def of_hex(text: str) -> bytes:
    """Returns the octets of words in hexadecimal, each of which may mean more of its kind."""
    octets = b""
    for word in text.split():
        digits, _, times = word.partition("*")
        octets += bytes.fromhex(digits) * int(times or "1")
    return octets


def cases_of(path: str, kind: type[Run] = Run) -> list[Run]:
    """Returns the runs of a case, of this kind."""
    name = os.path.basename(path)[: -len(".case")]
    with open(path, encoding="utf-8", newline="\n") as it:
        parts = re.split(r"^---(.*)\n", it.read(), flags=re.M)
    runs, heads, texts = [], parts[1::2], parts[2::2]
    if len(heads) % 2 or not heads or any(it and not it.startswith("#") for it in parts[0].split("\n")):
        raise ValueError("it is no list of runs after comments")
    for number in range(0, len(heads), 2):
        words, status = heads[number].split(), heads[number + 1].split()
        streams: list[tuple[str, str]] = []
        while len(words) > 1 and words[-2] in "<>":
            streams, words = [*streams, (words[-2], words[-1])], words[:-2]
        octets, output = (text.encode() for text in texts[number : number + 2])
        if ("<", "hex") in streams:
            octets = of_hex(texts[number])
        if status[1:] == [">", "hex"]:
            output = of_hex(texts[number + 1])
        place = f"{name}, run {number // 2 + 1}"
        runs.append(
            kind(place, words, octets, output, int(status[0]), ("<", "folder") in streams, (">", "full") in streams)
        )
    return runs


def all_cases() -> tuple[list[tuple[str, Run]], list[str]]:
    """Returns the runs of all cases, each with its file's name, and what is wrong with the files."""
    runs: list[tuple[str, Run]] = []
    faults: list[str] = []
    for folder, kind in ((CASES, Run), (MENDER_CASES, Mending)):
        for name in sorted(os.listdir(folder)):
            if name.endswith(".case"):
                try:
                    runs += [(name[: -len(".case")], it) for it in cases_of(f"{folder}/{name}", kind)]
                except (ValueError, IndexError, UnicodeError) as error:
                    faults.append(f"{name} can't be read: {error}")
    return runs, faults
