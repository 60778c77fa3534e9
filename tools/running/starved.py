"""Runs with little memory: they end with status 6, after whole answers. One needs no more than there is."""

from __future__ import annotations

from running import large_images, large_scripts
from running.runs import Limited, Starved, StarvedMending

HOUSES, EPOCHS, VALUES = 64, 1000, 60


def script() -> tuple[bytes, bytes]:
    """Returns a script whose messages take 60 megabytes and more, and its answers: each epoch posts a copy of all to 63
    houses."""
    lines = [f"house {it} {it:012x}" for it in range(1, HOUSES + 1)]
    answers = ["ok"] * HOUSES
    lines += ["root 1", "create 1 1 e", *(f"add 1 1 e A {it:02x}{'00' * 1023}" for it in range(VALUES))]
    answers += ["ok", *(f"ok {it + 1}@{1:012x}" for it in range(VALUES + 1))]
    others = " ".join(map(str, range(2, HOUSES + 1)))
    for i in range(EPOCHS):
        serials = (str(i * (HOUSES - 1) + it) for it in range(1, HOUSES))
        lines.append(f"epoch 1 1 {others}")
        answers.append(f"ok {i + 2} posted {' '.join(serials)}")
    return (
        "".join(f"{it}\n" for it in lines).encode(),
        "".join(f"{i} {it}\n" for i, it in enumerate(answers, 1)).encode(),
    )


def runs() -> list[Starved | StarvedMending | Limited]:
    """Returns all of these."""
    octets, output = script()
    # (images of 13.4 megabytes and of half of that: 16 are read at most)
    entries = large_images.entries_of(1)
    whole, half = (large_images.image_of(2, 1, {it: entries for it in range(1, count + 1)}) for count in (250, 125))
    found = [
        Starved(f"starved, {' '.join(it)}", it, octets, output, 6)
        for it in (["run"], ["journal"], ["clerk", "8"], ["inquire"])
    ]
    found.append(StarvedMending("starved, cdsmend 1", ["1"], octets, b"", 6))
    found += [
        Starved(f"starved, {words[0]}", words, octets, b"", 6)
        for words, octets in ((["migrate"], whole), (["audit", "1"], half + half))
    ]
    return [*found, large_scripts.widest_batch()]
