"""Cells of 64 houses, and long scripts, that `cdsmend` mends; the lines that it writes are those that docs/FORMS.md
says."""

from __future__ import annotations

from running.runs import Mending

HOUSES = 64


def mending(
    posted: int, down: list[int], master: int, others: list[int], words: list[str], directory: int = 1, leaves: int = 0
) -> bytes:
    """Returns the lines that mend a directory after so many messages, as text. `words` are the houses as `epoch` has
    them, and so many Leaves come after its Joins."""
    many, lines = len(others), [f"start {it}" for it in sorted(down)]
    lines.append(f"epoch {directory} {master} {' '.join(words)}".rstrip())
    lines += [f"deliver {posted + 1 + i}" for i in range(many)]
    lines.append(f"skulk {master} {directory}")
    # each of the others gets two messages, and answers each of them
    lines += [f"deliver {posted + many + leaves + 1 + i}" for i in range(4 * many)]
    return "".join(f"{it}\n" for it in lines).encode()


def houses(numbers: range | tuple[int, int, int] | list[int]) -> list[str]:
    """Returns the lines that make these houses."""
    return [f"house {it} {it:012x}" for it in numbers]


def run_of(name: str, lines: list[str], output: bytes, without: tuple[object, ...] | list[int] = ()) -> Mending:
    """Returns the run of `cdsmend 1`, without these houses, over a script of these lines."""
    words = ["1", *(["-", *map(str, without)] if without else [])]
    return Mending(f"large, {name}", words, "".join(f"{it}\n" for it in lines).encode(), output, 0)


def all_down() -> Mending:
    """64 houses of all numbers, by which each third is secondary, lost each message, and all of them are down."""
    numbers = [1 + 4 * i for i in range(HOUSES - 1)] + [255]
    master, others = numbers[40], [it for it in numbers if it != numbers[40]]
    words = [f"s{it}" if i % 3 == 0 else str(it) for i, it in enumerate(others)]
    lines = [
        *houses(numbers),
        f"root {master} {' '.join(words)}",
        *(f"lose {it + 1}" for it in range(HOUSES - 1)),
        f"create {master} 1 lone",
    ]
    lines += [f"crash {it}" for it in numbers]
    return run_of("64 houses that are down", lines, mending(2 * (HOUSES - 1), numbers, master, others, words))


def ready() -> Mending:
    """64 houses that are up, and hold the last epoch: a skulk alone is due."""
    others = [*range(2, HOUSES + 1)]
    lines = [
        *houses(range(1, HOUSES + 1)),
        f"root 1 {' '.join(map(str, others))}",
        *(f"deliver {it}" for it in range(1, HOUSES)),
    ]
    output = mending(0, [], 1, others, [])
    skulk = b"".join(output.splitlines(keepends=True)[HOUSES:])
    return run_of("64 houses that hold the last epoch", lines, skulk)


def half_left_out() -> Mending:
    """64 houses of all numbers, which are down: the master and 31 others are left out, and the first one that stays
    becomes the master."""
    numbers = [1 + 4 * i for i in range(HOUSES - 1)] + [255]
    without, stay = numbers[::2], numbers[1::2]
    lines = [*houses(numbers), f"root {without[9]} {' '.join(str(it) for it in numbers if it != without[9])}"]
    lines += [
        *(f"deliver {it + 1}" for it in range(HOUSES - 1)),
        f"create {without[9]} 1 lone",
        *(f"crash {it}" for it in numbers),
    ]
    words = [str(it) for it in stay[1:]]
    output = mending(2 * (HOUSES - 1), stay, stay[0], stay[1:], words, leaves=len(without))
    return run_of("32 of 64 houses that are left out", lines, output, without)


def long_script() -> Mending:
    """2,000 lines, and then a master is down whose image has more than 100,000 octets."""
    lines = [*houses((1, 2, 3)), "root 1", "create 1 1 e", *(f"add 1 1 e A {i:02x}{'00' * 1023}" for i in range(120))]
    lines += [f"clock 1 {it}" for it in range(2000 - len(lines))]
    lines += ["epoch 1 1 2 s3", "deliver 1", "lose 2", "create 1 1 f", "crash 1", "crash 3"]
    return run_of("2,000 lines, and a large house that is down", lines, mending(4, [1, 3], 1, [2, 3], ["2", "s3"]))


def runs() -> list[Mending]:
    """Returns all of these."""
    return [all_down(), ready(), half_left_out(), long_script()]
