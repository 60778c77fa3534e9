"""What the programs are made from, sums of it, and the notes that say of which sources a program was built."""

from __future__ import annotations

import contextlib
import hashlib
import os
import shutil
import time
from collections.abc import Iterable, Iterator

ROOT = os.path.dirname(os.path.dirname(os.path.dirname(os.path.realpath(__file__))))
# Which are proved and built together: the replayers, and the house, what explains houses, and the clerk, which have
# crates that no replayer needs.
GROUPS = (("cdsreplay", "cdsmend"), ("cdshouse",), ("cdsexplain",), ("cdsclerk",))
PROGRAMS = tuple(name for group in GROUPS for name in group)
# What the proof of a crate reads; what says which program it is and what is promised of it; and what rt runs a program
# on.
PARTS = ("src", "specs", "proofs")
MEANT = ("src", "specs")
RUN_ON = ("args", "stdin", "stdout", "status", "data")


def program_at(root: str, name: str) -> str:
    """The path of a proved program."""
    return f"{root}/crates/{name}/out/{name}"


def note_of(name: str) -> str:
    """The file that says of which sources the proved program here was built: their sum, its own, and the sum of those
    without proofs."""
    return f"{ROOT}/out/built-{name}"


def uses_of(row: str) -> list[str]:
    """What a line of crates.txt says that its crate stands on."""
    return row.partition("#")[0].partition(":")[2].split()


def lines_of_crates(root: str, names: Iterable[str]) -> dict[str, str]:
    """The lines of crates.txt of these crates and of all that they stand on, by name, as they are there."""
    with open(f"{root}/crates.txt", encoding="utf-8") as file:
        rows = [line for line in file.read().splitlines() if line.partition("#")[0].strip()]
    every = {row.partition(":")[0].split()[0]: row for row in rows}
    needed, to_do = set[str](), [*names]
    while to_do:
        name = to_do.pop()
        if name in every and name not in needed:
            needed.add(name)
            to_do += uses_of(every[name])
    return {name: row for name, row in every.items() if name in needed}


def copy_to(room: str, names: Iterable[str]) -> dict[str, str]:
    """Copies what these programs are made from to a repository of its own, and returns its lines of crates.txt, by
    name."""
    lines = lines_of_crates(ROOT, names)
    os.mkdir(f"{room}/.git")
    with open(f"{room}/crates.txt", "w", encoding="utf-8") as file:
        file.write("".join(f"{row}\n" for row in lines.values()))
    if os.path.exists(f"{ROOT}/HANDLES"):
        shutil.copyfile(f"{ROOT}/HANDLES", f"{room}/HANDLES")
    for name in lines:
        os.makedirs(f"{room}/crates/{name}")
        for part in (*PARTS, *RUN_ON):
            one, other = f"{ROOT}/crates/{name}/{part}", f"{room}/crates/{name}/{part}"
            if os.path.isdir(one):
                shutil.copytree(one, other, symlinks=True)
            elif os.path.exists(one):
                shutil.copyfile(one, other)
    return lines


def sum_of(file: str) -> str:
    """The sum of a file."""
    with open(file, "rb") as it:
        return hashlib.sha256(it.read()).hexdigest()


def sources_of(root: str, name: str, parts: tuple[str, ...] = PARTS) -> Iterator[str]:
    """The files that a program of this repository, or of such a copy, is made from, beside crates.txt."""
    tops = [
        f"{root}/HANDLES",
        *[f"{root}/crates/{crate}/{part}" for crate in lines_of_crates(root, [name]) for part in parts],
    ]
    for top in tops:
        yield from sorted(f"{at}/{file}" for at, _, files in os.walk(top) for file in files) or [top] * os.path.isfile(
            top
        )


def sum_of_sources(root: str, name: str, parts: tuple[str, ...] = PARTS) -> str:
    """A sum of all that a program of this repository, or of such a copy, is made from."""
    rows = repr([*lines_of_crates(root, [name]).values()])
    found = [rows, *(f"{os.path.relpath(it, root)} {sum_of(it)}" for it in sources_of(root, name, parts))]
    return hashlib.sha256("\n".join(found).encode()).hexdigest()


def words_of_note(name: str) -> list[str]:
    """The sums that the note has, if it has all and the program is the one that it speaks of, or none."""
    try:
        with open(note_of(name), encoding="utf-8") as it:
            words = it.read().split()
        return words if len(words) == 3 and words[1] == sum_of(program_at(ROOT, name)) else []
    except OSError:
        return []


def is_current(name: str) -> bool:
    """Whether the proved program here was built of the sources as they are."""
    return words_of_note(name)[:1] == [sum_of_sources(ROOT, name)]


def is_proved(name: str) -> bool:
    """Whether the program here has the code that the sources have, and was proved to do what they promise, by whichever
    proofs.

    The note then gets the time of this look: the wrappers take it for true while no code and no promise has changed
    since that time."""
    began = time.time()
    found = words_of_note(name)[2:] == [sum_of_sources(ROOT, name, MEANT)]
    if found:
        # (whoever may not write it looks at all sources each time)
        with contextlib.suppress(OSError):
            os.utime(note_of(name), (began, began))
    return found


def note(name: str, root: str) -> None:
    """Notes that the program here was proved and built of the sources in this repository, or such a copy."""
    new = f"{note_of(name)}.new"
    with open(new, "w", encoding="utf-8") as it:
        it.write(f"{sum_of_sources(root, name)} {sum_of(program_at(ROOT, name))} {sum_of_sources(root, name, MEANT)}\n")
    os.utime(new, (0, 0))
    os.replace(new, note_of(name))
    is_proved(name)


def install(room: str, name: str) -> None:
    """Takes the program that was proved and built in a copy. It gets its name when it is whole."""
    to = program_at(ROOT, name)
    os.makedirs(os.path.dirname(to), exist_ok=True)
    shutil.copy(program_at(room, name), f"{to}.new")
    os.replace(f"{to}.new", to)
    note(name, room)
