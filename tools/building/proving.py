"""Proves crates one by one, for a schedule that says when, and with how many jobs.

A release of the toolchain that keeps what `rt ci` proved takes names of crates: then `rt ci NAME` proves each, so that
a later gate, here or in another clone, has it. Any other release is asked as its `rt ci` would ask: `rattle build` for
a library, whose statements stay in out/libraries, and `rattle check` for a program, which is compiled and linked then.
"""

from __future__ import annotations

import contextlib
import hashlib
import os
import re
import shutil
import sys
import tempfile
import threading
from collections.abc import Iterator
from typing import Protocol, TextIO

from building import sources
from building.children import Children
from building.schedule import SPEED, Task
from building.sources import PARTS, PROGRAMS, ROOT, lines_of_crates, sum_of, uses_of

LIBRARIES = f"{ROOT}/out/libraries"
# The last line of a check that is a verdict: it rests on nothing but the logic and the libraries as they were built.
KNOWN = "tests functions axioms target cpu threads main sum"
VERDICT = re.compile(
    rf"^logic=proved( ({KNOWN.replace(' ', '|')})=\S+)* native=nat,char,string logic-built=trusted"
    r"( libraries-built=trusted)?( statements=trusted)?$"
)
TARGET = "x86_64-unknown-linux-gnu"
PIN = "import os, sys; os.sched_setaffinity(0, map(int, sys.argv[1].split(','))); os.execvp(sys.argv[2], sys.argv[2:])"


def lines_in(folder: str) -> int:
    """How many lines of code there are."""
    found = 0
    for at, _, files in os.walk(folder):
        for file in files:
            with open(f"{at}/{file}", "rb") as it:
                found += it.read().count(b"\n")
    return found


def tasks_of(room: str, rows: dict[str, str]) -> list[Task]:
    """The proofs of crates: what each stands on, and its minutes and memory, as its lines of code and the crates below
    it tell them.

    (By 17 crates that were timed: none took more than two minutes beside that.)"""
    found = []
    for name in rows:
        below = tuple(it for it in uses_of(rows[name]) if it in rows)
        lines = lines_in(f"{room}/crates/{name}/src")
        minutes = 0.5 + 0.0032 * lines + 0.055 * len(lines_of_crates(room, [name]))
        found.append(Task(name, below, minutes, 1_500_000_000 + 500_000 * lines, len(SPEED)))
    return found


class Prover(Protocol):
    """What proves a crate, or builds a proved program, and returns whether it could."""

    def prove(self, name: str, jobs: int) -> bool:
        ...


class Speaker:
    """Runs commands, and puts what they say into a log."""

    def __init__(self, log: TextIO) -> None:
        self.log, self.writing, self.children = log, threading.Lock(), Children()

    def said(self, words: list[str], folder: str) -> tuple[int, str]:
        """Runs a command, and returns its status and what it said."""
        with tempfile.TemporaryFile("w+", encoding="utf-8", errors="replace") as out:
            with self.children.started(words, folder, out) as ran:
                status = ran.wait()
            out.seek(0)
            text = out.read()
        with self.writing:
            self.log.write(f"== {' '.join(words)}\n{text}")
            self.log.flush()
        return status, text


class Pool:
    """The processors, of which each check has some for itself: `rt ci` gives a check as many jobs as it may use
    processors."""

    def __init__(self, count: int) -> None:
        self.free, self.alone = sorted(os.sched_getaffinity(0))[:count], threading.Lock()

    @contextlib.contextmanager
    def taken(self, count: int) -> Iterator[list[int]]:
        """Takes so many."""
        with self.alone:
            mine, self.free = self.free[:count], self.free[count:]
        try:
            yield mine
        finally:
            with self.alone:
                self.free = sorted([*self.free, *mine])


class ByGate:
    """Has `rt ci` prove: a library by its name in a copy of all, a program in a copy of its own, where it is built."""

    def __init__(self, room: str, processors: int, speaker: Speaker) -> None:
        self.room, self.pool, self.speaker = room, Pool(processors), speaker

    def prove(self, name: str, jobs: int) -> bool:
        """Proves a crate, and installs it if it is a program."""
        with self.pool.taken(jobs) as processors:
            pinned = [sys.executable, "-c", PIN, ",".join(map(str, processors)), "rt", "ci"]
            if name not in PROGRAMS:
                return self.speaker.said([*pinned, name], self.room)[0] == 0
            with tempfile.TemporaryDirectory(prefix=f"{name}-") as room:
                sources.copy_to(room, [name])
                is_well = self.speaker.said(pinned, room)[0] == 0
                if is_well:
                    sources.install(room, name)
                return is_well


class ByProver:
    """Has the prover build libraries, which stay, and programs: those of sources that have not changed since are not
    proved again."""

    def __init__(self, room: str, rows: dict[str, str], kit: str, speaker: Speaker) -> None:
        self.room, self.rows, self.kit, self.speaker = room, rows, kit, speaker
        self.sums: dict[str, str] = {}

    def sum(self, name: str) -> str:
        """A sum of all that the proof of a crate reads."""
        if name not in self.sums:
            own = [f"{it} {sum_of(it)}" for it in sorted(self.files(name))]
            below = [self.sum(it) for it in uses_of(self.rows[name]) if it in self.rows]
            with open(f"{self.kit}/KIT-ID", encoding="utf-8") as it:
                text = repr((it.read(), self.rows[name], own, below)).replace(self.room, "")
            self.sums[name] = hashlib.sha256(text.encode()).hexdigest()
        return self.sums[name]

    def files(self, name: str) -> Iterator[str]:
        """The sources of a crate in the copy."""
        for part in PARTS:
            for at, _, files in os.walk(f"{self.room}/crates/{name}/{part}"):
                yield from (f"{at}/{file}" for file in files)

    def words(self, name: str) -> list[str]:
        """What a check of a crate is given: its libraries, and the logic."""
        is_program = os.path.isfile(f"{self.room}/crates/{name}/src/main.rt")
        words = ["--crate-name", name, "src/main.rt" if is_program else "src/lib.rt"]
        for it in dict.fromkeys(["std", *uses_of(self.rows[name])]):
            words += ["--extern", f"{it}={LIBRARIES if it in self.rows else f'{self.kit}/rlibs'}/{it}.rlib"]
        words += ["-L", f"dependency={LIBRARIES}", "-L", f"dependency={self.kit}/rlibs"]
        return [*words, "--antt-project", f"{self.kit}/rattle/logic/antt-project.json", "--links", f"{name}="]

    def rattle(self, name: str, words: list[str]) -> bool:
        """Has the prover do something in the folder of a crate, and returns whether that ended with a verdict."""
        status, said = self.speaker.said([f"{self.kit}/bin/rattle", *words], f"{self.room}/crates/{name}")
        last = said.rstrip("\n").rpartition("\n")[2].removesuffix(" crate-checked=trusted")
        return status == 0 and bool(VERDICT.match(last))

    def prove(self, name: str, jobs: int) -> bool:
        """Builds a library, or a program, which is installed then."""
        checks = [*self.words(name), "--logic-built", f"{self.kit}/logic_built", "--jobs", str(jobs)]
        if name in PROGRAMS:
            return self.build_program(name, checks)
        library, note = f"{LIBRARIES}/{name}.rlib", f"{LIBRARIES}/{name}.sum"
        if os.path.isdir(library) and note_in(note) == self.sum(name):
            return True
        shutil.rmtree(library, ignore_errors=True)
        os.makedirs(LIBRARIES, exist_ok=True)
        is_well = self.rattle(name, ["build", *checks, "--statements", "-o", library])
        if is_well:
            with open(note, "w", encoding="utf-8") as it:
                it.write(self.sum(name))
        else:
            shutil.rmtree(library, ignore_errors=True)
        return is_well

    def build_program(self, name: str, checks: list[str]) -> bool:
        """Proves a program, compiles and links it, and installs it."""
        made = f"{self.room}/crates/{name}/out"
        os.makedirs(made, exist_ok=True)
        tools = ["--toolchain", f"{self.kit}/toolchain"]
        compiled = [
            *self.words(name),
            "--crate-checked",
            f"{made}/checked",
            *tools,
            "--backend",
            "llvm",
            "-o",
            f"{made}/{name}.o",
        ]
        if not self.rattle(name, ["check", *checks, "-o", f"{made}/checked"]) or not self.rattle(
            name, ["build", *compiled]
        ):
            return False
        link = [f"{self.kit}/bin/rattle-link", "--target", TARGET, *tools, "-o", f"{made}/{name}", f"{made}/{name}.o"]
        if self.speaker.said([*link, f"{self.kit}/c/libos_c.a", f"{self.kit}/c/liblibc_c.a"], made)[0]:
            return False
        sources.install(self.room, name)
        return True


def note_in(file: str) -> str:
    """What a note says, or nothing."""
    with contextlib.suppress(OSError), open(file, encoding="utf-8") as it:
        return it.read()
    return ""
