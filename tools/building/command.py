"""What tools/build does: which programs it makes, what it says meanwhile, and which program it finds."""

from __future__ import annotations

import fcntl
import os
import re
import shutil
import subprocess
import sys
import tempfile
import threading
import time
from collections.abc import Callable
from typing import IO

from building import library, machine, sources, unproved
from building.proving import ByGate, ByProver, Speaker, tasks_of
from building.schedule import SPEED, Room, Task, chains, run
from building.sources import GROUPS, PROGRAMS, ROOT, is_current, is_proved, sum_of_sources
from cds.programs import SAID

LOG = f"{ROOT}/out/build.log"
LOCK = f"{ROOT}/out/build.lock"
# A whole `rt ci`, with tests and planted bugs, is so much of what the programs take.
WHOLE = 1.8
# Which program is found: a proved one, or else one that is not; one that is not; that, with small segments; or a proved
# one.
FIND, UNPROVED, SMALL, PROVED = "find", "unproved", "small", "proved"


def said(*words: str) -> str:
    """What a command prints, or nothing if it cannot be run or fails."""
    try:
        ran = subprocess.run(words, cwd=ROOT, stdin=subprocess.DEVNULL, capture_output=True, text=True, check=False)
    except OSError:
        return ""
    return "" if ran.returncode else ran.stdout.strip()


def logic_in(text: str) -> str:
    """The sum of the logic that a text names, or nothing."""
    found = re.search(r"\blogic ([0-9a-f]{16})\b", text)
    return found[1] if found else ""


def takes_names() -> bool:
    """Whether `rt ci` takes names of crates, and keeps what it proves of them."""
    words = ["rt", "--help"]
    ran = subprocess.run(
        words, stdin=subprocess.DEVNULL, stdout=subprocess.PIPE, stderr=subprocess.STDOUT, text=True, check=False
    )
    return "rt ci NAME" in ran.stdout


def about(minutes: float) -> str:
    """From so many minutes to half as many more, as other commands may work beside it, in tens."""
    least = round(minutes)
    return f"{least // 10 * 10} to {least * 3 // 20 * 10 + 10} minutes"


class Progress:
    """Tells how far the proof is: at each crate that ends, and each minute."""

    def __init__(self, prover: ByGate | ByProver, crates: int, say: Callable[[str], None]) -> None:
        self.prover, self.crates, self.done, self.say = prover, crates, 0, say
        self.running: list[str] = []
        self.began, self.over = time.monotonic(), threading.Event()

    def so_far(self) -> str:
        """How many crates are done, after how long, and which are at work."""
        now = f"; now at {', '.join(self.running)}" if self.running else ""
        minutes = (time.monotonic() - self.began) / 60
        return f"{self.done} of {self.crates} crates, {minutes:.1f} minutes so far{now}"

    def start(self, task: Task, jobs: int) -> bool:
        """Proves a crate, and says how that ended."""
        began = time.monotonic()
        self.running.append(task.name)
        try:
            is_well = self.prover.prove(task.name, jobs)
        finally:
            self.running.remove(task.name)
        self.done += is_well
        took = f"in {(time.monotonic() - began) / 60:.1f} minutes with {jobs} {'jobs' if jobs > 1 else 'job'}"
        self.say(f"{task.name} is {'proved' if is_well else 'NOT PROVED'} {took}: {self.so_far()}")
        if is_well and task.name in PROGRAMS:
            self.say(f"./{task.name} answers at once from now on")
        return is_well

    def lose(self, name: str) -> None:
        """Says that a crate is not begun."""
        self.say(f"{name} is not begun, since a crate below it is not proved")

    def stop(self) -> None:
        """Ends the proofs that run."""
        self.prover.speaker.children.stop()

    def tick(self) -> None:
        """Tells it each minute."""
        while not self.over.wait(60):
            self.say(self.so_far())


class Builder:
    """Makes a program, or all of them if none is named."""

    def __init__(self, named: str | None, words: list[str]) -> None:
        self.named, self.name, self.words = named, named or PROGRAMS[0], words
        self.made = next((group for group in GROUPS if named in group), PROGRAMS)

    def say(self, text: str) -> None:
        """Tells whoever runs it."""
        print(f"{self.name}: {text}", file=sys.stderr, flush=True)

    # How long it takes.

    def work_and_chain(self) -> tuple[float, float]:
        """The minutes that the proofs of what is made take one processor, with nothing kept, and those of the longest
        chain of them."""
        tasks = tasks_of(ROOT, sources.lines_of_crates(ROOT, self.made))
        return sum(it.minutes for it in tasks), max(chains(tasks).values())

    def minutes(self) -> str:
        """How long a build from nothing takes here."""
        work, chain = self.work_and_chain()
        return about(max(chain / SPEED[1], work * 1.1 / machine.processors()))

    def is_ahead(self) -> bool:
        """Whether a `rt ci` ends sooner if this begins: alone it gives each crate of the chain one processor. (Some
        runs take no names of crates.)"""
        work, chain = self.work_and_chain()
        return takes_names() and os.environ.get("CI") != "true" and machine.processors() * chain > WHOLE * work

    # Builds.

    def is_current(self) -> bool:
        """Whether what is asked for was built of the sources as they are."""
        return all(is_current(name) for name in ([self.named] if self.named else PROGRAMS))

    def prove(self, room: str, crates: dict[str, str]) -> bool:
        """Proves the copy and builds its programs, and returns whether that went well."""
        with open(LOG, "w", encoding="utf-8") as log:
            speaker, place = Speaker(log), Room(machine.processors(), machine.free_memory())
            prover: ByGate | ByProver
            if takes_names():
                prover = ByGate(room, place.processors, speaker)
            else:
                prover = ByProver(room, crates, unproved.kit(), speaker)
            progress = Progress(prover, len(crates), self.say)
            threading.Thread(target=progress.tick, daemon=True).start()
            try:
                return all(run(tasks_of(room, crates), place, progress).values())
            finally:
                progress.over.set()

    def build(self) -> bool:
        """Builds what is made, and returns whether it could be."""
        if not shutil.which("rt"):
            self.say(
                "it is not built of these sources yet, and the command rt, which proves and builds it, is not on the"
                " path"
            )
            return False
        self.say_logic()
        room = tempfile.mkdtemp(prefix=f"{self.name}-")
        try:
            crates = sources.copy_to(room, self.made)
            self.say(
                f"proves and builds now: {', '.join(self.made)}. Of these {len(crates)} crates that takes"
                f" {self.minutes()} on {machine.processors()} processors, less if the toolchain kept some of that"
            )
            if not self.prove(room, crates) or not all(is_current(name) for name in self.made):
                self.say(f"it could not be proved and built, or a source has changed meanwhile. {LOG} has what rt said")
                return False
            return True
        finally:
            shutil.rmtree(room, ignore_errors=True)

    def make(self) -> bool:
        """Builds what is asked for, if that was not done, and returns whether it is there."""
        return self.is_current() or self.locked(lambda: self.is_current() or self.build())

    def make_library(self) -> bool:
        """Makes the library for C, and returns whether it is there."""
        return self.locked(lambda: library.make(self.say))

    def note_passed(self, found: str, began: str) -> bool:
        """Notes the program of a `rt ci` that passed, if it is that of the sources, and returns whether it is."""
        start = os.stat(began).st_mtime_ns
        times = [os.stat(it).st_ctime_ns for it in (f"{ROOT}/crates.txt", *sources.sources_of(ROOT, self.name))]
        built = os.stat(sources.program_at(ROOT, self.name)).st_ctime_ns
        if max(times) >= start or built <= start or sum_of_sources(ROOT, self.name) != found:
            self.say("a source has changed while it was proved, so the program is not noted as that of the sources")
            return False
        sources.note(self.name, ROOT)
        return True

    def wait_for_lock(self, lock: IO[str]) -> None:
        """Waits until no other command builds here, and says which one does."""
        try:
            fcntl.flock(lock, fcntl.LOCK_EX | fcntl.LOCK_NB)
        except BlockingIOError:
            lock.seek(0)
            self.say(f"{lock.read().strip() or 'another command'} builds here; waiting until it ends")
            fcntl.flock(lock, fcntl.LOCK_EX)
        lock.seek(0)
        lock.truncate()
        lock.write(f"process {os.getpid()} ({' '.join(['tools/build', *self.words])})\n")
        lock.flush()

    def locked(self, call: Callable[[], bool]) -> bool:
        """Calls it alone in this repository."""
        os.makedirs(f"{ROOT}/out", exist_ok=True)
        with open(LOCK, "a+", encoding="utf-8") as lock:
            self.wait_for_lock(lock)
            return call()

    # What there is.

    def find(self, kind: str) -> str | None:
        """The path of a program to run, which is proved, or unproved, or the first of these that there is."""
        if kind not in (UNPROVED, SMALL) and is_proved(self.name):
            return sources.program_at(ROOT, self.name)
        if kind == PROVED:
            self.say(f"no program here was proved of these sources. `tools/build` proves it in {self.minutes()}")
            return None
        try:
            path = unproved.make(self.name, self.say, is_small=kind == SMALL)
        except unproved.NotMade as why:
            self.say(f"no unproved program can be made ({why})")
            return None
        if kind == FIND and SAID not in os.environ:
            self.say(
                f"these answers are unproved. `tools/build` proves the program in {self.minutes()}, and from then on it"
                " answers at once"
            )
        return path

    def say_logic(self) -> None:
        """Says so if the toolchain proves by another logic than README names. (Releases that differ in their letters
        alone have one logic.)"""
        with open(f"{ROOT}/README.md", encoding="utf-8") as it:
            named, here = logic_in(it.read()), logic_in(said("rt", "version"))
        if named != here:
            self.say(
                f"README names a toolchain with the logic {named or 'unknown'}, and this one has"
                f" {here or 'an unknown one'}"
            )

    def version(self) -> str:
        """What the program is."""
        is_here = os.path.realpath(said("git", "rev-parse", "--show-toplevel") or "/") == ROOT
        commit = said("git", "rev-parse", "--short", "HEAD") if is_here else ""
        changed = " and changes" if commit and said("git", "status", "--porcelain", "--untracked-files=no") else ""
        proved = "proved" if is_proved(self.name) else "not proved yet"
        return (
            f"{self.name}: {said('rt', 'version') or 'no toolchain'}; commit {commit or 'unknown'}{changed};"
            f" sources {sum_of_sources(ROOT, self.name)[:16]}; {proved}"
        )
