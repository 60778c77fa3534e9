"""A fresh copy of the repository with its unproved programs, and a terminal there in which the commands of a page run
one after the other."""

from __future__ import annotations

import os
import shutil
import signal
import subprocess
import time

from building import sources
from building.sources import ROOT

# So long a command may take, and one that keeps its terminal until it says something, in seconds.
LONGEST, FIRST_WORDS = 120, 30
# What is compiled by `rustc` and not part of the repository, if it is there.
COMPILED = ("out/plain-clerk", "out/plain-clerk.lock")


class Late(Exception):
    """A command did not end, or said nothing."""


def link(path: str, folder: str) -> None:
    """A file of the repository, also in a copy of it: the same file, if both are on one disk."""
    to = f"{folder}/{path}"
    os.makedirs(os.path.dirname(to), exist_ok=True)
    shutil.copy2(f"{ROOT}/{path}", to, follow_symlinks=False)


def copy(folder: str, programs: list[str]) -> None:
    """Copies the files of the repository as they are here, and these programs, proved or not."""
    listed = (
        subprocess.run(["git", "ls-files", "-coz", "--exclude-standard"], cwd=ROOT, capture_output=True, check=True)
        .stdout.decode()
        .split("\0")
    )
    found = [it for it in listed if it and os.path.isfile(f"{ROOT}/{it}")]
    for program in programs:
        name = os.path.basename(program)
        noted = (
            f"out/built-{name}"
            if program == sources.program_at(ROOT, name)
            else f"{os.path.relpath(program, ROOT)}.sum"
        )
        found += [os.path.relpath(program, ROOT), noted]
    for path in (*found, *(it for it in COMPILED if os.path.isfile(f"{ROOT}/{it}"))):
        link(path, folder)


class Terminal:
    """Commands in a folder, one after the other, with the variables that earlier ones exported."""

    def __init__(self, folder: str) -> None:
        self.folder, self.kept = folder, list[subprocess.Popen[bytes]]()
        # (that the answers are unproved is said once in a user's command, and a test is none)
        self.variables = {**os.environ, "CDS_SAID_UNPROVED": "1", "PYTHONDONTWRITEBYTECODE": "1"}

    def begun(self, command: str, source: int) -> subprocess.Popen[bytes]:
        """Starts a command, in a group of processes of its own."""
        noted = 'status=$?; env -0 >"$NOTED_VARIABLES"; exit $status'
        variables = {**self.variables, "NOTED_VARIABLES": f"{self.folder}/.variables"}
        words = ["bash", "-c", f"{command}\n{noted}"] if source == subprocess.PIPE else ["bash", "-c", command]
        out, both = subprocess.PIPE, subprocess.STDOUT
        return subprocess.Popen(
            words, cwd=self.folder, env=variables, stdin=source, stdout=out, stderr=both, start_new_session=True
        )

    def run(self, command: str, typed: str = "") -> tuple[int, str]:
        """Runs a command to its end: how it ended, and what it printed."""
        with self.begun(command, subprocess.PIPE) as child:
            try:
                said, _ = child.communicate(typed.encode(), LONGEST)
            except subprocess.TimeoutExpired:
                os.killpg(child.pid, signal.SIGKILL)
                raise Late(f"it did not end in {LONGEST} seconds") from None
        self.note()
        return child.returncode, said.decode(errors="replace")

    def note(self) -> None:
        """Takes over the variables that the last command left."""
        with open(f"{self.folder}/.variables", encoding="utf-8", errors="replace") as file:
            pairs = [it.partition("=") for it in file.read().split("\0") if it]
        self.variables = {name: value for name, _, value in pairs if name != "NOTED_VARIABLES"}

    def keep(self, command: str) -> None:
        """Starts a command that goes on, and waits until it says something."""
        child = self.begun(command, subprocess.DEVNULL)
        self.kept.append(child)
        assert child.stdout
        os.set_blocking(child.stdout.fileno(), False)
        end = time.monotonic() + FIRST_WORDS
        while not child.stdout.read(1 << 16):
            if child.poll() is not None or time.monotonic() > end:
                raise Late("it ended, or said nothing")
            time.sleep(0.05)

    def close(self) -> None:
        """Ends the commands that go on."""
        for child in self.kept:
            child.terminate()
            try:
                child.communicate(timeout=LONGEST)
            except subprocess.TimeoutExpired:
                os.killpg(child.pid, signal.SIGKILL)
                child.communicate()
