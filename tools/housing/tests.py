"""What the tests of houses have in common: the programs, a folder of its own for each, and what is asked of houses and
cells."""

from __future__ import annotations

import os
import subprocess
import tempfile
import unittest
from collections.abc import Sequence
from typing import IO, Any, ClassVar

from building.sources import ROOT
from cds import processes, records
from cds.programs import plain_clerk
from housing.programs import Programs

CELL, HOUSES = f"{ROOT}/tools/cell", f"{ROOT}/tools/houses"
MEMORY = "/dev/shm"
# How long a program may take, in seconds.
PATIENCE = 120
MADE = ["house 1 00000000000a", "root 2", "create 1 a"]
SAID = ["0 new", "1 ok", "2 ok", "3 ok 1@00000000000a"]
TWO = ["house 1 00000000000a", "house 2 00000000000b", "root 1 2"]
# What a cell of two houses does.
WORK = [*TWO, "create 1 1 a", "mkdir 1 1 sub 1 s2", "epoch 2 2 s1", "crash 2", "start 2", "create 2 2 b", "skulk 2 2"]
WORK += ["clock 1 77", "add 1 1 a A 00"]
# A message of the kind Update, that no house posted.
MADE_UP = records.update(1, 2, 1, 9, b"z", records.OBJECT, records.stamp(9, "00000000000b"), {}).hex()


class Kit(Programs):
    """The programs that tests run. Of altered journals each so many-th is tried."""

    def __init__(self, house: str | None, explainer: str | None, every: int) -> None:
        super().__init__(house, None, explainer)
        self.every = every


class HouseTest(unittest.TestCase):
    """A test with a folder of its own. (In memory, if there is such a place: a sync of a real disk takes its time.)"""

    kit: ClassVar[Kit]

    def setUp(self) -> None:
        place = tempfile.TemporaryDirectory(dir=MEMORY if os.access(MEMORY, os.W_OK) else None)
        self.addCleanup(place.cleanup)
        self.room = place.name

    def folder(self, name: str) -> str:
        """A new folder."""
        path = f"{self.room}/{name}"
        os.makedirs(path)
        return path

    def ran(
        self, folder: str, lines: Sequence[str] | bytes = (), sink: IO[bytes] | int = subprocess.PIPE, **more: Any
    ) -> tuple[list[str], int]:
        """What a house says of lines without its posts, and its status."""
        if "stdin" not in more:
            more["input"] = lines if isinstance(lines, bytes) else "".join(f"{line}\n" for line in lines).encode()
        done: subprocess.CompletedProcess[bytes] = subprocess.run(
            [self.kit.house, folder], stdout=sink, check=False, timeout=PATIENCE, **more
        )
        said = (done.stdout or b"").decode().splitlines()
        return [line for line in said if line.split(" ")[1] not in ("post", "more")], done.returncode

    def made(self, name: str = "h") -> str:
        """A folder with a house and an entry."""
        folder = self.folder(name)
        self.assertEqual(self.ran(folder, MADE), (SAID, 0))
        return folder

    def last_said(self, folder: str) -> tuple[list[str], int]:
        """What a house says at its start, after its own line."""
        said, status = self.ran(folder)
        return said[1:], status

    def given(self, folder: str, lines: Sequence[str]) -> list[list[str]]:
        """What a house that has a folder says of lines."""
        return processes.given(self.kit.house, folder, lines)

    def on_disk(self, folder: str, words: str, name: str = "disk") -> dict[str, str]:
        """The environment of a house over a disk that fails as these words say."""
        os.makedirs(f"{self.room}/{name}", exist_ok=True)
        return {**os.environ, "LD_PRELOAD": self.kit.disk, "HOUSE_DISK": f"{folder} {self.room}/{name} {words}"}

    def cell(self) -> list[str]:
        """The words of `tools/cell` over the house that is tried, and the plain clerk."""
        return [CELL, "--program", self.kit.house, "--clerk", plain_clerk()]

    def session(self, folder: str, lines: Sequence[str], *options: str) -> list[str]:
        """What a cell says of lines, line by line."""
        command = [*self.cell(), folder, *options]
        octets = "".join(f"{line}\n" for line in lines)
        done = subprocess.run(command, input=octets, capture_output=True, text=True, timeout=PATIENCE, check=False)
        self.assertEqual(done.returncode, 0, done)
        return done.stdout.splitlines()

    def worked(self, name: str = "") -> list[str]:
        """The folders of a cell of two houses that worked."""
        cell = os.path.join(self.room, name, "cell")
        self.session(cell, WORK)
        return [f"{cell}/h{house}" for house in (1, 2)]


def contents(folder: str) -> dict[str, bytes]:
    """The files of a folder."""
    return {name: octets_of(f"{folder}/{name}") for name in sorted(os.listdir(folder))}


def octets_of(path: str) -> bytes:
    """The octets of a file."""
    with open(path, "rb") as file:
        return file.read()


def write(path: str | bytes, octets: bytes) -> None:
    """Writes a file."""
    with open(path, "wb") as file:
        file.write(octets)
