"""Tests of the units of systemd in examples/live/systemd: what `systemd-analyze` says of them, where it is there, and
the house with its two pipes."""

from __future__ import annotations

import configparser
import glob
import os
import re
import shutil
import signal
import subprocess
import tempfile
import unittest

from building.sources import ROOT
from cds.programs import plain_house

UNITS = f"{ROOT}/examples/live/systemd"
# What is not part of the repository.
OTHERS = {"/opt/cds": ROOT, "/opt/printer/serve": "/bin/true"}


def unit(name: str) -> configparser.SectionProxy:
    """What a unit says of its service."""
    found = configparser.ConfigParser(interpolation=None)
    found.optionxform = str  # type: ignore[assignment]
    found.read(f"{UNITS}/{name}")
    return found["Service"]


class Room(unittest.TestCase):
    """A folder."""

    def setUp(self) -> None:
        folder = tempfile.TemporaryDirectory()
        self.addCleanup(folder.cleanup)
        self.room = folder.name


class UnitsTest(Room):
    def verified(self, change: str = "", to: str = "") -> str:
        """What `systemd-analyze` says of all units, after a change."""
        names = []
        for path in glob.glob(f"{UNITS}/*"):
            with open(path, encoding="ascii") as file:
                text = file.read().replace(change, to) if change else file.read()
            for old, new in OTHERS.items():
                text = text.replace(old, new)
            names.append(os.path.basename(path).replace("@.", "@2."))
            for name in {names[-1], os.path.basename(path)}:
                with open(f"{self.room}/{name}", "w", encoding="ascii") as file:
                    file.write(text)
        words = ["systemd-analyze", "verify", *(f"./{name}" for name in names)]
        ran = subprocess.run(words, cwd=self.room, capture_output=True, text=True, check=False)
        return ran.stdout + ran.stderr

    @unittest.skipUnless(shutil.which("systemd-analyze"), "systemd-analyze is not there")
    def test_they_have_no_fault(self) -> None:
        self.assertEqual(self.verified(), "")
        self.assertIn("Failed to parse", self.verified("Restart=always", "Restart=sometimes"))
        self.assertIn("not executable", self.verified("/opt/cds/tools/door ", "/opt/cds/tools/no-door "))

    def test_who_is_not_started_again(self) -> None:
        """The statuses at which a supervisor has to call somebody are those of the page, and 1, that of the wrapper."""
        with open(f"{ROOT}/docs/HOUSE.md", encoding="utf-8") as file:
            page = re.search(r"At ([\d, and]+) it should call somebody", file.read().replace("\n", " "))
        assert page
        due = {1, *map(int, re.findall(r"\d+", page[1]))}
        self.assertEqual(set(map(int, unit("cds-house@.service")["RestartPreventExitStatus"].split())), due)
        self.assertEqual(unit("cds.service")["RestartPreventExitStatus"], "2")
        self.assertEqual({unit(it)["Restart"] for it in ("cds.service", "cds-house@.service")}, {"always"})


@unittest.skipUnless(shutil.which("rustc"), "rustc is not there")
class HouseTest(Room):
    """The house of a unit, and its carrier."""

    def words(self, name: str) -> list[str]:
        """A command of the unit, with folders of this test."""
        text = unit("cds-house@.service")[name].replace("%i", "1").replace("$$", "$")
        text = text.replace("/opt/cds/cdshouse", plain_house()).replace("/run/cds-house", self.room)
        begin, _, script = text.replace("/var/lib/cds-house", self.room).partition(" '")
        return [*begin.split(), script.removesuffix("'")]

    def test_it_waits_for_its_carrier_and_goes_on(self) -> None:
        os.mkdir(f"{self.room}/h1")
        for _ in range(2):
            # (the second time the pipes are there)
            subprocess.run(self.words("ExecStartPre"), check=True)
        said = list[list[str]]()
        for line in ("house 1 00000000000a", "root"):
            house = subprocess.Popen(self.words("ExecStart"))
            self.addCleanup(house.kill)
            with open(f"{self.room}/h1.in", "w", encoding="ascii") as sink:
                with open(f"{self.room}/h1.out", encoding="ascii") as source:
                    sink.write(f"{line}\n")
                    sink.flush()
                    said.append([next(source) for _ in range(2 if not said else 4)])
            house.send_signal(signal.SIGTERM)
            self.assertEqual(house.wait(30), -signal.SIGTERM)
        self.assertEqual(said[0], ["0 new\n", "1 ok\n"])
        self.assertEqual(said[1], ["0 house 1 00000000000a\n", "0 last house 1 00000000000a\n", "0 ok\n", "1 ok\n"])


if __name__ == "__main__":
    unittest.main()
