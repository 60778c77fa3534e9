"""An operator's day on three doors, each with a folder of its own: each row of the table of docs/LIVE.md, in its
order."""

from __future__ import annotations

import os
import re
import shlex
import shutil
import signal
import subprocess
import sys
import tempfile
import time
import unittest
from collections.abc import Callable

from building.sources import ROOT
from cds.programs import plain, plain_clerk, plain_house
from doors.trials.machines import CONSOLE, MACHINES, Machines

LONGEST = 30.0
BINDING = "ncacn_ip_tcp:10.0.0.1[1025]"
IMPORT = "a0000000-0000-0000-0000-000000000001:1.0 - ncacn_ip_tcp"


class Cell(Machines):
    """Three machines, whose houses come and go."""

    def __init__(self, folder: str) -> None:
        super().__init__(folder, plain_house(), plain_clerk(), 1.0, True)
        self.houses = {machine: [machine] for machine in MACHINES}

    def cell_file(self, machine: int) -> list[str]:
        head = [f"near = {self.houses[machine][0]}", f"console = {CONSOLE}", f'program = "{self.house}"']
        lines = [*head, f'clerk = "{self.clerk}"', 'socket = "door"', 'log = "log"', "skulk_every = 1"]
        for house in self.houses[machine]:
            lines += [f"[house.{house}]", f'folder = "../h{house}"']
        for other in set(MACHINES) - {machine}:
            via = shlex.join(self.transport.via(machine, other, self.place(other, machine)))
            for house in self.houses[other]:
                lines += [f"[house.{house}]", f'via = "{via}"']
            allow = '["questions", "updates", "messages", "operation"]'
            lines += [
                f"[peer.{other}]",
                f'socket = "peer{other}"',
                f"houses = {self.houses[other]}",
                f"allow = {allow}",
            ]
        return lines

    def stop(self, machine: int) -> int:
        """The door of a machine ends, and its houses with it: how the door ended."""
        self.doors[machine].send_signal(signal.SIGTERM)
        return self.doors[machine].wait(LONGEST)

    def start(self, machine: int) -> None:
        """The door of a machine begins, with the cell file as the machines have houses now."""
        with open(f"{self.folder}/m{machine}/cell.toml", "w", encoding="ascii") as file:
            file.write("\n".join(self.cell_file(machine)) + "\n")
        self.begin_door(machine)

    def anew(self, *houses: tuple[int, int]) -> None:
        """The cell files get these houses, each as its number and its machine, and all doors begin anew."""
        for house, machine in houses:
            self.houses[machine].append(house)
        for machine in MACHINES:
            self.stop(machine)
        for machine in MACHINES:
            self.start(machine)


@unittest.skipUnless(shutil.which("rustc"), "rustc is not there")
class DayTest(unittest.TestCase):
    """The day."""

    def setUp(self) -> None:
        room = tempfile.TemporaryDirectory(dir="/dev/shm" if os.access("/dev/shm", os.W_OK) else None)
        self.addCleanup(room.cleanup)
        self.cell = Cell(room.name)
        self.addCleanup(self.cell.close)
        self.cell.begin()

    # ---- what an operator has: `nsi` at each machine

    def nsi(self, machine: int, line: str) -> tuple[int, list[str]]:
        words = [sys.executable, f"{ROOT}/nsi", "--socket", f"{self.cell.folder}/m{machine}/door", *line.split()]
        ran = subprocess.run(words, capture_output=True, text=True, timeout=LONGEST, check=False)
        return ran.returncode, ran.stdout.splitlines()

    def last(self, machine: int, line: str) -> str:
        """The last line of an answer, or nothing."""
        return (self.nsi(machine, line)[1] or [""])[-1]

    def until(self, is_so: Callable[[], bool], what: object = "") -> None:
        end = time.monotonic() + LONGEST
        while not is_so():
            self.assertLess(time.monotonic(), end, what)
            time.sleep(0.05)

    def done(self, machine: int, line: str, due: str = "ok") -> None:
        """Gives a command until it is answered so: a line to a door that has just begun may not be there yet."""
        said: list[str] = []

        def is_done() -> bool:
            said[:] = [line, self.last(machine, line)]
            return said[1].startswith(due)

        self.until(is_done, said)

    def all_up(self) -> None:
        self.until(lambda: all(self.nsi(machine, "status")[0] == 0 for machine in MACHINES))
        # (a line to another machine counts as up when it begins)
        every = [house for houses in self.cell.houses.values() for house in houses]
        for machine in MACHINES:
            for house in every:
                self.until(lambda: self.last(machine, f"@{house} directories") not in ("", "refused Down"))

    def heads(self, directory: int, *houses: int) -> set[str]:
        """The first lines of `dump`: the epoch, AllUpTo and the members, as these houses have them."""
        return {(self.nsi(CONSOLE, f"@{house} dump {directory}")[1] or [""])[0] for house in houses}

    def agree(self, directory: int, epoch: int, *houses: int) -> None:
        """Waits until these houses have one epoch, and an AllUpTo."""
        self.until(
            lambda: len(found := self.heads(directory, *houses)) == 1
            and f"dump epoch {epoch} " in (head := found.pop())
            and " allupto none " not in head,
            (directory, epoch, houses),
        )

    # ---- the rows

    def starts_and_stops(self) -> None:
        self.all_up()
        for line in ("house 1 00000000000a", "house 2 00000000000b", "house 3 00000000000c", "root 1 2 3"):
            self.done(1, line)
        self.done(2, f"export /.:/lpr {IMPORT.split()[0]} {BINDING} -")
        self.assertEqual(self.cell.stop(2), 0)
        with open(f"{self.cell.folder}/m2/log", encoding="ascii") as log:
            said = log.read()
        self.assertNotIn("does not end: it is killed", said)
        self.cell.start(2)
        self.all_up()
        self.until(lambda: self.nsi(3, f"import low /.:/lpr {IMPORT}") == (0, [f"binding {BINDING}", "end 1"]))

    def watches(self) -> None:
        self.agree(1, 1, 1, 2, 3)
        self.assertEqual([self.nsi(machine, "status")[0] for machine in MACHINES], [0, 0, 0])
        self.cell.stop(3)
        self.until(lambda: self.nsi(1, "status")[0] == 4)
        self.assertEqual(self.nsi(3, "status")[0], 2)
        self.cell.start(3)
        self.all_up()
        self.until(
            lambda: all(" undelivered 0" in line for line in self.nsi(1, "status")[1] if line.startswith("house"))
        )

    def adds_a_house(self) -> None:
        self.done(1, "mkdir 1 1 print 1 2", "ok 2 ")
        self.done(1, "create /.:/print/lpr")
        self.cell.anew((4, 3))
        self.all_up()
        self.done(1, "house 4 00000000000d")
        self.done(1, "epoch 2 1 2 4", "ok 2")
        self.done(1, "@1 repoint 1 print 1 2 4")
        self.until(lambda: self.last(3, "@4 look 2 lpr A") == "end 0")

    def loses_a_house(self) -> None:
        self.cell.stop(2)
        # (its disk is gone for the cell; what was on it is evidence at the end of the day)
        os.rename(f"{self.cell.folder}/h2", f"{self.cell.folder}/lost-h2")
        self.done(1, "epoch 1 1 3", "ok 2")
        self.done(1, "epoch 2 1 4", "ok 3")
        self.agree(1, 2, 1, 3)
        self.agree(2, 3, 1, 4)
        self.cell.houses[2] = [5]
        for machine in (1, 3):
            self.cell.stop(machine)
        for machine in MACHINES:
            self.cell.start(machine)
        self.all_up()
        for line in ("house 2 00000000000e", "house 5 00000000000b"):
            self.assertEqual(self.last(1, line), "refused HouseExists")
        self.done(1, "house 5 00000000000e")
        self.done(1, "epoch 1 1 3 5", "ok 3")
        self.until(lambda: self.last(2, f"import low /.:/lpr {IMPORT}") == "end 1")

    def loses_the_ledger(self) -> None:
        self.cell.stop(1)
        os.unlink(f"{self.cell.folder}/m1/console")
        self.cell.start(1)
        self.all_up()
        for line in ("mkdir 1 1 other 1", "epoch 1 1 3 4"):
            self.assertEqual(self.last(1, line), "refused NoDirectory")
        self.done(1, "recount - 2", "ok 2")
        self.done(1, "epoch 2 1 4 5", "ok 4")
        self.done(1, "mkdir 1 1 other 1", "ok 3 ")
        self.assertEqual(self.last(1, "house 4 00000000000f"), "refused HouseExists")

    def moves_a_master(self) -> None:
        self.until(lambda: self.last(2, "@5 look 2 lpr A") == "end 0")
        self.done(1, "epoch 2 4 1 5", "ok 5")
        # (the old master's last updates show again after the skulk that follows)
        self.agree(2, 5, 1, 4, 5)
        self.done(1, "@1 repoint 1 print 4 1 5")
        self.done(2, "add /.:/print/lpr A 01")
        self.until(lambda: self.nsi(1, "read high /.:/print/lpr A")[1] == ["ok 1 01"])

    def upgrades(self) -> None:
        new = f"{self.cell.folder}/cdshouse-new"
        shutil.copy2(self.cell.house, new)
        for machine in MACHINES:
            self.assertEqual(self.cell.stop(machine), 0)
            for house in self.cell.houses[machine]:
                words = [self.cell.house, f"{self.cell.folder}/h{house}"]
                said = subprocess.run(words, stdin=subprocess.DEVNULL, capture_output=True, text=True, check=True)
                self.assertTrue(said.stdout.startswith(f"0 house {house} "), said)
            old, self.cell.house = self.cell.house, new
            self.cell.start(machine)
            self.cell.house = old
            self.all_up()
        self.cell.house = new
        self.done(3, "create /.:/upgraded")

    def is_cut_off(self) -> None:
        self.done(1, "epoch 2 4", "ok 6")
        self.agree(2, 6, 4)
        self.done(1, "@1 repoint 1 print 4")
        self.done(1, "groupadd /.:/all /.:/lpr")
        self.done(1, "groupadd /.:/all /.:/print/lpr")
        self.until(lambda: self.nsi(2, "read low /.:/all A")[1] == ["ok 0"])
        self.cell.net.cut(3)
        try:
            self.until(lambda: "unreached 2" in self.nsi(1, f"import low /.:/all {IMPORT}")[1])
            self.until(lambda: self.nsi(1, "status")[0] == 4)
            self.assertEqual(self.nsi(1, f"import low /.:/lpr {IMPORT}")[1], [f"binding {BINDING}", "end 1"])
            began = time.monotonic()
            self.assertEqual(self.last(1, "create /.:/print/a").split(" doubt")[0], "refused Unreachable 2")
            self.assertLess(time.monotonic() - began, 5)
        finally:
            self.cell.net.mend(3)
        self.until(lambda: self.nsi(1, f"import low /.:/all {IMPORT}")[1] == [f"binding {BINDING}", "end 1"])

    def loses_a_door(self) -> None:
        self.cell.kill_door(1)
        self.assertEqual(self.nsi(1, "status")[0], 2)
        self.cell.start(1)
        self.all_up()
        self.done(1, "create /.:/after")

    def asks_what_happened(self) -> None:
        for machine in MACHINES:
            self.assertEqual(self.cell.stop(machine), 0)
        folders = [f"{self.cell.folder}/{name}" for name in ("h1", "lost-h2", "h3", "h4", "h5")]
        words = [f"{ROOT}/tools/houses", "--explain", *folders, "--plain", plain()]
        ran = subprocess.run(words, capture_output=True, text=True, check=False)
        self.assertEqual((ran.returncode, "# unexplained" in ran.stdout), (0, False), ran.stderr + ran.stdout[-500:])
        for line in ("epoch 2 4 1 5", "create 1 1 upgraded", "create 1 1 after"):
            self.assertRegex(ran.stdout, rf"(?m)^{line}$")

    def test_the_day(self) -> None:
        rows: dict[str, Callable[[], None]] = {
            "start, stop": self.starts_and_stops,
            "watch": self.watches,
            "add a house": self.adds_a_house,
            "lose a house": self.loses_a_house,
            "lose the ledger": self.loses_the_ledger,
            "move a master": self.moves_a_master,
            "upgrade": self.upgrades,
            "a machine is cut off": self.is_cut_off,
            "the door dies": self.loses_a_door,
            "what happened": self.asks_what_happened,
        }
        with open(f"{ROOT}/docs/LIVE.md", encoding="utf-8") as file:
            chapter = re.split(r"\n## ", file.read().partition("\n## An operator's day\n")[2])[0]
        self.assertEqual([it for it in re.findall(r"(?m)^\| ([^|]+) \|", chapter) if it != "event"], list(rows))
        for does in rows.values():
            does()


if __name__ == "__main__":
    unittest.main()
