"""Three machines, each with a door, a house and a clerk, and what can be done to them."""
from __future__ import annotations

import os
import shlex
import signal
import subprocess
import sys

from doors.trials.clients import Client
from doors.trials.nets import Carriers, Loopback, Namespaces
from doors.trials.transports import Place, Tcp

HERE = os.path.dirname(os.path.realpath(__file__))
DOOR = f"{HERE}/../../door"
MACHINES = [1, 2, 3]
# The machine whose door is the console.
CONSOLE = 1


def end(carrier: subprocess.Popen[bytes]) -> None:
    """Ends a command and what it started."""
    for number in (signal.SIGTERM, signal.SIGCONT):
        os.killpg(carrier.pid, number)
    try:
        carrier.wait(2)
    except subprocess.TimeoutExpired:
        os.killpg(carrier.pid, signal.SIGKILL)
        carrier.wait()


class Machines:
    """`folder` gets a folder mN of each machine, and a folder hN of its house. `kind` is what carries lines between
    them."""

    def __init__(
        self, folder: str, house: str, clerk: str, skulk_every: float, is_local: bool, kind: type[Tcp] = Tcp
    ) -> None:
        self.folder, self.house, self.clerk, self.skulk_every = folder, house, clerk, skulk_every
        self.doors: dict[int, subprocess.Popen[bytes]] = {}
        self.carriers: Carriers = {machine: [] for machine in MACHINES}
        self.net = (Loopback if is_local else Namespaces)(MACHINES, self.carriers)
        self.transport = kind(folder, MACHINES)

    def begin(self) -> None:
        self.net.begin()
        self.transport.prepare()
        for words in self.transport.servers(self.place(CONSOLE, MACHINES[-1])):
            self.carry(CONSOLE, words)
        for machine in MACHINES:
            self.begin_machine(machine)

    def close(self) -> None:
        for door in self.doors.values():
            door.send_signal(signal.SIGTERM)
        for carrier in (carrier for each in self.carriers.values() for carrier in each):
            end(carrier)
        for door in self.doors.values():
            door.wait()
        self.net.close()

    def begin_machine(self, machine: int) -> None:
        folder = f"{self.folder}/m{machine}"
        os.makedirs(folder, exist_ok=True)
        with open(f"{folder}/cell.toml", "w", encoding="ascii") as file:
            file.write("\n".join(self.cell_file(machine)) + "\n")
        self.begin_door(machine)
        for other in MACHINES:
            if other != machine:
                place = self.place(machine, other)
                self.carry(machine, self.transport.listener(machine, other, place, f"{folder}/peer{other}"))

    def carry(self, machine: int, words: list[str]) -> None:
        """Starts a command that carries lines, at a machine."""
        with open(f"{self.folder}/carriers", "ab") as errors:
            words = [*self.net.inside(machine), *words]
            self.carriers[machine].append(subprocess.Popen(words, start_new_session=True, stderr=errors))

    def place(self, machine: int, other: int) -> Place:
        """Where a machine listens to the door of another one."""
        return Place(*self.net.address(machine, other))

    def cell_file(self, machine: int) -> list[str]:
        lines = [f"near = {machine}", f"console = {CONSOLE}", f'program = "{self.house}"', f'clerk = "{self.clerk}"']
        lines += ['socket = "door"', 'log = "log"', 'trace = "trace"', f"skulk_every = {self.skulk_every}"]
        for other in MACHINES:
            if other == machine:
                lines += [f"[house.{other}]", f'folder = "../h{other}"']
                continue
            via = shlex.join(self.transport.via(machine, other, self.place(other, machine)))
            lines += [f"[house.{other}]", f'via = "{via}"']
            lines += [f"[peer.{other}]", f'socket = "peer{other}"', f"houses = [{other}]"]
            if CONSOLE in (other, machine):
                lines.append('allow = ["questions", "updates", "messages", "operation"]')
        return lines

    def begin_door(self, machine: int) -> None:
        folder = f"{self.folder}/m{machine}"
        with open(f"{folder}/stderr", "ab") as errors:
            words = [*self.net.inside(machine), sys.executable, DOOR, f"{folder}/cell.toml"]
            self.doors[machine] = subprocess.Popen(words, start_new_session=True, stderr=errors)

    # ---- what is done to them

    def client(self, machine: int) -> Client:
        return Client(f"{self.folder}/m{machine}/door")

    def pid_of(self, machine: int) -> int:
        """The process of a machine's house, by the log of its door."""
        with open(f"{self.folder}/m{machine}/log", encoding="ascii") as file:
            starts = [line.split(" process ")[1].split(":")[0] for line in file if f"house {machine} is up" in line]
        return int(starts[-1])

    def kill_house(self, machine: int) -> None:
        try:
            os.kill(self.pid_of(machine), signal.SIGKILL)
        except ProcessLookupError:
            pass

    def kill_door(self, machine: int) -> None:
        """Its house ends with it, since its input does."""
        self.doors[machine].send_signal(signal.SIGKILL)
        self.doors[machine].wait()

    def kill_clerk(self, machine: int) -> None:
        """Kills the clerk of a door: the child of it that is a clerk."""
        door = self.doors[machine].pid
        with open(f"/proc/{door}/task/{door}/children", encoding="ascii") as file:
            children = file.read().split()
        for child in children:
            try:
                with open(f"/proc/{child}/cmdline", "rb") as words:
                    if words.read().split(b"\0")[0].decode() == self.clerk:
                        os.kill(int(child), signal.SIGKILL)
            except OSError:
                continue
