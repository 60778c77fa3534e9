"""The net between the machines of a trial: namespaces that a bridge joins, or ports of the loopback."""
from __future__ import annotations

import os
import signal
import socket
import subprocess

Carriers = dict[int, list[subprocess.Popen[bytes]]]


def ip(*words: str, check: bool = True) -> bool:
    return subprocess.run(["ip", *words], check=check, capture_output=True).returncode == 0


class Namespaces:
    """Each machine is a network namespace. `carriers` are the processes that listen in it."""

    def __init__(self, machines: list[int], carriers: Carriers) -> None:
        self.machines, self.carriers, self.name = machines, carriers, f"cds{os.getpid()}"

    @staticmethod
    def are_allowed() -> bool:
        """Whether this process may make one."""
        name = f"cds{os.getpid()}-try"
        try:
            return ip("netns", "add", name, check=False) and ip("netns", "del", name, check=False)
        except OSError:
            return False

    def begin(self) -> None:
        bridge = f"{self.name}-br"
        ip("netns", "add", bridge)
        ip("-n", bridge, "link", "add", "name", "br0", "type", "bridge")
        ip("-n", bridge, "link", "set", "br0", "up")
        for machine in self.machines:
            own = f"{self.name}-{machine}"
            ip("netns", "add", own)
            ends = ["name", f"vm{machine}", "type", "veth", "peer", "name", "eth0", "netns", own]
            ip("-n", bridge, "link", "add", *ends)
            ip("-n", bridge, "link", "set", f"vm{machine}", "master", "br0", "up")
            ip("-n", own, "addr", "add", f"10.77.0.{machine}/24", "dev", "eth0")
            for device in ("eth0", "lo"):
                ip("-n", own, "link", "set", device, "up")

    def close(self) -> None:
        for name in (f"{self.name}-br", *(f"{self.name}-{machine}" for machine in self.machines)):
            ip("netns", "del", name, check=False)

    def inside(self, machine: int) -> list[str]:
        """The words before a command of a machine."""
        return ["ip", "netns", "exec", f"{self.name}-{machine}"]

    def address(self, machine: int, peer: int) -> tuple[str, str]:
        """Where a machine listens to the door of another one."""
        return f"10.77.0.{machine}", str(7000 + peer)

    def cut(self, machine: int) -> None:
        ip("-n", f"{self.name}-br", "link", "set", f"vm{machine}", "down")

    def mend(self, machine: int) -> None:
        ip("-n", f"{self.name}-br", "link", "set", f"vm{machine}", "up")


class Loopback(Namespaces):
    """All machines are folders here. A line is cut where what listens to it stops: nothing comes through, and nothing
    ends."""

    def __init__(self, machines: list[int], carriers: Carriers) -> None:
        super().__init__(machines, carriers)
        self.ports: dict[tuple[int, int], str] = {}

    def begin(self) -> None:
        pairs = [(one, other) for one in self.machines for other in self.machines if one != other]
        listeners = {pair: socket.create_server(("127.0.0.1", 0)) for pair in pairs}
        for pair, listener in listeners.items():
            self.ports[pair] = str(listener.getsockname()[1])
            listener.close()

    def close(self) -> None:
        """Nothing is left."""

    def inside(self, machine: int) -> list[str]:
        return []

    def address(self, machine: int, peer: int) -> tuple[str, str]:
        return "127.0.0.1", self.ports[machine, peer]

    def cut(self, machine: int) -> None:
        self.signal(machine, signal.SIGSTOP)

    def mend(self, machine: int) -> None:
        self.signal(machine, signal.SIGCONT)

    def signal(self, machine: int, number: signal.Signals) -> None:
        for carrier in self.carriers.get(machine, []):
            os.killpg(carrier.pid, number)
