"""Programs of a cell: servers that export and unexport themselves, and users that import. What they were answered is
kept."""
from __future__ import annotations

import random
import socket
import threading
import time
from typing import NamedTuple, TextIO

from cds.processes import ENDS

INTERFACE = "a0000000-0000-0000-0000-000000000001"
# So long a client waits for a line of an answer, in seconds.
LONGEST = 90.0
GONE = ["gone"]


class Client:
    """A connection to a door, made anew where it went away."""

    def __init__(self, path: str) -> None:
        self.path = path
        self.file: TextIO | None = None

    def ask(self, line: str) -> list[str]:
        """The answer, or GONE."""
        try:
            file = self.file = self.file or self.connected()
            file.write(f"{line}\n")
            file.flush()
            lines: list[str] = []
            for text in file:
                lines.append(text.rstrip("\n"))
                if lines[-1].split(" ")[0] in ENDS:
                    return lines
        except OSError:
            pass
        self.file = None
        return GONE

    def connected(self) -> TextIO:
        with socket.socket(socket.AF_UNIX) as door:
            door.settimeout(LONGEST)
            door.connect(self.path)
            return door.makefile("rw", encoding="ascii")


class Told(NamedTuple):
    """What a client asked, and was answered."""

    kind: str
    line: str
    took: float
    answer: list[str]


class Programs:
    """Some servers and users, each a thread of this trial, at the doors of these paths in turn."""

    def __init__(self, paths: list[str], servers: int, users: int, seed: int) -> None:
        self.paths, self.seed = paths, seed
        self.told: list[Told] = []
        self.is_over = threading.Event()
        works = [(self.serve, number) for number in range(servers)] + [(self.use, number) for number in range(users)]
        self.threads = [threading.Thread(target=work, args=(number,)) for work, number in works]

    def begin(self) -> None:
        for thread in self.threads:
            thread.start()

    def end(self) -> None:
        self.is_over.set()
        for thread in self.threads:
            thread.join()

    def ask(self, client: Client, kind: str, line: str) -> list[str]:
        began = time.monotonic()
        answer = client.ask(line)
        self.told.append(Told(kind, line, time.monotonic() - began, answer))
        if answer == GONE:
            self.is_over.wait(0.3)
        return answer

    def serve(self, number: int) -> None:
        """A server that starts, is used, and ends, again and again; each time at another port."""
        chance, client = random.Random(self.seed * 1000 + number), Client(self.paths[number % len(self.paths)])
        name, interface, port = f"/.:/print/s{number}", f"{INTERFACE}:1.{number % 3}", 1024
        while not self.is_over.is_set():
            port += 1
            binding = f"ncacn_ip_tcp:10.1.0.{number}[{port}]"
            if self.ask(client, "export", f"export {name} {interface} {binding} -")[-1].startswith("ok"):
                self.ask(client, "import high", f"import high {name} {INTERFACE}:1.0 - ncacn_ip_tcp")
                self.ask(client, "groupadd", f"groupadd /.:/sub/all {name}")
                self.is_over.wait(chance.random() * 0.5)
                self.ask(client, "unexport", f"unexport {name} {interface} -")
            self.is_over.wait(chance.random() * 0.3)

    def use(self, number: int) -> None:
        """A user, who looks for servers at this and that confidence."""
        chance, client = random.Random(self.seed * 1000 + 500 + number), Client(self.paths[number % len(self.paths)])
        while not self.is_over.is_set():
            one = f"/.:/print/s{chance.randrange(10)}"
            line = chance.choice(
                [
                    f"import low /.:/profile {INTERFACE}:1.0 - ncacn_ip_tcp",
                    f"import low /.:/profile {INTERFACE}:1.2 - ncacn_ip_tcp,ncadg_ip_udp",
                    f"import high /.:/profile {INTERFACE}:1.0 - ncacn_ip_tcp",
                    f"import low {one} {INTERFACE}:1.0 - ncacn_ip_tcp",
                    "grouplist low /.:/sub/all",
                    f"read low {one} CDS_Towers",
                ]
            )
            self.ask(client, " ".join(line.split(" ")[:2]), line)
            self.is_over.wait(0.02)
