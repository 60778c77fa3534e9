"""Tests of three machines that reach each other by real `ssh`, by real TLS and over a real broker: what the key or the
certificate of a machine lets it send. A transport whose programs are not there is passed over."""
from __future__ import annotations

import os
import re
import shutil
import subprocess
import tempfile
import time
import unittest
from collections.abc import Callable

from doors.test_lines import MESSAGE
from doors.trials.machines import MACHINES, Machines
from doors.trials.nets import Namespaces
from doors.trials.transports import Mqtt, Ssh, Tcp, Tls
from cds import programs
from cds.processes import ENDS

INTERFACE = "a0000000-0000-0000-0000-000000000001:1.0"
LONGEST = 30.0
# An answer to a line of a door, which numbers what it sends.
NUMBERED = re.compile(r"\d+\.\d+ ")


class Stranger(Machines):
    """Machines of which the first one lets the door of the third one ask questions alone."""

    def cell_file(self, machine: int) -> list[str]:
        lines = super().cell_file(machine)
        if machine == 1:
            lines[-1] = 'allow = ["questions"]'
        # (over a broker a line is lost if the other door does not listen yet, and nothing else says so)
        return ["kill_after = 5", *lines]


class Line:
    """The stream by which a machine reaches another one, in other hands than those of its door."""

    def __init__(self, words: list[str]) -> None:
        self.child = subprocess.Popen(
            words, stdin=subprocess.PIPE, stdout=subprocess.PIPE, stderr=subprocess.DEVNULL, text=True
        )

    def ask(self, line: str) -> list[str]:
        """The answer to a line; nothing if the stream ends."""
        assert self.child.stdin and self.child.stdout
        told: list[str] = []
        try:
            self.child.stdin.write(f"{line}\n")
            self.child.stdin.flush()
        except BrokenPipeError:
            return told
        for text in self.child.stdout:
            # (where in the journal an answer is; and over a broker, what the machine's own door is answered)
            if not text.startswith("at ") and not NUMBERED.match(text):
                told.append(text.rstrip("\n"))
                if told[-1].split(" ")[0] in ENDS:
                    break
        return told

    def close(self) -> None:
        self.child.kill()
        self.child.communicate()


class TransportTest(unittest.TestCase):
    """Three machines of one kind of transport."""

    kind: type[Tcp] = Tcp

    def setUp(self) -> None:
        if not shutil.which("rustc") or not self.kind.is_there():
            self.skipTest(f"rustc or {self.kind.name} is not there")
        room = tempfile.TemporaryDirectory(dir="/dev/shm" if os.access("/dev/shm", os.W_OK) else None)
        self.addCleanup(room.cleanup)
        house, clerk = programs.plain_house(), programs.plain_clerk()
        self.machines = Stranger(room.name, house, clerk, 3.0, not Namespaces.are_allowed(), self.kind)
        self.addCleanup(self.machines.close)
        self.machines.begin()
        self.until(lambda: all(self.ask(machine, "status") != ["gone"] for machine in MACHINES))

    def until(self, is_so: Callable[[], bool]) -> None:
        """Waits until something is so."""
        end = time.monotonic() + LONGEST
        while not is_so():
            self.assertLess(time.monotonic(), end)
            time.sleep(0.05)

    def ask(self, machine: int, line: str) -> list[str]:
        return self.machines.client(machine).ask(line)

    def line(self, machine: int, other: int, words: list[str] | None = None) -> Line:
        """The stream of a machine to another one."""
        words = words or self.machines.transport.via(machine, other, self.machines.place(other, machine))
        line = Line([*self.machines.net.inside(machine), *words])
        self.addCleanup(line.close)
        return line

    def found(self) -> None:
        """The cell: three houses, and the root directory at all of them."""
        for command in ("house 1 00000000000a", "house 2 00000000000b", "house 3 00000000000c", "root 1 2 3"):
            self.until(lambda command=command: self.ask(1, command)[-1].startswith("ok"))  # type: ignore[misc]

    def day(self) -> None:
        """A server at machine 2 exports, and a client at machine 3 imports."""
        self.found()
        self.until(
            lambda: self.ask(2, f"export /.:/lpr {INTERFACE} ncacn_ip_tcp:10.0.0.1[1025] -")[-1].startswith("ok")
        )
        wanted = ["binding ncacn_ip_tcp:10.0.0.1[1025]", "end 1"]
        self.until(lambda: self.ask(3, f"import high /.:/lpr {INTERFACE} - ncacn_ip_tcp") == wanted)

    def forge(self) -> None:
        """What the key of a machine does not let it send is refused."""
        self.found()
        two, three = self.line(2, 1), self.line(3, 1)
        forged = f"{MESSAGE[:12]}03{MESSAGE[14:]}"
        for line, text in (
            # a message of another machine's house
            (two, f"@1 take {forged}"),
            # an update, and an epoch, of a machine that may ask questions alone
            (three, "@1 create 1 stranger"),
            (three, "create /.:/stranger"),
            (three, "epoch 1 3 1 2"),
            (three, "@1 skulk 1"),
            # what the console of another machine gives
            (three, "house 4 00000000000d"),
        ):
            self.assertEqual(line.ask(text), ["refused Forbidden"], text)
        self.assertEqual(three.ask("@1 status 1")[-1].split(" ")[0], "ok")
        with open(f"{self.machines.folder}/m1/log", encoding="ascii") as log:
            said = log.read()
        self.assertIn("the door of house 3 may not send epoch 1 3 1 2", said)


class SshTest(TransportTest):
    kind = Ssh

    def test_a_server_exports_and_a_client_imports(self) -> None:
        self.day()

    def test_another_machine_forges_nothing(self) -> None:
        self.forge()

    def test_a_key_leads_to_one_command_and_a_stranger_s_key_to_none(self) -> None:
        place = self.machines.place(1, 2)
        words = self.machines.transport.via(2, 1, place)
        self.assertEqual(
            self.line(2, 1, [*words, "echo", "refused", "shell"]).ask("@1 status 1")[-1].split(" ")[0], "refused"
        )
        self.assertNotEqual(self.line(2, 1, [*words, "echo", "refused", "shell"]).ask("@1 status 1"), ["refused shell"])
        own = words.index("-i") + 1
        words[own] = words[own].replace("door2", "door3")
        self.assertEqual(self.line(2, 1, words).ask("@1 status 1"), [])


class TlsTest(TransportTest):
    kind = Tls

    def test_a_server_exports_and_a_client_imports(self) -> None:
        self.day()

    def test_another_machine_forges_nothing(self) -> None:
        self.forge()

    def test_the_certificate_of_another_machine_leads_nowhere(self) -> None:
        words = [
            it.replace("host2.pem", "host3.pem") for it in self.machines.transport.via(2, 1, self.machines.place(1, 2))
        ]
        self.assertEqual(self.line(2, 1, words).ask("@1 status 1"), [])


class MqttTest(TransportTest):
    kind = Mqtt

    def words(self, machine: int) -> list[str]:
        """The words by which a machine comes to the broker."""
        transport = self.machines.transport
        assert isinstance(transport, Mqtt)
        return transport.broker(machine)

    def hear(self, machine: int, topic: str) -> Callable[[], list[str]]:
        """Subscribes, and returns what gives the lines that came within two seconds."""
        words = ["mosquitto_sub", *self.words(machine), "-v", "-W", "2", "-t", topic]
        words = [*self.machines.net.inside(machine), *words]
        child = subprocess.Popen(words, stdout=subprocess.PIPE, stderr=subprocess.DEVNULL, text=True)
        return lambda: child.communicate()[0].splitlines()

    def publish(self, machine: int, topic: str, text: str, words: list[str] | None = None) -> int:
        words = self.words(machine) if words is None else words
        command = [*self.machines.net.inside(machine), "mosquitto_pub", *words, "-t", topic, "-m", text]
        return subprocess.run(command, capture_output=True, timeout=20, check=False).returncode

    def test_what_the_list_lets_a_machine_send_and_hear(self) -> None:
        hears = [self.hear(1, "cds/host1/+/try"), self.hear(3, "#"), self.hear(3, "cds/host1/host2/try")]
        for _ in range(3):
            time.sleep(0.5)
            self.assertEqual(self.publish(2, "cds/host1/host2/try", "from host2"), 0)
            self.publish(3, "cds/host1/host2/try", "forged")
            self.publish(3, "cds/host2/host1/say", "1.1 forged")
            self.publish(3, "cds/host1/host3/try/more", "forged")
            self.publish(3, "other/host3/try", "forged")
        one, all_of_three, three = (it() for it in hears)
        self.assertEqual(set(one), {"cds/host1/host2/try from host2"})
        # (its own doors' lines are all that it hears)
        self.assertEqual([it for it in all_of_three if not it.startswith("cds/host3/")], [])
        self.assertEqual(three, [])

    def test_a_stranger_does_not_come_in(self) -> None:
        words = self.words(3)
        files = words.index("--cert")
        self.assertNotEqual(self.publish(3, "cds/host1/host3/try", "x", words[:files]), 0)
        folder = tempfile.TemporaryDirectory()
        self.addCleanup(folder.cleanup)
        other = Mqtt(folder.name, [3])
        other.prepare()
        strange = [other.file("host3.crt") if it.endswith(".crt") else it for it in words]
        strange = [other.file("host3.key") if it.endswith(".key") else it for it in strange]
        self.assertNotEqual(self.publish(3, "cds/host1/host3/try", "x", strange), 0)

    def test_a_server_exports_and_a_client_imports(self) -> None:
        self.day()

    def test_another_machine_forges_nothing(self) -> None:
        self.forge()


del TransportTest

if __name__ == "__main__":
    unittest.main()
