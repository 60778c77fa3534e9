"""Tests of the door as a program: over houses and a clerk in plain Rust, and over houses that this test plays. Without
`rustc` they are passed over."""
from __future__ import annotations

import json
import os
import shutil
import signal
import socket
import subprocess
import sys
import tempfile
import time
import unittest

from doors.test_lines import MESSAGE
from doors.trials.clients import Client
from building.sources import ROOT
from cds import programs

INTERFACE = "a0000000-0000-0000-0000-000000000001:1.0"
BINDING = "ncacn_ip_tcp:10.0.0.1[1025]"
# A house that hangs with a question.
HANGS = """echo 0 new
while read -r line; do
    case "$line" in dump*) exec sleep 20;; *) echo 1 refused NoHouse;; esac
done"""
# A house that answers one question late.
IS_LATE = """echo 0 new
while read -r line; do
    case "$line" in "dump 7") sleep 1; echo 1 dump late; echo 1 end;; *) echo 2 refused NoHouse;; esac
done"""


class Room(unittest.TestCase):
    """A folder with a cell file, and its door."""

    def setUp(self) -> None:
        if not shutil.which("rustc"):
            self.skipTest("rustc is not there")
        self.house = programs.compiled("bench/house.rs", "out/plain-house")
        self.clerk = programs.plain_clerk()
        memory = "/dev/shm" if os.access("/dev/shm", os.W_OK) else None
        room = tempfile.TemporaryDirectory(dir=memory)
        self.addCleanup(room.cleanup)
        self.room = room.name
        self.doors: list[subprocess.Popen[bytes]] = []

    def tearDown(self) -> None:
        for door in self.doors:
            if door.poll() is None:
                door.send_signal(signal.SIGTERM)
                door.wait(30)

    def played(self, text: str) -> str:
        """A program of this text, which is a house that is no house."""
        path = f"{self.room}/played"
        with open(path, "w", encoding="ascii") as file:
            file.write(f"#!/bin/sh\n{text}\n")
        os.chmod(path, 0o755)
        return path

    def open(self, name: str = "cell", houses: tuple[int, ...] = (1,), head: str = "", tail: str = "") -> Client:
        """Writes a cell file, and opens its door."""
        lines = [f'program = "{self.house}"', f'clerk = "{self.clerk}"', f'socket = "{name}.door"']
        lines += [f'log = "{name}.log"', head]
        lines += [f'[house.{number}]\nfolder = "h{number}"' for number in houses]
        with open(f"{self.room}/{name}.toml", "w", encoding="ascii") as file:
            file.write("\n".join([*lines, tail, ""]))
        return self.begin(name)

    def begin(self, name: str = "cell") -> Client:
        with open(f"{self.room}/{name}.errors", "ab") as errors:
            words = [sys.executable, f"{ROOT}/tools/door", f"{self.room}/{name}.toml"]
            self.doors.append(subprocess.Popen(words, stderr=errors))
        client = Client(f"{self.room}/{name}.door")
        self.until(lambda: client.ask("status") != ["gone"])
        return client

    def until(self, holds: object, seconds: float = 20.0) -> None:
        until = time.monotonic() + seconds
        assert callable(holds)
        while not holds():
            self.assertLess(time.monotonic(), until)
            time.sleep(0.02)

    def up(self, client: Client, number: int) -> bool:
        return any(line.startswith(f"house {number} ") and " up " in line for line in client.ask("status"))

    def make(self, client: Client, houses: tuple[int, ...] = (1,)) -> None:
        """Makes houses, and the root directory of them."""
        for number in houses:
            self.until(lambda number=number: self.up(client, number))
            self.assertEqual(client.ask(f"house {number} 00000000000{number}"), ["ok"])
        self.assertEqual(client.ask(f"root {' '.join(map(str, houses))}"), ["ok"])

    def log(self, name: str = "cell") -> str:
        with open(f"{self.room}/{name}.log", encoding="ascii") as file:
            return file.read()


class DoorTest(Room):
    """A door on one machine."""

    def test_a_server_exports_and_a_client_imports(self) -> None:
        client = self.open(houses=(1, 2, 3))
        self.make(client, (1, 2, 3))
        self.assertEqual(client.ask(f"export /.:/lpr {INTERFACE} {BINDING} -"), ["ok 2"])
        self.assertEqual(client.ask(f"import high /.:/lpr {INTERFACE} - ncacn_ip_tcp"), [f"binding {BINDING}", "end 1"])
        self.until(lambda: client.ask("@3 look 1 lpr CDS_Towers")[-1] == "end 1")
        self.assertEqual(client.ask(f"unexport /.:/lpr {INTERFACE} -"), ["ok 1"])
        self.assertEqual(client.ask(f"unexport /.:/lpr {INTERFACE} -"), ["refused NothingToUnexport"])
        self.assertEqual(client.ask("read low /.:/nowhere A"), ["refused NoSuchName 0"])
        self.assertEqual(client.ask("read lowly /.:/lpr A"), ["fault BadWord 2"])
        self.assertEqual(client.ask("hop"), ["fault UnknownCommand 1"])

    def test_lines_without_a_form(self) -> None:
        client = self.open()
        self.assertEqual(client.ask("x" * 5000), ["fault LineTooLong 4097"])
        self.assertEqual(client.ask("read\tlow"), ["fault NotAscii 5"])
        # (a house would end with such a line)
        self.assertEqual(client.ask("@1 look 1 a " + "A" * 4080), ["fault LineTooLong 4081"])
        for line in ("@1", "@1 # what", "@", "@9 dump 1", "@x dump 1"):
            self.assertIn(client.ask(line), (["fault WrongCount 1"], ["refused NoHouse"]), line)
        # a blank line and a comment have no answer, so the next one is that of the command
        self.assertEqual(client.ask("\n   \n# a comment\n@1 dump 1"), ["refused NoHouse"])

    def test_lines_with_numbers(self) -> None:
        self.open()
        with socket.socket(socket.AF_UNIX) as door:
            door.connect(f"{self.room}/cell.door")
            door.sendall(
                b"7 @1 dump 1\n  08 hop\n9 \n9 # no answer\nhop\n" + b"6 " + b"x" * 4097 + b"\n1 " + b"x" * 5000 + b"\n"
            )
            door.shutdown(socket.SHUT_WR)
            said = door.makefile("r").read().splitlines()
        due = [
            "7.1 refused NoHouse",
            "08.1 fault UnknownCommand 1",
            "fault UnknownCommand 1",
            "6.1 fault LineTooLong 4097",
        ]
        self.assertEqual(said, [*due, "fault LineTooLong 4097"])

    def test_who_may_send_what(self) -> None:
        client = self.open(tail=f'[allow]\nquestions = ["*"]\nupdates = ["{os.getuid()}"]\noperation = []')
        for line in ("house 1 00000000000a", "root 1", "skulk", "@1 house 1 00000000000a", "@1 clock 5", "@1 take 00"):
            self.assertEqual(client.ask(line), ["refused Forbidden"], line)
        self.assertEqual(client.ask("@1 dump 1"), ["refused NoHouse"])
        self.assertEqual(client.ask("create /.:/a"), ["refused Unreachable 1"])
        self.assertIn("may not send house 1 00000000000a", self.log())

    def test_a_directory_that_is_not_open_to_all(self) -> None:
        all_may = "\n".join(f'{kind} = ["*"]' for kind in ("questions", "updates", "operation"))
        client = self.open(tail=f'[allow]\n{all_may}\n[allow.directory]\n2 = ["nosuch"]')
        self.make(client)
        self.assertEqual(client.ask("mkdir 1 1 sub 1")[0][:5], "ok 2 ")
        self.assertEqual(client.ask("create /.:/a")[0][:3], "ok ")
        for line in ("create /.:/sub/a", f"export /.:/sub/a {INTERFACE} {BINDING} -", "@1 create 2 a"):
            self.assertEqual(client.ask(line), ["refused Forbidden"], line)
        self.assertEqual(self.log().count("may not send create 2 a"), 3)

    def test_messages_are_of_doors_and_of_their_own_houses(self) -> None:
        others = [f'[house.{at}]\nvia = "false"\n[peer.{at}]\nsocket = "p{at}"' for at in (2, 3)]
        client = self.open(tail="\n".join(others), head="console = 1")
        self.make(client)
        two, three = Client(f"{self.room}/p2"), Client(f"{self.room}/p3")
        forged = MESSAGE[:12] + "02" + MESSAGE[14:]
        self.assertEqual([it.ask(f"@1 take {forged}") for it in (client, three)], [["refused Forbidden"]] * 2)
        self.assertEqual(two.ask(f"@1 take {forged}"), ["ok foreign"])
        self.assertEqual(two.ask("@1 more 00"), ["refused Forbidden"])
        self.assertEqual(two.ask("@1 clock 9"), ["refused Forbidden"])
        self.assertEqual(two.ask("mkdir 1 1 a 1"), ["refused Forbidden"])

    def test_a_house_that_cannot_start_is_named_and_the_others_work(self) -> None:
        os.makedirs(f"{self.room}/h2")
        with open(f"{self.room}/h2/1", "wb") as file:
            file.write(b"no journal")
        client = self.open(houses=(1, 2))
        self.make(client)
        self.until(lambda: "house 2 is down" in self.log())
        said = [line for line in client.ask("status") if line.startswith("house 2 here down")]
        self.assertIn("its last segment is damaged (status 9)", said[0])
        self.assertEqual(client.ask("@2 dump 1"), ["refused Down"])
        self.assertEqual(client.ask("create /.:/a")[0].split(" ")[0], "ok")
        self.until(lambda: int(client.ask("status")[3].split(" starts ")[1].split(" ")[0]) > 3)
        self.assertEqual(self.log().count("house 2 is down"), 1)

    def test_a_house_that_hangs_is_down_after_one_silence(self) -> None:
        self.house = self.played(HANGS)
        client = self.open(head="patience = 1.5")
        self.until(lambda: self.up(client, 1))
        self.assertEqual(client.ask("@1 dump 1"), ["refused Down"])
        began = time.monotonic()
        self.assertEqual(client.ask("@1 dump 1"), ["refused Down"])
        self.assertLess(time.monotonic() - began, 1.2)
        self.assertIn("because it is silent", client.ask("status")[2])
        self.assertIn("house 1 is silent: dump 1", self.log())

    def test_a_late_answer_is_nobodys(self) -> None:
        self.house = self.played(IS_LATE)
        client = self.open(head="patience = 0.3")
        self.until(lambda: self.up(client, 1))
        self.assertEqual(client.ask("@1 dump 7"), ["refused Down"])
        while (said := client.ask("@1 dump 2")) == ["refused Down"]:
            time.sleep(0.02)
        self.assertEqual(said, ["refused NoHouse"])
        self.assertRegex(client.ask("status")[2], " late [1-9]")

    def test_a_house_that_is_killed_is_started_again_and_says_its_last_turn(self) -> None:
        client = self.open(houses=(1, 2))
        self.make(client, (1, 2))
        for number in range(20):
            self.assertEqual(client.ask(f"create /.:/a{number}")[-1][:2], "ok")
            if number % 5 == 0:
                pid = int(self.log().split("house 1 is up, process ")[-1].split(":")[0])
                os.kill(pid, signal.SIGKILL)
                self.until(lambda: client.ask("@1 dump 1")[-1] == "end")
        self.until(lambda: client.ask("skulk") and client.ask("@1 dump 1") == client.ask("@2 dump 1"))
        self.assertEqual(sum(line.startswith("entry ") for line in client.ask("@2 dump 1")), 20)

    def test_a_door_that_is_killed_and_one_that_is_there(self) -> None:
        client = self.open()
        self.make(client)
        words = [f"{ROOT}/tools/door", f"{self.room}/cell.toml"]
        second = subprocess.run(words, capture_output=True, text=True, check=False)
        self.assertEqual((second.returncode, "another door is there" in second.stderr), (2, True))
        self.doors[0].kill()
        self.doors[0].wait()
        self.assertEqual(client.ask("status"), ["gone"])
        client = self.begin()
        self.until(lambda: self.up(client, 1))
        self.assertEqual(client.ask("house 1 00000000000a"), ["refused HouseExists"])
        self.assertEqual(client.ask("mkdir 1 1 a 1")[0][:5], "ok 2 ")

    def test_a_client_that_goes_away(self) -> None:
        client = self.open()
        self.make(client)
        for _ in range(20):
            with socket.socket(socket.AF_UNIX) as door:
                door.connect(f"{self.room}/cell.door")
                door.sendall(b"create /.:/gone\nread low /.:/gone A\nimp")
        self.until(lambda: client.ask("read low /.:/gone A") == ["ok 0"])
        self.until(lambda: " programs 1 " in client.ask("status")[0])

    def test_many_lines_of_one_client_are_answered_in_their_order(self) -> None:
        client = self.open()
        self.make(client)
        count = 500
        with socket.socket(socket.AF_UNIX) as door, door.makefile("r", encoding="ascii") as file:
            door.connect(f"{self.room}/cell.door")
            lines = [f"@1 look 1 a{number} A\nread low /.:/a{number}/b A\n" for number in range(count)]
            door.sendall("".join(lines).encode())
            said = [file.readline() for _ in range(2 * count)]
        self.assertEqual(said, ["refused NoSuchEntry\n", "refused NoSuchName 0\n"] * count)

    def test_a_clerk_that_ends_is_begun_again(self) -> None:
        self.clerk = self.played("read -r line; exit 3")
        client = self.open()
        self.assertEqual(client.ask("create /.:/a"), ["refused NoClerk doubt"])
        self.until(lambda: client.ask("read low /.:/a A") == ["refused NoClerk doubt"])

    def test_bad_cell_files(self) -> None:
        with open(f"{self.room}/bad.toml", "w", encoding="ascii") as file:
            file.write("[house.x]")
        for path, said in ((f"{self.room}/bad.toml", "[house.x]"), (f"{self.room}/none.toml", "No such file")):
            ran = subprocess.run([f"{ROOT}/tools/door", path], capture_output=True, text=True, check=False)
            found = (ran.returncode, said in ran.stderr, "Traceback" in ran.stderr)
            self.assertEqual(found, (2, True, False), ran.stderr)


class DayTest(Room):
    """An operator's day, as docs/LIVE.md has it."""

    def again(self, *houses: int) -> Client:
        """The door ends, and begins with these houses."""
        self.doors[-1].send_signal(signal.SIGTERM)
        self.assertEqual(self.doors[-1].wait(30), 0)
        client = self.open(houses=houses)
        for house in houses:
            self.until(lambda: self.up(client, house))
        return client

    def test_a_day(self) -> None:
        client = self.open(houses=(1, 2))
        self.make(client, (1, 2))
        self.assertEqual(client.ask("mkdir 1 1 print 1 2")[0][:5], "ok 2 ")
        self.assertEqual(client.ask("create /.:/print/lpr")[0][:3], "ok ")
        # a house is added
        client = self.again(1, 2, 3)
        self.assertEqual(client.ask("house 3 00000000000c"), ["ok"])
        self.assertEqual([client.ask(f"epoch {it} 1 2 3") for it in (1, 2)], [["ok 2"], ["ok 2"]])
        self.assertEqual(client.ask("@1 repoint 1 print 1 2 3")[0][:3], "ok ")
        self.until(lambda: client.ask("@3 look 2 lpr A") == ["end 0"])
        # house 2 is lost: its number and its node are not given again
        client = self.again(1, 3, 4)
        self.assertEqual([client.ask(f"epoch {it} 1 3") for it in (1, 2)], [["ok 3"], ["ok 3"]])
        self.until(lambda: " allupto none " not in client.ask("@3 dump 2")[0])
        self.assertEqual(client.ask("house 2 00000000000d"), ["refused HouseExists"])
        self.assertEqual(client.ask("house 4 000000000002"), ["refused HouseExists"])
        self.assertEqual(client.ask("house 4 00000000000d"), ["ok"])
        # a master moves
        self.assertEqual(client.ask("epoch 2 3 1 4"), ["ok 4"])
        self.until(lambda: client.ask("@4 look 2 lpr A") == ["end 0"])
        self.assertEqual(client.ask("delete /.:/print/lpr")[0][-12:], "00000000000c")
        # the ledger is lost: nothing is numbered until it is counted again
        os.unlink(f"{self.room}/console")
        client = self.again(1, 3, 4)
        self.assertEqual(client.ask("mkdir 1 1 other 1"), ["refused NoDirectory"])
        self.assertEqual(client.ask("epoch 1 1 3 4"), ["refused NoDirectory"])
        if client.ask("@1 directories")[-1] == "end 2":
            self.assertEqual(client.ask("recount"), ["ok 2"])
            self.assertEqual(client.ask("epoch 2 1 3 4"), ["ok 5"])
            self.assertEqual(client.ask("mkdir 1 1 other 1")[0][:5], "ok 3 ")


class DoorsTest(Room):
    """Doors of several machines. (They are all here, and `door-peer` is the whole line between.)"""

    def reach(self, name: str, house: int, by: int) -> str:
        """The table of a house behind the door of this name, which knows the one that asks by this house."""
        return f'[house.{house}]\nvia = "{sys.executable} {ROOT}/tools/door-peer {self.room}/{name}.p{by}"'

    def peer(self, name: str, house: int, *classes: str) -> str:
        words = ", ".join(f'"{word}"' for word in ("questions", "updates", "messages", *classes))
        return f'[peer.{house}]\nsocket = "{name}.p{house}"\nallow = [{words}]'

    def two(self, *classes: str) -> tuple[Client, Client]:
        """Machines a and b, with houses 1 and 2. The console is a's; b may send it lines of these classes, too."""
        head = "console = 1\nskulk_every = 1"
        tail = "\n".join([self.reach("b", 2, 1), self.peer("a", 2, *classes)])
        one = self.open("a", (1,), f'{head}\nledger = "a.console"', tail)
        two = self.open("b", (2,), head, "\n".join([self.reach("a", 1, 2), self.peer("b", 1, "operation")]))
        for client in (one, two):
            self.until(lambda client=client: self.up(client, 1) and self.up(client, 2))
            for house in (1, 2):
                self.until(lambda client=client, house=house: client.ask(f"@{house} dump 1") == ["refused NoHouse"])
        return one, two

    def test_two_machines(self) -> None:
        one, two = self.two("operation")
        for line in ("house 1 00000000000a", "house 2 00000000000b", "root 1 2"):
            self.assertEqual(one.ask(line), ["ok"], line)
        self.until(lambda: two.ask("@2 dump 1")[-1] == "end")
        # (b sends its command to the console, and that sends the line to b)
        self.assertEqual(two.ask("mkdir 2 1 sub 2"), ["refused NotMaster"])
        self.assertEqual(one.ask("epoch 1 1 s2"), ["ok 2"])
        self.until(lambda: "2:1:s" in two.ask("@2 dump 1")[0])
        self.assertEqual(two.ask("mkdir 2 1 sub 2")[0][:5], "ok 2 ")
        self.assertEqual(two.ask(f"export /.:/sub/lpr {INTERFACE} {BINDING} -"), ["ok 2"])
        line = f"import low /.:/sub/lpr {INTERFACE} - ncacn_ip_tcp"
        self.until(lambda: one.ask(line) == [f"binding {BINDING}", "end 1"])
        self.assertEqual(one.ask("mkdir 1 1 other 1")[0][:5], "ok 3 ")
        self.until(lambda: one.ask("@1 dump 1") == two.ask("@2 dump 1"))
        # b is gone: the import of a group says what it did not reach
        self.assertEqual(one.ask("groupadd /.:/all /.:/sub/lpr"), ["ok 2"])
        self.doors[1].kill()
        self.doors[1].wait()
        self.until(lambda: not self.up(one, 2))
        self.assertEqual(one.ask(f"import low /.:/all {INTERFACE} - ncacn_ip_tcp"), ["unreached 2", "end 0"])
        self.assertEqual(one.ask("create /.:/sub/a"), ["refused Unreachable 2"])

    def test_another_machine_forges_nothing(self) -> None:
        one, two = self.two()
        for line in ("house 1 00000000000a", "house 2 00000000000b", "root 1 2"):
            self.assertEqual(one.ask(line), ["ok"], line)
        for line in ("epoch 1 1", "mkdir 1 1 sub 1"):
            self.assertEqual(two.ask(line), ["refused Forbidden"])
        stream = Client(f"{self.room}/a.p2")
        self.assertEqual(stream.ask(f"@1 take {MESSAGE}"), ["refused Forbidden"])
        # (its own messages it may bring, and the house says what they are: this one has a stamp of house 1, which gave
        # none)
        self.assertEqual(stream.ask(f"@1 take {MESSAGE[:12]}02{MESSAGE[14:]}"), ["refused Restored 1@00000000000a"])
        self.assertIn("the door of house 2 may not send epoch 1 1", self.log("a"))

    def machine(self, number: int) -> Client:
        """The machine of an example's cell file, with folders of its own, and a `ssh` that does what `authorized_keys`
        says."""
        own = f"{self.room}/r{number}"
        os.makedirs(own)
        with open(f"{ROOT}/examples/live/host{number}.toml", encoding="ascii") as file:
            text = file.read().replace("/var/lib/cds", own).replace("/run/cds", own)
        with open(f"{own}/cell.toml", "w", encoding="ascii") as file:
            file.write(f'program = "{self.house}"\nclerk = "{self.clerk}"\n{text}')
        with open(f"{own}/ssh", "w", encoding="ascii") as file:
            peer = f'{sys.executable} {ROOT}/tools/door-peer "{self.room}/r${{host#cds@host}}/peer{number}"'
            file.write(f"#!/bin/sh\nfor host; do :; done\nexec {peer}\n")
        os.chmod(f"{own}/ssh", 0o755)
        with open(f"{own}/errors", "wb") as errors:
            how = {**os.environ, "PATH": f"{own}:{os.environ['PATH']}"}
            words = [sys.executable, f"{ROOT}/tools/door", f"{own}/cell.toml"]
            self.doors.append(subprocess.Popen(words, stderr=errors, env=how))
        return Client(f"{own}/door")

    def test_the_examples_of_three_machines(self) -> None:
        one, two, three = (self.machine(number) for number in (1, 2, 3))
        for number in (1, 2, 3):
            self.until(lambda number=number: one.ask(f"@{number} dump 1") == ["refused NoHouse"])
        for number in (1, 2, 3):
            self.assertEqual(one.ask(f"house {number} 00000000000{number}"), ["ok"])
        self.assertEqual(one.ask("root 1 2 3"), ["ok"])
        self.until(lambda: three.ask("@3 dump 1")[-1] == "end")
        self.assertEqual(two.ask(f"export /.:/lpr {INTERFACE} {BINDING} -"), ["ok 2"])
        line = f"import low /.:/lpr {INTERFACE} - ncacn_ip_tcp"
        self.until(lambda: three.ask(line) == [f"binding {BINDING}", "end 1"])
        self.assertEqual(three.ask("epoch 1 1 2"), ["ok 2"])
        self.assertEqual(two.ask("@3 clock 5"), ["refused Forbidden"])

    def test_a_line_that_hangs(self) -> None:
        client = self.open(head="console = 1\npatience = 1.5", tail='[house.2]\nvia = "sleep 20"')
        self.make(client)
        self.assertEqual(client.ask("@2 dump 1"), ["refused Down"])
        began = time.monotonic()
        self.assertEqual(client.ask("@2 dump 1"), ["refused Down"])
        self.assertEqual(client.ask("read high /.:/a A"), ["refused NoSuchName 0"])
        self.assertLess(time.monotonic() - began, 1.2)


class ClientsTest(Room):
    """The clients that come with the door."""

    def nsi(self, *words: str) -> tuple[int, str]:
        words = (f"{ROOT}/nsi", "--socket", f"{self.room}/cell.door", *words)
        ran = subprocess.run(words, capture_output=True, text=True, check=False)
        return ran.returncode, ran.stdout

    def test_nsi(self) -> None:
        self.make(self.open())
        self.assertEqual(self.nsi("export", "/.:/lpr", INTERFACE, BINDING, "-"), (0, "ok 2\n"))
        status, text = self.nsi("--json", "import", "low", "/.:/lpr", INTERFACE, "-", "ncacn_ip_tcp")
        due = {"status": "end", "words": ["1"], "items": [["binding", BINDING]]}
        self.assertEqual((status, json.loads(text)), (0, due))
        self.assertEqual(self.nsi("read", "low", "/.:/x", "A"), (1, "refused NoSuchName 0\n"))
        self.assertEqual(self.nsi("status")[0], 0)
        self.assertEqual([self.nsi(), self.nsi("a\nb"), self.nsi("# a")], [(3, "")] * 3)
        words = [f"{ROOT}/nsi", "--socket", f"{self.room}/none", "status"]
        gone = subprocess.run(words, capture_output=True, check=False)
        self.assertEqual(gone.returncode, 2)

    def test_an_alarm_reads_the_status(self) -> None:
        os.makedirs(f"{self.room}/h2")
        with open(f"{self.room}/h2/1", "wb") as file:
            file.write(b"no journal")
        client = self.open(houses=(1, 2))
        self.until(lambda: "house 2 is down" in self.log())
        status, text = self.nsi("status")
        self.assertEqual((status, "house 2 here down" in text), (4, True), text)
        self.assertEqual(self.nsi("--json", "status")[0], 4)
        os.unlink(f"{self.room}/h2/1")
        self.until(lambda: self.up(client, 2))
        self.assertEqual(self.nsi("status")[0], 0)
        self.doors[-1].kill()
        self.doors[-1].wait()
        self.assertEqual(self.nsi("status")[0], 2)

    def test_the_examples_in_c_and_in_a_shell(self) -> None:
        client = self.open()
        self.make(client)
        client.ask(f"export /.:/lpr {INTERFACE} {BINDING} -")
        words = ["import", "low", "/.:/lpr", INTERFACE, "-", "ncacn_ip_tcp"]
        examples = [[f"{ROOT}/examples/live/nsi.sh"]]
        if compiler := shutil.which("cc"):
            source = f"{ROOT}/examples/live/nsi.c"
            subprocess.run([compiler, "-Wall", "-Werror", "-o", f"{self.room}/nsi", source], check=True)
            examples.append([f"{self.room}/nsi"])
        how = {**os.environ, "CDS_DOOR": f"{self.room}/cell.door"}
        for example in examples:
            ran = subprocess.run([*example, *words], env=how, capture_output=True, text=True, check=False)
            self.assertEqual((ran.returncode, ran.stdout), (0, f"binding {BINDING}\nend 1\n"), ran)
            ran = subprocess.run([*example, "hop"], env=how, capture_output=True, text=True, check=False)
            self.assertEqual((ran.returncode, ran.stdout), (1, "fault UnknownCommand 1\n"))
            none = {**how, "CDS_DOOR": f"{self.room}/none"}
            gone = subprocess.run([*example, "hop"], env=none, capture_output=True, check=False)
            self.assertEqual(gone.returncode, 2, gone)


if __name__ == "__main__":
    unittest.main()
