"""Random scripts: every command of a form, and messages that come late, twice or never."""

from __future__ import annotations

import re
from collections.abc import Callable, Sequence
from random import Random
from typing import TypeVar

from cds.answers import serials_of
from cds.commands import STOPPED
from cds.programs import ran
from cds.records import PROTOCOLS
from fuzzing.records import Record, damaged, rarely

T = TypeVar("T")
# How often a command is made, and what makes its words.
Maker = tuple[int, Callable[[], str]]

# Few of each, so that commands meet.
HOUSES = range(1, 6)
SIMPLE_NAMES = ["a", "b", "lpr", "lpr", "sub", "a" * 254]
ATTRIBUTES = [
    "A",
    "B",
    "CDS_Class",
    "CDS_Towers",
    "RPC_ObjectUUIDs",
    "RPC_Group",
    "RPC_Profile",
    "CDS_LinkTarget",
    "CDS_Replicas",
]
UUIDS = [f"a0000000-0000-0000-0000-{number:012x}" for number in range(1, 4)] + ["00000000-0000-0000-0000-000000000000"]
VERSIONS = ["1.0", "1.0", "1.0", "1.1", "1.1", "1.65535", "2.0"]
TIMES = ["0", "1", "7", "100", "4000000000", "18446744073709551613", "18446744073709551615"]
VERSION_OPTIONS = ["all", "compatible", "exact", "major_only", "upto"]

# Names of which a walk makes ever longer ones, or too long ones, or the same again, once begin_links has made the
# links.
LONG = "a" * 254
LINKS = {"long": f"/.:/{LONG}/{LONG}/{LONG}", "grow": "/.:/grow/x", "loop": "/.:/loop"}
LINKED = [f"/.:/long/{LONG}/x", "/.:/grow/x", "/.:/loop", "/.:/loop/x"]
# A member of 999 octets, which an annotation of three makes too long.
LONG_MEMBER = f"/.:/{LONG}/{LONG}/{LONG}/{'b' * 230}"


class Script:
    """A script that is being made: its lines, the masters and secondary houses of its directories, and the messages
    that may be there."""

    def __init__(self, random_source: Random, form: str) -> None:
        self.random, self.form = random_source, form
        self.lines: list[str] = []
        self.masters: dict[int, int] = {1: 1}
        self.secondaries: dict[int, list[int]] = {}
        self.members_of: dict[int, list[int]] = {1: []}
        # The messages that were posted, where some of them go, and those that were delivered.
        self.messages: list[int] = []
        self.receivers: dict[int, int] = {}
        self.delivered: set[int] = set()
        # Octets of records that answers told, and the words of commands that were not refused.
        self.octets: list[str] = []
        self.accepted: list[list[str]] = []

    def one(self, *options: T) -> T:
        """One of these."""
        return self.random.choice(options)

    def house(self) -> str:
        """A house, mostly one that is there."""
        return str(self.random.choice(HOUSES)) if not rarely(self.random) else self.one("9", "255")

    def houses(self) -> str:
        """A master and others, now and then one twice."""
        found = self.random.sample(HOUSES, self.random.randint(1, len(HOUSES)))
        return " ".join(map(str, found + found[:1] * rarely(self.random)))

    def members(self) -> str:
        """A master and others, of which some are secondary; now and then the master is said to be."""
        master, *others = self.houses().split()
        return " ".join(["s" * rarely(self.random) + master, *(self.one("", "s") + it for it in others)])

    def directory(self) -> str:
        """A directory, mostly one that is there."""
        return str(self.random.randint(1, len(self.masters) + rarely(self.random)))

    def at_master(self) -> str:
        """A house and a directory, of which it mostly is the master."""
        directory = self.directory()
        return f"{self.house() if rarely(self.random, 6) else self.masters.get(int(directory), 1)} {directory}"

    def at_accepting(self) -> str:
        """A house and a directory, of which it mostly is the master or a secondary member."""
        house, directory = self.at_master().split()
        return f"{self.one(house, *map(str, self.secondaries.get(int(directory), [])))} {directory}"

    def simple(self) -> str:
        """A simple name."""
        return self.random.choice(SIMPLE_NAMES)

    def name(self) -> str:
        """A full name, mostly of one component."""
        if rarely(self.random, 25):
            return self.random.choice(LINKED)
        return "/.:" + "".join(f"/{self.simple()}" for _ in range(self.random.choices([0, 1, 2, 3], [1, 40, 12, 2])[0]))

    def value(self) -> str:
        """A value."""
        return self.random.choice(["00", "01", "ff", "5072", "0A0b", f"{self.random.randrange(256):02x}"])

    def interface(self) -> str:
        """An interface."""
        return f"{self.random.choice(UUIDS[:2])}:{self.random.choice(VERSIONS)}"

    def binding(self) -> str:
        """A binding, now and then with a wrong port."""
        port = self.one("", "[1025]", "[1]", "[0]")
        return f"{self.random.choice([*PROTOCOLS])}:10.0.0.{self.random.randint(1, 3)}{port}"

    def some(self, make: Callable[[], str], least: int = 0) -> str:
        """Some of these with commas between, or `-` for none."""
        return ",".join(make() for _ in range(self.random.randint(least, 3))) or "-"

    def object(self) -> str:
        """A UUID of an object."""
        return self.random.choice(UUIDS[:3] + UUIDS[3:] * rarely(self.random))

    def wanted(self) -> str:
        """What an import asks for."""
        protocols = self.random.sample([*PROTOCOLS], self.random.randint(1, 2))
        return f"{self.interface()} {self.one('-', '-', '-', *UUIDS)} {','.join(protocols)}"

    def message(self) -> str:
        """The serial number of a message: mostly of the first ones that were not delivered yet."""
        waiting = [it for it in self.messages if it not in self.delivered]
        if not self.messages or rarely(self.random):
            return str(self.random.randint(1, 9))
        found = self.random.choice(waiting[:3] if waiting and not rarely(self.random, 6) else self.messages)
        self.delivered.add(found)
        return str(found)

    def damaged_octets(self) -> str:
        """Octets of a message that is made field by field, or of a record that an answer told, mostly damaged."""
        if self.random.randrange(2):
            return Record(self.random).message().hex()
        known = self.random.choice(self.octets) if self.octets else "0207"
        known = known[: 2 * 2044]
        found = bytearray.fromhex(known)
        for _ in range(self.random.randint(0, 2)):
            found = damaged(self.random, found)
        return bytes(found[:2044]).hex() or "00"

    def command(self) -> str:
        """A command, those that make something and those of messages more often than others."""
        makers = self.makers()
        word = self.random.choices([*makers], [weight for weight, _ in makers.values()])[0]
        return f"{word} {makers[word][1]()}"

    def makers(self) -> dict[str, Maker]:
        """Of each command how often it is made, and what makes its words."""
        at = f"{self.at_accepting()} {self.simple()}"
        ask = f"{self.house()} {self.one('low', 'high')}"
        makers: dict[str, Maker] = {
            "house": (1, lambda: f"{self.house()} {self.random.randint(10, 16):012x}"),
            "clock": (2, lambda: f"{self.house()} {self.random.choice(TIMES[: 5 + 2 * rarely(self.random, 4)])}"),
            "root": (1, self.members),
            "mkdir": (2, lambda: f"{at} {self.members()}"),
            "repoint": (1, lambda: f"{at} {self.members() if rarely(self.random, 20) else self.houses()}"),
            "create": (6, lambda: at),
            "link": (3, lambda: f"{at} {self.name()}"),
            "delete": (4, lambda: at),
            "add": (8, lambda: f"{at} {self.random.choice(ATTRIBUTES)} {self.value()}"),
            "remove": (4, lambda: f"{at} {self.random.choice(ATTRIBUTES)} {self.value()}"),
            "put": (2, lambda: f"{at} {self.random.choice(ATTRIBUTES)} {self.value()}"),
            "clear": (2, lambda: f"{at} {self.random.choice(ATTRIBUTES)}"),
            "epoch": (2, self.new_epoch),
            "skulk": (4, self.at_master),
            "deliver": (30, self.message),
            "lose": (3, self.message),
            "crash": (1, self.house),
            "start": (5, self.house),
            "read": (4, self.read),
            "readlink": (2, lambda: f"{ask} {self.name()}"),
            "export": (
                8,
                lambda: f"{self.name()} {self.interface()} {self.some(self.binding)} {self.some(self.object)}",
            ),
            "unexport": (
                2,
                lambda: self.undone("export", [0, 1, 3])
                or f"{self.name()} {self.one('-', self.interface())} {self.some(self.object)}",
            ),
            "groupadd": (5, lambda: f"{self.name()} {self.name()}"),
            "groupdel": (1, lambda: self.undone("groupadd", [0, 1]) or f"{self.name()} {self.name()}"),
            "profadd": (4, self.element),
            "profdel": (
                1,
                lambda: self.undone("profadd", [0, 1, 2])
                or f"{self.name()} {self.one('default', self.interface())} {self.name()}",
            ),
            "import": (8, lambda: f"{ask} {self.name()} {self.wanted()}"),
            "dump": (2, lambda: f"{self.house()} {self.directory()}"),
            "octets": (2, lambda: self.one(f"msg {self.message()}", f"house {self.house()}")),
            "decode": (2, self.damaged_octets),
        }
        if self.form == "journal":
            makers |= {"image": (3, self.house), "stop": (20, self.stopped)}
        elif self.form == "clerk":
            makers |= {
                "read": (40, self.read),
                "create": (12, lambda: at),
                "delete": (12, lambda: at),
                "crash": (3, self.house),
            }
        elif self.form == "inquire":
            makers |= {
                "grouplist": (8, lambda: f"{ask} {self.named('groupadd')}"),
                "entrylist": (8, lambda: f"{ask} {self.named('export')}"),
                "proflist": (16, lambda: f"{ask} {self.named('profadd')} {self.choice()}"),
                "lookup": (12, lambda: f"{ask} {self.offered()} {self.wanted()} {self.one(1, 1, 2, 3, 65535)}"),
            }
        return makers

    def read(self) -> str:
        """A question for values; of a form with a clerk mostly at low confidence and of few names and attributes."""
        if self.form != "clerk" or rarely(self.random, 6):
            return f"{self.house()} {self.one('low', 'high')} {self.name()} {self.random.choice(ATTRIBUTES)}"
        made = [words[3] for words in self.accepted if words[:3:2] == ["create", "1"]]
        name = f"/.:/{self.random.choice(made)}" if made and not rarely(self.random, 4) else self.name()
        house, confidence = self.one("1", "1", self.house()), self.one("low", "low", "low", "high")
        return f"{house} {confidence} {name} {self.one('A', 'B', 'C')}"

    def stopped(self) -> str:
        """A house that loses its power, mostly the one that has to act, and the command inside which it does."""
        command = self.command()
        while command.split()[0] not in STOPPED:
            command = self.command()
        first, *words = command.split()
        actor = words[1] if first == "epoch" else self.receiver(words[0]) if first == "deliver" else words[0]
        house = self.house() if rarely(self.random, 10) else actor
        return f"{house} {self.random.randint(1, 4)} {self.one('keep', 'keep', 'drop', 'torn')} {command}"

    def receiver(self, message: str) -> str:
        """The house that gets a message, if that was told, or any."""
        return str(self.receivers.get(int(message)) or self.house())

    def done(self, command: str) -> list[str] | None:
        """The words of an earlier command of this kind that was not refused, mostly, if there is one."""
        found = [words for words in self.accepted if words[0] == command]
        return self.random.choice(found) if found and not rarely(self.random, 4) else None

    def named(self, command: str) -> str:
        """The name of an entry that an earlier command of this kind made, mostly."""
        return (self.done(command) or ["", self.name()])[1]

    def offered(self) -> str:
        """The name of an entry with bindings, or of a group, mostly."""
        return self.named(self.one("export", "groupadd"))

    def choice(self) -> str:
        """Which elements of a profile are asked for."""
        kind = self.one("all", "default", "byif", "byif", "bymbr", "byboth")
        _, _, interface, member, *_ = self.done("profadd") or ["", "", self.interface(), self.name()]
        interface = self.interface() if interface == "default" or rarely(self.random, 3) else interface
        version = self.random.choice(VERSION_OPTIONS)
        words = [interface, version] if kind in ("byif", "byboth") else ["-", "all"]
        return " ".join([kind, *words, member if kind in ("bymbr", "byboth") else "-"])

    def undone(self, command: str, places: Sequence[int]) -> str | None:
        """The words at these places of an earlier command, each second time."""
        earlier = [it.split()[1:] for it in self.lines if it.startswith(f"{command} ")]
        return (
            " ".join(self.random.choice(earlier)[at] for at in places) if earlier and self.random.randrange(2) else None
        )

    def new_epoch(self) -> str:
        """A directory and its new members, of which the master mostly is the one that it has."""
        directory = self.directory()
        master = self.masters.get(int(directory), 1)
        others = [f"{self.one('', 's')}{it}" for it in HOUSES if it != master and self.random.randrange(2)]
        return f"{directory} {self.members() if rarely(self.random, 3) else ' '.join([str(master), *others])}"

    def element(self) -> str:
        """A new element of a profile; some are wrong."""
        interface, priority = self.random.choice(
            [(self.interface(), self.random.randint(0, 8)), ("default", self.one(8, 8, 8, 3))]
        )
        member = LONG_MEMBER if rarely(self.random) else self.name()
        return f"{self.name()} {interface} {member} {priority} {self.one('-', 'note')}"

    def begin_links(self) -> None:
        """Links that lead nowhere, each at the master of the root."""
        self.lines += [f"link {self.masters[1]} 1 {name} {target}" for name, target in LINKS.items()]

    def deliver_all(self) -> None:
        """Delivers all that waits, mostly in order, so that skulks go on."""
        waiting = [it for it in self.messages if it not in self.delivered][-40:]
        if rarely(self.random, 4):
            self.random.shuffle(waiting)
        self.delivered.update(waiting)
        self.lines += [f"deliver {it}" for it in waiting]

    def spend_stamps(self) -> None:
        """Sets each clock to the last time but a few, and spends them."""
        self.lines += [f"clock {house} {18446744073709551615 - self.random.randrange(4)}" for house in HOUSES]
        self.lines += [self.command() for _ in range(20)]
        self.lines += [
            f"{word} {self.masters[1]} 1 {self.simple()} 1" for word in ["mkdir", "repoint"] for _ in range(3)
        ]

    def part(self) -> None:
        """A part of the script: some commands, or deliveries of what waits."""
        if rarely(self.random, 3):
            self.deliver_all()
        elif rarely(self.random, 60):
            self.spend_stamps()
        else:
            self.lines += [self.command() for _ in range(self.random.randint(1, 10))]
            # Houses that lost their power come back, mostly at once.
            stopped = [it.split()[1] for it in self.lines[-10:] if it.startswith("stop ")]
            self.lines += [f"start {it}" for it in stopped if not rarely(self.random, 3)]

    def begin(self) -> None:
        """Houses and directories, so that commands find some."""
        self.lines += [f"house {number} {number + 9:012x}" for number in HOUSES if not rarely(self.random, 60)]
        self.lines += [f"root {self.members()}"]
        for name in self.random.sample(["sub", "b"], self.random.randint(0, 2)):
            self.lines.append(f"mkdir {self.random.choice(HOUSES)} 1 {name} {self.members()}")

    def learn(self, answers: str) -> None:
        """Takes from the answers which messages and directories there are, and octets of records."""
        self.messages = [int(number) for row in re.findall(r"posted ([\d ]+)", answers) for number in row.split()]
        self.octets = re.findall(r"ok \d+ ([0-9a-f]{2,})$", answers, re.M)[-20:]
        told = re.findall(r"^(\d+) ok ?(.*)$", answers, re.M)
        self.accepted = [self.lines[int(number) - 1].split() for number, _ in told]
        for number, answer in told:
            command, *words = self.lines[int(number) - 1].split()
            if command == "stop":
                command, *words = ["lose", "0"] if answer == "stopped before" else words[3:]
            before = self.members_of.get(int(words[0]), []) if command == "epoch" else []
            if command == "root":
                self.list_members(1, words)
            elif command == "mkdir":
                self.list_members(int(answer.split()[0]), words[3:])
            elif command == "epoch":
                self.list_members(int(words[0]), words[1:])
            posted = serials_of(f" {answer}")
            self.receivers |= dict(zip(posted, self.sent_to(command, words, before, len(posted)) * len(posted)))

    def list_members(self, directory: int, words: list[str]) -> None:
        """These words name the members of the directory from now on."""
        self.masters[directory] = int(words[0])
        self.secondaries[directory] = [int(word[1:]) for word in words[1:] if word.startswith("s")]
        self.members_of[directory] = sorted(int(word.removeprefix("s")) for word in words)

    def sent_to(self, command: str, words: list[str], before: list[int], count: int) -> list[int]:
        """The houses that so many messages of a command go to, as far as its words tell; those of a delivery as if in
        directory 1."""
        is_at_house = command in STOPPED and command not in ("root", "epoch", "deliver") or command == "mkdir"
        directory = int(words[0]) if command == "epoch" else int(words[1]) if is_at_house else 1
        house = int(words[0]) if is_at_house else self.masters.get(directory, 1)
        others = [it for it in self.members_of.get(directory, []) if it != house]
        left = [it for it in before if it not in self.members_of.get(directory, [])]
        return [house] if command == "deliver" and count == 1 or not others + left else others + left

    def text(self) -> bytes:
        """Its octets."""
        return "".join(f"{line}\n" for line in self.lines).encode()


def script(random_source: Random, plain: str, words: list[str]) -> bytes:
    """A script for a form. After each part of it the plain program tells what there is."""
    made = Script(random_source, words[0])
    made.begin()
    if rarely(random_source, 4):
        made.learn(ran([plain, *words], made.text())[1].decode(errors="replace"))
        made.begin_links()
    for _ in range(random_source.randint(1, 30)):
        made.part()
        made.learn(ran([plain, *words], made.text())[1].decode(errors="replace"))
    return made.text()
