"""Random lines for houses: updates, skulks, messages, questions, wrong lines, and what the console has to number."""

from __future__ import annotations

from random import Random

from cds.console import Console
from cds.processes import take_lines
from housing.net import Net

ATTRIBUTES = ["A", "Note", "CDS_Class"]
NAMES = ["a", "b", "lpr", "x" * 40]
MOST_DIRECTORIES = 5
WRONG = [
    "take 0201",
    "bogus",
    "skulk",
    "house 9 0000000000ff",
    "root 1 1",
    "mkdir 1 q",
    "take 0g",
    "epoch 1 2 1:1:m -",
    "clock 01",
]


class Job:
    """Lines that are one command, `line` as its record has it, and whether the console numbers it."""

    def __init__(self, lines: list[str], line: str | None = None, numbered: bool = False) -> None:
        self.lines = lines
        self.line = line or " ".join(lines[-1].split())
        self.numbered = numbered


def take_job(octets: str) -> Job:
    """The lines that give a house a message."""
    return Job(take_lines(octets), f"take {octets}")


class Workload:
    """The lines for these houses."""

    def __init__(self, random: Random, console: Console, net: Net, numbers: list[int]) -> None:
        self.random, self.console, self.net, self.numbers = random, console, net, numbers

    def others(self, house: int, share: float) -> list[str]:
        """Some of the other houses, as words."""
        chosen = [other for other in self.numbers if other != house and self.random.random() < share]
        return [("s" if self.random.random() < 0.4 else "") + str(other) for other in chosen]

    def numbered(self, house: int) -> Job | None:
        """A job that the console numbers, or None if this house can do none."""
        if not self.console.directories:
            return Job([" ".join(["root", *self.others(house, 0.8)])], numbered=True)
        directory = self.random.choice(list(self.console.directories))
        if self.random.random() < 0.3 and len(self.console.directories) < MOST_DIRECTORIES:
            name = f"dir{self.console.next_directory}"
            return Job([self.console.mkdir_line(directory, name, self.others(house, 0.6))], numbered=True)
        if house not in self.console.directories[directory][1]:
            return None
        return Job([self.console.epoch_line(directory, house, self.others(house, 0.7))], numbered=True)

    def value(self) -> str:
        """A value, now and then a long one."""
        digits = self.random.choice([2, 2, 4, 2048])
        return f"{self.random.getrandbits(7):0{digits}x}"

    def jobs(self, house: int) -> list[Job]:
        """A job, or two that belong together."""
        octets = self.net.next_for(house) if self.random.random() < 0.45 else None
        if octets:
            return [take_job(octets)]
        if self.random.random() < 0.05:
            directory = self.directory(house)
            name = self.random.choice(NAMES)
            asks = [f"look {directory} {name} {self.random.choice(ATTRIBUTES)}", f"show low {directory} {name}"]
            return [Job([f"dump {directory}"]), Job([self.random.choice(asks)])]
        # (pieces of a message, which the line after them makes the house forget)
        line = self.line(house)
        pieces = ["more 0202"] * (self.random.random() < 0.04 and not line.startswith("take"))
        return [Job([*pieces, line])]

    def directory(self, house: int) -> int:
        """Mostly one that the house accepts updates of."""
        directories = self.console.directories
        kinds = {directory: members.get(house, (0, "r"))[1] for directory, (_, members) in directories.items()}
        able = [directory for directory, kind in kinds.items() if kind != "r"]
        return self.random.choice(able if able and self.random.random() < 0.9 else list(directories) or [1])

    def line(self, house: int) -> str:
        """A line that is no message."""
        directory = self.directory(house)
        name, attribute = self.random.choice(NAMES), self.random.choice(ATTRIBUTES)
        change = self.random.choice(["add", "remove", "put"])
        lines = {
            f"create {directory} {name}": 20,
            f"create {directory} {name}{self.random.randrange(30)}": 5,
            f"delete {directory} {name}": 8,
            f"{change}  {directory} {name} {attribute} {self.value()}": 32,
            f"clear {directory} {name} {attribute}": 4,
            f"link {directory} {name}l /.:/lpr": 2,
            f"clock {self.random.randrange(2000)}": 4,
            f"skulk {directory}": 24,
            f"repoint {directory} dir2 1 {self.numbers[-1]}": 2,
            f"dump {directory}": 3,
            f"look {directory} {name} {attribute}": 2,
            f"show {self.random.choice(['low', 'high'])} {directory} {name}": 2,
            f"status {directory}": 1,
            "directories": 1,
            "image": 1,
            self.wrong(house): 5,
        }
        return self.random.choices(list(lines), list(lines.values()))[0]

    def wrong(self, house: int) -> str:
        """A line that is wrong, or a message that is."""
        octets = "".join(f"{self.random.getrandbits(8):02x}" for _ in range(self.random.randrange(1, 40)))
        damaged = self.net.next_for(house) if self.random.random() < 0.3 else None
        if damaged and len(damaged) < 3000:
            at = self.random.randrange(len(damaged))
            octets = damaged[:at] if at % 2 == 0 and at else damaged + "00"
        return self.random.choice([*WRONG, f"take {octets}", f"take {octets}"])
