"""A cell at a prompt, over a door of its own: what its commands do. They are those of scripts, and few others."""
from __future__ import annotations

import collections
import itertools
import os
import random
import subprocess
import time
from collections.abc import Callable
from typing import Any

from doors import executables
from doors.cellfile import LONGEST_PATH, CellFile
from doors.door import Door
from doors.houses import Answer, Here
from doors.lines import ASKS, NUMBERED, PLANS
from doors.numbers import Refused, house_of, order
from doors.post import Post
from housing.net import Net

HELP = """The commands are those of scripts (docs/SCRIPT.md). H and M are houses, R.. further ones (s3: secondary), D a
directory:
  house H NODE, clock H TIME, root M R.., mkdir H D S H R.., repoint H D S M R.., epoch D M R.., skulk H D
  create H D S, link H D S NAME, delete H D S, add|remove|put H D S ATTR VALUE, clear H D S ATTR
  dump H D, look H D S ATTR (the values that show), image H
  audit D             whether the replicas of each two houses can agree, by their images (docs/FORMATS.md)
  read H C NAME ATTR, import H C NAME IF OBJ PS, export NAME IF BS OS and the others of the name service
  crash H [COMMAND]   kills the process (SIGKILL), just after it was given the command, which is one of H
  start H             starts it again: it says its last turn, with its messages
  messages            those that wait; deliver N; lose N; deliver: all of them
  status              which houses are up, and how many messages wait for each
  help; quit (or the end of the input, or Ctrl-C): ends the processes. All that was answered is kept in the folder"""
# What has its house as the first of its words, and is a line of that house.
OF_HOUSE = "clock repoint skulk create link delete add remove put clear dump look image".split()
# So long a house may be silent, in seconds.
LONGEST = 60.0


class HeldPost(Post):
    """Messages that wait until the prompt delivers them: each has a serial number. Some get lost in the net before."""

    def __init__(self, post: Post, net: Net) -> None:
        super().__init__(post.houses, post.counts, post.note, post.mark)
        self.net, self.serial = net, 0
        # {serial: (to, octets)}, and the serials that nobody was told of yet.
        self.held: dict[int, tuple[int, str]] = {}
        self.fresh: list[int] = []

    def post(self, to: int, octets: str) -> None:
        self.serial += 1
        self.fresh.append(self.serial)
        self.net.post([(to, octets)])
        if self.net.messages:
            self.held[self.serial] = self.net.messages.pop()

    def deliver(self, to: int) -> None:
        """The prompt does."""

    def posted(self) -> str:
        """The words that say what was posted."""
        fresh, self.fresh = self.fresh, []
        return " posted " + " ".join(map(str, fresh)) if fresh else ""


def cell_file(folder: str) -> CellFile:
    """The cell of all houses that a folder has."""
    names = [name[1:] for name in os.listdir(folder) if name[0] == "h" and name[1:].isdigit()]
    houses = {str(int(name)): {"folder": f"h{int(name)}"} for name in names if 0 < int(name) < 256}
    table: dict[str, Any] = {"house": houses, "skulk_every": 0, "kill_after": 1e9}
    table |= {"patience": LONGEST, "patience_of_turns": LONGEST}
    if len(os.path.abspath(folder)) + len("/door") > LONGEST_PATH:
        table["socket"] = f"/tmp/cell-{os.getpid()}"
    return CellFile(os.path.abspath(folder), table)


class Cell:
    """`folder` has the file `console` and a folder `hN` of each house N. `say` gets each line of an answer."""

    def __init__(
        self, folder: str, programs: tuple[list[str], list[str]], net: Net, delay: int, say: Callable[[str], None]
    ) -> None:
        self.folder, self.net, self.delay, self.say = folder, net, delay, say
        os.makedirs(folder, exist_ok=True)
        file = cell_file(folder)
        file.program, file.clerk = programs
        file.console = file.console or 1
        self.folders, file.here = dict(file.here), {1: ""}
        self.door = Door(file, lambda text: None)
        file.here = {}
        self.post = HeldPost(self.door.post, net)
        self.door.post = self.post
        self.is_held = self.sets_clock = False
        # The lines that were typed and not done yet, and what is called when one is done.
        self.lines: collections.deque[str | None] = collections.deque()
        self.on_done: Callable[[], None] = lambda: None

    @property
    def ledger(self) -> Any:
        assert self.door.numbers
        return self.door.numbers.ledger

    # ---- houses

    def begin(self) -> None:
        """Starts all houses of the folder, and opens the door."""
        self.door.begin()
        for house in sorted(self.folders):
            try:
                self.start(house)
            except Refused as reason:
                self.say(str(reason))
        self.deliver_all()

    def houses(self) -> list[int]:
        return sorted(self.door.houses)

    def path(self, number: int) -> str:
        return f"{self.folder}/h{number}"

    def house(self, number: int) -> Here:
        """A house that is up."""
        house = self.door.houses.get(number)
        if not house:
            raise Refused("refused NoHouse")
        if not isinstance(house, Here) or not house.is_up:
            raise Refused("refused Down")
        return house

    def start(self, number: int) -> None:
        house = self.door.houses.get(number)
        if house and house.is_up:
            raise Refused(f"house {number} is up")
        if house:
            house.begin()
        else:
            self.door.add_here(number, self.path(number), restarts=False, sets_clock=self.sets_clock)
        started = self.door.houses[number]
        self.door.loop.run_until(lambda: started.is_up or not started.stream)
        if not isinstance(started, Here) or not started.is_up:
            raise Refused(f"house {number} is down: {started.why}")
        self.say(f"house {number}: {', '.join(started.start[1:] or started.start)}{self.post.posted()}")

    def close(self) -> None:
        self.door.close()

    def waited(self, begin: Callable[[Callable[[Answer], None]], None]) -> Answer:
        """What is heard of what begins."""
        heard: list[Answer] = []
        begin(heard.append)
        self.door.loop.run_until(lambda: bool(heard))
        return heard[0]

    def ask(self, number: int, line: str) -> list[str]:
        """The answer of a house, and the words of its messages at its end."""
        house = self.house(number)
        answer = self.waited(lambda hear: house.ask(line, hear))
        if answer is None:
            raise Refused(f"house {number} is down: {house.why}")
        return [*answer[:-1], answer[-1] + self.post.posted()]

    # ---- messages

    def deliver(self, serial: int) -> None:
        to, octets = self.post.held[serial]
        answer = self.ask(to, f"take {octets}")
        del self.post.held[serial]
        self.say(f"  {serial} to {to}: {answer[-1]}")

    def due(self) -> list[int]:
        """The messages to houses that are reached."""
        reached = {number for number, house in self.door.houses.items() if house.is_reached}
        return [serial for serial, (to, _) in self.post.held.items() if to in reached]

    def deliver_all(self) -> None:
        """Delivers what waits, and what that posts, but for what is delayed until a later command. Houses that are
        down get nothing."""
        delayed: set[int] = set()
        while due := [serial for serial in self.due() if serial not in delayed]:
            if self.net.chance(self.delay):
                delayed.add(due[0])
            else:
                self.deliver(due[0])

    def message(self, words: list[str]) -> None:
        """`messages`, `deliver` and `lose`."""
        held = self.post.held
        if words[0] == "messages":
            for serial, (to, octets) in held.items():
                self.say(f"  {serial} to {to}: {len(octets) // 2} octets")
        elif len(words) > 1 and (not words[1].isdigit() or int(words[1]) not in held):
            raise Refused("refused NoMessage")
        elif words[0] == "lose":
            del held[int(words[1])]
            self.say("ok")
        elif len(words) > 1:
            self.deliver(int(words[1]))

    # ---- commands

    def image(self, number: int) -> bytes:
        lines = self.ask(number, "image")
        return bytes.fromhex("".join(line.removeprefix("octets ") for line in lines[:-1]))

    def audit(self, directory: str) -> None:
        """What `cdsreplay audit` says of the images of each two houses that are up."""
        images = {number: self.image(number) for number, house in sorted(self.door.houses.items()) if house.is_up}
        try:
            command = [executables.replayer(), "audit", directory]
        except executables.NoProgram as reason:
            raise Refused(f"there is no cdsreplay: {reason}") from None
        for one, other in itertools.combinations(images, 2):
            done = subprocess.run(command, input=images[one] + images[other], stdout=subprocess.PIPE, check=False)
            if not done.stdout:
                raise Refused("fault BadWord 2", "audit D")
            self.say(f"{one} {other}: {done.stdout.decode().rstrip()}")

    def order(self, words: list[str]) -> tuple[int, str]:
        """The house that does a command, and its line there."""
        if words[0] in OF_HOUSE and len(words) > 1:
            return house_of(words[1]), " ".join([words[0], *words[2:]])
        if words[0] in NUMBERED:
            return order(self.ledger, words)
        raise Refused("no such command, or too few words: help lists them")

    def is_known(self, words: list[str]) -> None:
        """The console numbers one line at a time, since the next number depends on what comes of it."""
        pending = self.ledger.pending
        up = [number for number, house in self.door.houses.items() if house.is_up]
        if pending and words[0] in (*NUMBERED, "house") and pending[0] not in up:
            raise Refused(f"start {pending[0]} first: whether it did {pending[1]} is not known")

    def do(self, words: list[str]) -> None:
        """Has a house, or the clerk, do a command."""
        if words[0] in (*ASKS, *PLANS):
            self.tell(self.by_clerk(words))
        elif words[0] in NUMBERED or words[0] == "house":
            self.is_known(words)
            self.tell(self.waited(lambda hear: self.numbered(words, hear)))
        else:
            for line in self.ask(*self.order(words)):
                self.say(line)

    def numbered(self, words: list[str], hear: Callable[[Answer], None]) -> None:
        if self.door.numbers:
            self.door.numbers.command(words, hear)

    def by_clerk(self, words: list[str]) -> Answer:
        """What the clerk answers; as in scripts a question names the house that is asked first."""
        if words[0] in ASKS and len(words) > 1 and words[1].isdigit():
            self.door.clerk.near, words = house_of(words[1]), [words[0], *words[2:]]
        return self.waited(lambda hear: self.door.clerk.command(" ".join(words), hear, lambda line: True))

    def tell(self, answer: Answer) -> None:
        lines = answer or ["refused Down"]
        for line in lines[:-1]:
            self.say(line)
        self.say(lines[-1] + self.post.posted())

    def make(self, words: list[str]) -> None:
        if len(words) != 3:
            raise Refused("house H NODE")
        order(self.ledger, words)
        number = house_of(words[1])
        if number not in self.door.houses:
            self.start(number)
        self.do(words)

    def crash(self, words: list[str]) -> None:
        """Kills a house, just after it was given a command if there is one."""
        number = house_of(words[1])
        if not self.door.houses.get(number) or not self.door.houses[number].is_up:
            raise Refused("refused Down")
        house = self.house(number)
        if len(words) > 2:
            doer, line = self.order(words[2:])
            if doer != number:
                raise Refused(f"house {doer} would do that")
            self.is_known(words[2:])
            if words[2] in NUMBERED:
                self.ledger.begin(number, line)
            house.send(line, None)
            self.door.loop.finish()
            time.sleep(random.random() / 50)
        house.kill()
        self.door.loop.run_until(lambda: not house.stream)
        self.post.posted()
        self.say(f"house {number} is killed")

    def answer(self, words: list[str]) -> None:
        """Does a command, and then what the net does of itself."""
        try:
            match words[0]:
                case "help":
                    self.say(HELP)
                case "status":
                    self.tell(self.door.status())
                case "house":
                    self.make(words)
                case "audit" if len(words) == 2:
                    self.audit(words[1])
                case "crash" if len(words) > 1:
                    self.crash(words)
                case "start" if len(words) > 1 and house_of(words[1]) in self.door.houses:
                    self.start(house_of(words[1]))
                case "messages" | "deliver" | "lose":
                    self.message(words)
                case _:
                    self.do(words)
            if not self.is_held or words == ["deliver"]:
                self.deliver_all()
        except Refused as reason:
            self.say(str(reason))

    def work(self) -> None:
        """Does the lines that come, up to `quit` or None, and what programs at the door want meanwhile."""
        while True:
            self.door.loop.run_until(lambda: bool(self.lines) or not self.is_held and bool(self.due()))
            if not self.lines:
                self.deliver_all()
                continue
            line = self.lines.popleft()
            words = (line or "").split()
            if line is None or words == ["quit"]:
                return
            if words and not words[0].startswith("#"):
                self.answer(words)
            self.on_done()
