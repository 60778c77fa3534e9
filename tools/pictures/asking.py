"""Asks the program what each house has after each line of a script, in one run.

The questions `octets house H`, `octets msg N` and, of the form `journal`, `image H` are put between the lines of the
script. They change nothing; the answers to the script's own lines are compared with those of a run without them.
"""

from __future__ import annotations

import subprocess
import tempfile
from collections.abc import Iterator
from typing import NamedTuple

from .cell import Replay
from .facts import Fault, Message, Step
from .shapes import Undrawable
from cds import commands

MOST_OCTETS = 400_000_000  # of images that are kept at a time

# Whose line of a script it is: the number of a line, or what is asked, after which step, and of which house or message.
Owner = int | tuple[str, int, int]


class Broken(Exception):
    """The program ended as it should not, or answers otherwise when it is asked more."""


class Asking(NamedTuple):
    """What is asked: about the steps from `first` to `last` of a replay. The program replayed the lines of a script by
    these words, and answered so."""

    program: str
    words: list[str]
    lines: list[str]
    answers: list[str]
    replay: Replay
    first: int
    last: int


def lines_from(program: str, words: list[str], script: bytes) -> Iterator[bytes]:
    """The lines that the program writes for a script, one after the other. Its status is 0, or 3 where the script is
    faulty."""
    with tempfile.TemporaryFile() as source:
        source.write(script)
        source.seek(0)
        with subprocess.Popen([program, *words], stdin=source, stdout=subprocess.PIPE) as ran:
            yield from ran.stdout or ()
    if ran.returncode not in (0, 3):
        raise Broken(f"`{program} {' '.join(words)}` ended with status {ran.returncode}")


def run(program: str, words: list[str], script: bytes) -> bytes:
    """All that the program writes for a script."""
    return b"".join(lines_from(program, words, script))


def houses_of(step: Step, replay: Replay) -> list[int] | None:
    """The houses whose images a step may change: None is each of them."""
    if step.command in commands.SERVICES:
        return [step.house] if step.found else None
    named = [step.house, step.stop or 0]
    if step.command == "mkdir":
        named.append(int(step.words[3]))
    return sorted({it for it in named if it in replay.nodes})


class Script:
    """A script that grows by questions. `owners` has for each line the line of the script that it is, or what it
    asks."""

    lines: list[str]
    owners: list[Owner]

    def __init__(self, is_journal: bool) -> None:
        self.lines, self.owners, self.is_journal = [], [], is_journal

    def add(self, text: str, owner: Owner) -> None:
        """Adds a line."""
        self.lines.append(text)
        self.owners.append(owner)

    def ask_house(self, at: int, house: int) -> None:
        """Asks what a house has after a step."""
        self.add(f"octets house {house}", ("house", at, house))
        if self.is_journal:
            self.add(f"image {house}", ("journal", at, house))

    def octets(self) -> bytes:
        """The whole script."""
        return "".join(f"{it}\n" for it in self.lines).encode()


class Asked:
    """What the program answered: `images` by step and house, -1 being before the first one, and `loads` by the serial
    of a message."""

    answers: list[str]
    images: dict[tuple[int, int], bytes]
    journals: dict[tuple[int, int], bytes]
    loads: dict[int, bytes]
    last: dict[tuple[str, int], bytes]

    def __init__(self) -> None:
        self.answers, self.images, self.journals, self.loads, self.last, self.size = [], {}, {}, {}, {}, 0

    def take(self, owner: Owner, said: str) -> None:
        """Takes a line of an answer, without its number."""
        if isinstance(owner, int):
            self.answers.append(f"{owner} {said}")
        elif said.startswith("ok "):
            what, at, number = owner
            octets = self.kept((what, number), bytes.fromhex(said.split()[2]))
            if what == "message":
                self.loads[number] = octets
            else:
                (self.images if what == "house" else self.journals)[at, number] = octets

    def kept(self, place: tuple[str, int], octets: bytes) -> bytes:
        """The octets, once where those of a house are the same as before."""
        if self.last.get(place) != octets:
            self.last[place] = octets
            self.size += len(octets)
        if self.size > MOST_OCTETS:
            raise Undrawable(
                f"what houses have takes more than {MOST_OCTETS} octets; choose a part with --from, --to and --dir"
            )
        return self.last[place]


def leaders(replay: Replay) -> dict[int, int]:
    """For each message the serial of one that carries the same: the first one of its step that went to several
    houses."""
    found: dict[int, int] = {}
    before: Message | None = None
    for message in replay.messages.values():
        is_same = before and before.posted == message.posted and is_mate(before, message)
        found[message.serial] = found[before.serial] if before and is_same else message.serial
        before = message
    return found


def is_mate(one: Message, other: Message) -> bool:
    """Whether two messages of a step carry the same: those that go to several houses have ascending receivers."""
    return one.kind == other.kind and one.dir == other.dir and 0 < one.receiver < other.receiver


def asked_at(replay: Replay) -> dict[int, list[int]]:
    """For each step the serials of the messages that are asked about after it."""
    found: dict[int, list[int]] = {}
    for serial in sorted(set(leaders(replay).values())):
        message = replay.messages[serial]
        if message.lost != message.posted:
            found.setdefault(message.posted, []).append(serial)
    return found


def questions(asking: Asking, is_thorough: bool) -> Script:
    """The script with its questions: about its steps, and about all houses before them and after them."""
    _, words, lines, _, replay, first, last = asking
    script, begins, posted = Script(words == ["journal"]), 0, asked_at(replay)
    for step in replay.steps[: last + 1]:
        for line in range(begins, step.line):
            if line + 1 == step.line and step.at == first:
                ask_all(script, replay, first - 1)
            script.add(lines[line], line + 1)
        begins = step.line
        for serial in posted.get(step.at, ()):
            script.add(f"octets msg {serial}", ("message", step.at, serial))
        if step.at >= first:
            houses = houses_of(step, replay)
            for house in replay.nodes if houses is None or is_thorough or step.at == last else houses:
                script.ask_house(step.at, house)
    for line in range(begins, len(lines)):
        script.add(lines[line], line + 1)
    return script


def ask_all(script: Script, replay: Replay, at: int) -> None:
    """Asks what each house has."""
    for house in replay.nodes:
        script.ask_house(at, house)


def ask(asking: Asking, is_thorough: bool = False) -> Asked:
    """Asks the program all that is asked."""
    script = questions(asking, is_thorough)
    asked = Asked()
    for line in lines_from(asking.program, asking.words, script.octets()):
        number, _, said = line.decode("ascii").rstrip("\n").partition(" ")
        asked.take(script.owners[int(number) - 1], said)
    for at, (one, other) in enumerate(zip([*asking.answers, "nothing"], [*asked.answers, "nothing"]), 1):
        if one != other:
            raise Fault("answers", at, f"`{one[:60]}` is not what the program answers: `{other[:60]}`")
    return asked
