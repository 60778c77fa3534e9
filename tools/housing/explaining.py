"""Writes a script of `cdsreplay run` that explains the journals of houses (docs/EXPLAINED.md), or says the first entry
that no order explains. (It is an oracle of `cdsexplain`, written apart from it, as bench/explain.rs is.)

A script's line comes with the answer that the journals have for it, or None if they have none.
"""

from __future__ import annotations

import collections
from collections.abc import Iterator, Mapping, Sequence
from random import Random

from cds.console import Console
from cds.journals import Record

# The lines that a house answers by itself.
UPDATES = ("create", "link", "delete", "add", "remove", "put", "clear", "skulk")
# The entries of houses, by their numbers; and lines, each with its answer.
Houses = Mapping[int, Sequence[Record]]
Script = list[tuple[str, "list[str] | None"]]


class Unexplained(Exception):
    """An entry that no order explains. `waits` says whether another entry may yet explain it."""

    def __init__(self, text: str, waits: bool = False) -> None:
        super().__init__(text)
        self.waits = waits


class Asked:
    """A line that a house answered without a turn, and its answer."""

    def __init__(self, line: str, answer: list[str]) -> None:
        self.words, self.answer = line.split(), answer


# What houses answered after an entry, by the house and the entry's number.
Questions = Mapping[tuple[int, int], Sequence[Asked]]


def named_houses(entries: Sequence[Record]) -> set[int]:
    """The houses that the lines of entries name."""
    places = {"root": 1, "mkdir": 4, "repoint": 3, "epoch": 3}
    lines = (entry.line.split(" ") for entry in entries)
    named = (word for words in lines if words[0] in places for word in words[places[words[0]] :] if word != "-")
    return {int(word.lstrip("s").split(":")[0]) for word in named}


class Explainer:
    """Explains the entries of houses, and what they were asked in between."""

    def __init__(self, houses: Houses, asked: Questions | None = None) -> None:
        self.houses = houses
        self.items = {house: list(with_asked(house, entries, asked or {})) for house, entries in houses.items()}
        self.next, self.clock = dict.fromkeys(houses, 0), dict.fromkeys(houses, 0)
        # The serials of the messages, by receiver and octets.
        self.posted: dict[tuple[int, str], list[int]] = collections.defaultdict(list)
        self.messages = self.taken = self.images = 0
        self.console = Console()
        self.script: Script = []

    def say(self, line: str, answer: list[str] | None = None) -> None:
        """Writes a line of the script."""
        self.script.append((line, answer))

    def begin(self) -> None:
        """Makes all houses: those that have journals, and those that these name."""
        nodes: dict[str, int] = {}
        fresh = 1
        for house, entries in sorted(self.houses.items()):
            words = entries[0].line.split(" ")
            node = words[2].lower()
            if words[1] != str(house):
                raise Unexplained(f"house {house}: its journal is of house {words[1]}")
            if node in nodes:
                raise Unexplained(f"house {house}: the node of house {nodes[node]}")
            nodes[node] = house
            self.say(f"house {house} {node}", ["ok"])
            self.show(house, entries[0])
            self.next[house] = 1
        named = {it for entries in self.houses.values() for it in named_houses(entries)}
        for house in sorted(named - set(self.houses)):
            while f"{fresh:012x}" in nodes:
                fresh += 1
            nodes[f"{fresh:012x}"] = house
            self.say(f"house {house} {fresh:012x}")

    def show(self, house: int, entry: Record) -> None:
        """The messages of an entry, and the image after it if a record has it, have to be those of the replay."""
        for to, octets in entry.posts if entry.kind != "start" else []:
            self.messages += 1
            self.posted[to, octets].append(self.messages)
            self.say(f"octets msg {self.messages}", [f"ok {len(octets) // 2} {octets}"])
        if entry.image is not None:
            self.images += 1
            self.say(f"octets house {house}", [f"ok {len(entry.image)} {entry.image.hex()}"])

    def step(self, house: int) -> None:
        """Explains the next entry of a house, or what it was asked, or says why not."""
        item = self.items[house][self.next[house]]
        if isinstance(item, Asked):
            self.answer(house, item)
        elif item.kind == "start":
            self.start(house, item)
        else:
            line = self.script_line(house, item)
            if item.clock != self.clock[house]:
                self.say(f"clock {house} {item.clock}")
                self.clock[house] = item.clock
            count = len(item.posts)
            serials = "".join(f" {self.messages + at + 1}" for at in range(count))
            self.say(line, [item.answer + (" posted" + serials if count else "")])
            self.show(house, item)
        self.next[house] += 1

    def start(self, house: int, entry: Record) -> None:
        """A house crashed, and starts."""
        self.say(f"crash {house}")
        if self.clock[house]:
            self.say(f"clock {house} 0")
        self.say(f"start {house}", ["ok"])
        self.clock[house] = 0
        self.show(house, entry)

    def script_line(self, house: int, entry: Record) -> str:
        """The script's line of a turn, whose numbers have to be those that a console gives."""
        words = entry.line.split(" ")
        if words[0] == "take":
            return self.deliver_line(house, words[1], entry.place)
        if words[0] == "epoch":
            return self.epoch_line(house, words, entry.place)
        if words[0] in ("root", "mkdir"):
            self.check_directory(words, entry.place)
            self.console.done(house, entry.line)
            words[3:4] = [str(house)] if words[0] == "mkdir" else words[3:4]
        return " ".join([words[0], str(house), *words[1:]])

    def deliver_line(self, house: int, octets: str, place: str) -> str:
        """The line that delivers a message to a house."""
        serials = self.posted.get((house, octets))
        if not serials:
            raise Unexplained(f"{place}: took a message that no house posted", waits=True)
        self.taken += 1
        return f"deliver {serials[0]}"

    def check_directory(self, words: list[str], place: str) -> None:
        """A directory has to be the next one."""
        due = self.console.next_directory
        if words[0] == "root" and due > 1:
            raise Unexplained(f"{place}: a second root")
        if words[0] == "mkdir" and int(words[3]) < due:
            raise Unexplained(f"{place}: directory {words[3]} was made before")
        if words[0] == "mkdir" and (int(words[3]) > due or due == 1):
            raise Unexplained(f"{place}: directory {words[3]} where the next one is {due}", waits=True)

    def epoch_line(self, house: int, words: list[str], place: str) -> str:
        """The script's line of an epoch."""
        directory, epoch = int(words[1]), int(words[2])
        last, before = self.console.directories.get(directory, (0, {}))
        if last != epoch - 1 or not before:
            raise Unexplained(f"{place}: epoch {epoch} where the last one is {last}", waits=epoch > last)
        cut = words.index("-") if "-" in words else len(words)
        parts = [word.split(":") for word in words[3:cut]]
        others = [("s" if kind == "s" else "") + at for at, _, kind in parts if kind != "m"]
        due = self.console.epoch_line(directory, house, others)
        if " ".join(words) != due or house not in before:
            raise Unexplained(f"{place}: the console would give {due.split(' ', 3)[3]}")
        self.console.done(house, due)
        return " ".join(["epoch", str(directory), str(house), *others])

    def answer(self, house: int, asked: Asked) -> None:
        """A question, or a line that was refused or not taken, asked again in the replay."""
        words, answer = asked.words, asked.answer
        known = len(words) > 1 and words[1].isdigit() and int(words[1]) in self.console.directories
        if words[0] in ("dump", *UPDATES):
            line = " ".join([words[0], str(house), *words[1:]])
            self.say(line, answer if known else ["refused NoDirectory"])
        elif words[0] == "image":
            octets = "".join(line.split(" ")[1] for line in answer[:-1])
            self.say(f"octets house {house}", [f"ok {len(octets) // 2} {octets}"])
        elif words[0] == "take" and answer[0].startswith("refused"):
            self.say(f"decode {words[1]}", answer)
        elif words[0] == "take":
            self.say(self.deliver_line(house, words[1], f"house {house}"), answer)

    def run(self) -> None:
        """The houses in turn, each as far as it comes."""
        self.begin()
        while True:
            before = sum(self.next.values())
            reasons = [reason for reason in map(self.go_on, sorted(self.houses)) if reason]
            if not reasons:
                return
            if sum(self.next.values()) == before:
                # one that can never be explained comes before those that wait for it
                raise min(reasons, key=lambda reason: reason.waits)

    def run_in_any_order(self, random: Random) -> None:
        """As `run`, but each step is of a random house of those that come on."""
        self.begin()
        while left := [house for house in self.houses if self.next[house] < len(self.items[house])]:
            random.shuffle(left)
            reasons = self.stopped_before_one(left)
            if len(reasons) == len(left):
                raise min(reasons, key=lambda reason: reason.waits)

    def stopped_before_one(self, houses: list[int]) -> list[Unexplained]:
        """Takes a step of the first of these houses that comes on. Returns why those before it do not."""
        reasons: list[Unexplained] = []
        for house in houses:
            try:
                self.step(house)
                break
            except Unexplained as reason:
                reasons.append(reason)
        return reasons

    def go_on(self, house: int) -> Unexplained | None:
        """Explains a house as far as it comes. Returns why it stops, or None at its end."""
        while self.next[house] < len(self.items[house]):
            try:
                self.step(house)
            except Unexplained as reason:
                return reason
        return None


def explained(houses: Houses, asked: Questions | None = None) -> Explainer:
    """An explainer that has explained these houses."""
    explainer = Explainer(houses, asked)
    explainer.run()
    return explainer


def script_of(houses: Houses) -> list[str]:
    """The script that explains houses, without the questions that compare it."""
    return without_questions(explained(houses).script)


def without_questions(script: Script) -> list[str]:
    """The lines of a script, without the questions that compare it."""
    return [line for line, _ in script if not line.startswith("octets ")]


def with_asked(house: int, entries: Sequence[Record], asked: Questions) -> Iterator[Record | Asked]:
    """The entries of a house, each with what the house was asked after it."""
    for entry in entries:
        yield entry
        yield from asked.get((house, entry.number), ())
