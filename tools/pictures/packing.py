"""Packs a replay and its states for the page: lists of numbers and of words, which are named by their places in one
list of words."""

from __future__ import annotations

from collections.abc import Sequence

from . import choice, meanings, searches, skulks
from .cell import Replay
from .facts import Message, Step
from .states import Change, States
from .titles import label_of
from cds.octets import Load

MOST_FACTS = 60  # of a message that are listed


class Words:
    """Words, each once, by their places."""

    all: list[str]
    places: dict[str, int]

    def __init__(self) -> None:
        self.all, self.places = [], {}

    def place(self, word: str | None) -> int:
        """The place of a word, which is new or not; that of None is -1."""
        if word is None:
            return -1
        at = self.places.get(word)
        if at is None:
            at = self.places[word] = len(self.all)
            self.all.append(word)
        return at


class Pack:
    """What the page gets of the steps that are chosen. `ats` are their places in the replay."""

    loads: list[list[object]]
    load_places: dict[int, int]

    def __init__(self, replay: Replay, states: States, steps: list[Step], directory: int | None) -> None:
        self.replay, self.states, self.steps, self.dir, self.words = replay, states, steps, directory, Words()
        self.ats = [it.at for it in steps]
        self.loads, self.load_places = [], {}

    def all(self) -> dict[str, object]:
        """All of it. The words come last, since the others make them."""
        replay = self.replay
        packed: dict[str, object] = {
            "steps": [self.step(it) for it in self.steps],
            "nodes": replay.nodes,
            "born": replay.born,
            "downs": replay.downs,
            "holdings": replay.holdings,
            "epochs": [
                [it.dir, it.number, it.master, it.members, it.secondary, it.step]
                for own in replay.epochs.values()
                for it in own
            ],
            "skulks": [[it.dir, it.house, it.stamp, it.start, it.end, it.is_complete] for it in replay.skulks],
            "answered": skulks.answered(replay),
            "messages": [self.message(it) for it in replay.messages.values() if it.posted <= self.ats[-1]],
            "names": self.names(),
            "rises": [[it.house, it.dir, it.stamp, it.step] for it in replay.rises],
            "clocks": [
                [it.at, it.house, it.words[1]] for it in replay.steps if it.command == "clock" and it.outcome == "ok"
            ],
            "lineOf": [it.line for it in replay.steps],
            "searches": searches.searches(replay, self.steps),
            "changes": self.changes(),
            "loads": self.loads,
        }
        packed["values"] = self.values()
        packed["words"] = self.words.all
        return packed

    def step(self, step: Step) -> list[object]:
        """A step: what the script and the answers say of it."""
        serial = step.message.serial if step.message else None
        label = label_of(step, self.replay)
        stop = step.text.split()[1:4] if step.stop is not None else None
        return [
            step.at,
            step.line,
            step.command,
            step.house or None,
            [it or None for it in step.dirs],
            step.outcome,
            step.has_changed,
            serial,
            step.answer,
            label,
            stop,
        ]

    def message(self, it: Message) -> list[object]:
        """A message, with the place of what it carries."""
        taken = next((at for at in it.deliveries if self.replay.steps[at].has_changed), None)
        fate = [it.posted, it.deliveries, taken, it.lost]
        return [
            it.serial,
            it.kind,
            it.sender or None,
            it.receiver or None,
            it.dir or None,
            it.epoch or None,
            it.stamp,
            *fate,
            self.load(self.states.loads.get(it.serial)),
        ]

    def load(self, load: Load | None) -> int:
        """The place of what a message carries, or -1."""
        if load is None:
            return -1
        at = self.load_places.get(id(load))
        if at is None:
            at = self.load_places[id(load)] = len(self.loads)
            facts = list(load.facts.items())
            self.loads.append([self.pairs(facts[:MOST_FACTS]), len(facts), load.up_to, load.members, load.floor])
        return at

    def pairs(self, facts: Sequence[tuple[str, str | None]]) -> list[int]:
        """Facts, as the places of their keys and of what they say, one after the other."""
        return [self.words.place(it) for pair in facts for it in pair]

    def changes(self) -> list[list[list[object]]]:
        """The changes at each step, before the first of which are all that led there. What lies between two goes to the
        later one."""
        packed: list[list[list[object]]] = []
        gathered: list[list[object]] = []
        chosen = set(self.ats)
        for at, changes in self.states.changes.items():
            gathered += [self.change(house, it) for house, it in changes.items()]
            if at in chosen or at < self.ats[0]:
                packed.append(gathered)
                gathered = []
        return packed

    def change(self, house: int, change: Change) -> list[object]:
        """The changes of a house."""
        directories = [[it, head, self.pairs(facts)] for it, head, facts in change.directories]
        return [house, change.floor, change.size, change.puts, directories]

    def names(self) -> dict[int, str]:
        """The full name under which each directory was made."""
        names = {1: "/.:"} if 1 in self.replay.epochs else {}
        for step in self.replay.steps:
            if step.command == "mkdir" and step.outcome == "ok":
                parent, made = names.get(int(step.words[1]), "…"), int(step.answer.split()[2])
                names[made] = f"{parent}/{step.words[2]}"
        return names

    def values(self) -> dict[int, str]:
        """What values mean, for those of which the octets alone say little, by the places of their keys."""
        found = {}
        for at, word in enumerate(self.words.all):
            if word.count("\t") == 2:
                meaning = meanings.of(*word.split("\t")[1:])
                if meaning:
                    found[at] = meaning
        return found


def chosen(replay: Replay, first: int, last: int, directory: int | None) -> list[Step]:
    """The steps between two lines, of a directory or of all."""
    return choice.Choice(first, last, directory).steps(replay)
