"""The console of a cell: it numbers directories and epochs, and its ledger has each line on the disk before a house
gets it. So no number is given twice, whoever asks."""
from __future__ import annotations

import collections
import time
from collections.abc import Callable, Mapping

from doors.houses import Answer, House
from doors.states import State, ask_state
from doors.ledger import Ledger
from doors.recounts import Recount

Say = Callable[[list[str]], None]
# What a house was given before its stream ended may still be under way. After so long, in seconds, it is not.
UNDER_WAY = 20.0


class Refused(Exception):
    """A command that no house is asked. `line` answers a program, and the text a person."""

    def __init__(self, line: str, text: str = "") -> None:
        super().__init__(text or line)
        self.line = line


def house_of(word: str, place: int = 2) -> int:
    if not (word.isdigit() and 0 < int(word) < 256 and word[0] != "0"):
        raise Refused(f"fault BadWord {place}", f"{word} is no house")
    return int(word)


def order(ledger: Ledger, words: list[str]) -> tuple[int, str]:
    """The house that does a command of the console, and its line there."""
    console = ledger.console
    match words:
        case ["house", number, node]:
            if house_of(number) in ledger.made or node.lower() in ledger.made.values():
                raise Refused("refused HouseExists")
            return house_of(number), " ".join(words)
        case ["root", master, *others]:
            if console.directories:
                raise Refused("refused DirectoryExists")
            return house_of(master), " ".join(["root", *others])
        case ["mkdir", house, directory, name, master, *others]:
            if not console.directories:
                # (the first number is the root's; a ledger that is lost has to be counted again)
                raise Refused("refused NoDirectory")
            if master != house:
                raise Refused("fault BadWord 5", "the master of a new directory is the house that makes it")
            return house_of(house), console.mkdir_line(directory, name, others)
        case ["epoch", directory, master, *others]:
            return house_of(master, 3), epoch_line(ledger, directory, house_of(master, 3), others)
    raise Refused(f"fault WrongCount {len(words)}")


def epoch_line(ledger: Ledger, word: str, master: int, others: list[str]) -> str:
    """The line of a new epoch for its master, which has to be a member."""
    directory = int(word) if word.isdigit() else 0
    if directory not in ledger.console.directories:
        raise Refused("refused NoDirectory")
    if master not in ledger.console.directories[directory][1]:
        raise Refused("refused NotMember")
    try:
        return ledger.console.epoch_line(directory, master, others)
    except ValueError:
        raise Refused("fault BadWord 4", "a further house is a number, or s and a number") from None


def is_done(words: list[str], state: State) -> bool:
    """Whether a house did a line of the console, by what it holds of the line's directory."""
    if words[0] == "house":
        return state.line != "refused NoHouse"
    return state.epoch >= (int(words[2]) if words[0] == "epoch" else 1)


class Numbers:
    """The commands of the console, one after the other. `moved` hears of each epoch that was begun: the house and the
    directory."""

    def __init__(self, ledger: Ledger, houses: Mapping[int, House], moved: Callable[[House, int], None]) -> None:
        self.ledger, self.houses, self.moved = ledger, houses, moved
        self.queue: collections.deque[tuple[list[str], Say]] = collections.deque()
        self.is_busy = False
        # When the pending line was given to its house, and over which of its streams.
        self.since, self.starts = time.monotonic(), -1

    def command(self, words: list[str], say: Say) -> None:
        self.queue.append((words, say))
        self.next()

    def recount(self, words: list[str], say: Say) -> None:
        """`recount [- H..]`: fills a ledger that is lost. After the `-` are the houses that are gone for good."""
        if words[1:2] not in ([], ["-"]) or not all(word.isdigit() for word in words[2:]):
            say(["fault BadWord 2"])
        elif self.is_busy:
            say(["refused Unsettled 0"])
        else:
            Recount(self.ledger, self.houses, {int(word) for word in words[2:]}, say)

    def next(self) -> None:
        if self.queue and not self.is_busy:
            self.is_busy = True
            self.settle()

    def done(self, answer: list[str]) -> None:
        _, say = self.queue.popleft()
        self.is_busy = False
        say(answer)
        self.next()

    # ---- what is not known yet

    def settle(self) -> None:
        """Learns what came of the line before, if that is not known."""
        if not self.ledger.pending:
            self.do()
            return
        number, line = self.ledger.pending
        words, house = line.split(" "), self.houses.get(number)
        directory = {"epoch": 1, "mkdir": 3}.get(words[0])
        if not house:
            self.done([f"refused Unsettled {number}"])
            return
        asked = house

        def heard(state: State | None) -> None:
            if not self.ledger.pending:
                self.do()
            elif state and is_done(words, state):
                self.ledger.settle(True)
                self.do()
            elif state and (asked.starts == self.starts or time.monotonic() - self.since > UNDER_WAY):
                self.ledger.settle(False)
                self.do()
            else:
                self.done([f"refused Unsettled {number}"])

        ask_state(house, int(words[directory]) if directory else 1, heard)

    def started(self, house: House, start: list[str]) -> None:
        """A house of this door says its last turn at its start: then it is known what came of a line."""
        pending = self.ledger.pending
        if pending and pending[0] == house.number:
            self.ledger.settle(start[1:2] == [f"last {pending[1]}"])

    # ---- a command

    def do(self) -> None:
        words, _ = self.queue[0]
        try:
            number, line = order(self.ledger, words)
        except Refused as reason:
            self.done([reason.line])
            return
        house = self.houses.get(number)
        if not house or not house.is_reached:
            self.done(["refused Down" if house else "refused NoHouse"])
            return
        asked = house
        self.ledger.begin(number, line)
        self.since, self.starts = time.monotonic(), house.starts

        def heard(told: Answer) -> None:
            if not told:
                self.done(["refused Down doubt"])
                return
            is_ok = told[-1].startswith("ok")
            if self.ledger.pending == (number, line):
                self.ledger.settle(is_ok)
            if is_ok and words[0] == "epoch":
                self.moved(asked, int(words[1]))
            self.done(told)

        house.ask(line, heard)
