"""A ledger that is lost is asked of the houses again: what each holds of each directory, and which numbers were
given."""
from __future__ import annotations

from collections.abc import Callable, Mapping

from doors.houses import Answer, House
from doors.ledger import Ledger
from doors.states import State, ask_state

Say = Callable[[list[str]], None]


class Recount:
    """Asks all houses but those that are gone for good. One that is down may know a later epoch than any other, so it
    has to be reached, or named. `say` gets the answer; then the ledger is as it was, or it has each directory with its
    latest epoch."""

    def __init__(self, ledger: Ledger, houses: Mapping[int, House], gone: set[int], say: Say) -> None:
        self.ledger, self.say = ledger, say
        # The latest state of each directory, with the line of the ledger that says so.
        self.latest: dict[int, tuple[int, int, str]] = {}
        self.waits, self.fault = 1, ""
        if ledger.console.directories or ledger.pending:
            self.fault = "refused DirectoryExists"
        for house in houses.values():
            if not self.fault and house.number not in gone:
                self.waits += 1
                house.ask("directories", self.of_house(house))
        self.done()

    def of_house(self, house: House) -> Callable[[Answer], None]:
        def heard(told: Answer) -> None:
            if not told or not told[-1].startswith(("end", "refused NoHouse")):
                self.fault = f"refused Down {house.number}"
            for words in (line.split(" ") for line in told or []):
                if words[0] != "directory":
                    continue
                directory, epoch = int(words[1]), int(words[3])
                if words[2] == "held":
                    self.waits += 1
                    ask_state(house, directory, self.of_directory(house, directory))
                else:
                    self.keep(directory, epoch, 0, [])
            self.done()

        return heard

    def of_directory(self, house: House, directory: int) -> Callable[[State | None], None]:
        def heard(state: State | None) -> None:
            if state and state.epoch:
                self.keep(directory, state.epoch, state.master, [":".join(member) for member in state.members])
            else:
                self.fault = f"refused Down {house.number}"
            self.done()

        return heard

    def keep(self, directory: int, epoch: int, master: int, members: list[str]) -> None:
        """A house knows an epoch of a directory. (One that left it knows that the number was given, and no members.)"""
        line = " ".join(["epoch", str(directory), str(epoch), *members])
        self.latest[directory] = max(self.latest.get(directory, (0, 0, "")), (epoch, master, line))

    def done(self) -> None:
        """One answer less is waited for; after the last one the ledger is written."""
        self.waits -= 1
        if self.waits:
            return
        if self.fault:
            self.say([self.fault])
            return
        for _, (_, master, line) in sorted(self.latest.items()):
            self.ledger.begin(master, line)
            self.ledger.settle(True)
        self.say([f"ok {len(self.latest)}"])
