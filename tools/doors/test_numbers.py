"""Tests of the console's numbers, over a house that this test plays."""
from __future__ import annotations

import tempfile
import unittest

from doors.houses import House
from doors.ledger import Ledger
from doors.numbers import Numbers
from doors.played import Played


class NumbersTest(unittest.TestCase):
    """No number is given twice."""

    def setUp(self) -> None:
        room = tempfile.TemporaryDirectory()
        self.addCleanup(room.cleanup)
        self.path = f"{room.name}/console"
        self.houses: dict[int, House] = {1: Played(1), 2: Played(2)}
        self.moved: list[tuple[int, int]] = []
        self.said: list[list[str]] = []
        self.renew()

    def renew(self) -> None:
        """A console that dies, and begins again with its ledger."""
        self.numbers = Numbers(Ledger(self.path), self.houses, self.note_move)

    def note_move(self, house: House, directory: int) -> None:
        self.moved.append((house.number, directory))

    def house(self, number: int) -> Played:
        house = self.houses[number]
        assert isinstance(house, Played)
        return house

    def give(self, line: str) -> None:
        self.numbers.command(line.split(), self.said.append)

    def done(self, line: str, number: int, answer: str) -> str:
        """Gives a command, and lets its house answer. The house's line."""
        self.give(line)
        return self.house(number).answer(answer)

    def test_two_clients_get_two_numbers(self) -> None:
        self.done("root 1 2", 1, "ok")
        self.give("mkdir 1 1 a 1")
        self.give("mkdir 2 1 b 2")
        self.assertEqual((len(self.house(1).asked), len(self.house(2).asked)), (1, 0))
        self.assertEqual(self.house(1).answer("ok 2 1@00000000000a"), "mkdir 1 a 2")
        self.assertEqual(self.house(2).answer("ok 3 1@00000000000b"), "mkdir 1 b 3")
        self.assertEqual(self.said[1:], [["ok 2 1@00000000000a"], ["ok 3 1@00000000000b"]])

    def test_a_refused_number_is_given_again(self) -> None:
        self.done("root 1", 1, "ok")
        self.assertEqual(self.done("mkdir 1 1 a 1", 1, "refused EntryExists"), "mkdir 1 a 2")
        self.assertEqual(self.done("mkdir 1 1 b 1", 1, "ok 2 3@00000000000a"), "mkdir 1 b 2")

    def test_an_epoch_moves_a_master(self) -> None:
        self.done("root 1 2", 1, "ok")
        self.assertEqual(self.done("epoch 1 2 1", 2, "ok 2"), "epoch 1 2 1:1:r 2:1:m")
        self.assertEqual(self.moved, [(2, 1)])
        self.assertEqual(self.done("epoch 1 1 s2", 1, "refused NotJoined 1 2"), "epoch 1 3 1:1:m 2:1:s")
        self.assertEqual(self.moved, [(2, 1)])

    def test_the_ledger_has_a_line_before_its_house(self) -> None:
        self.give("root 1")
        self.assertEqual(Ledger(self.path).pending, (1, "root"))
        self.house(1).answer("ok")
        self.assertIsNone(Ledger(self.path).pending)

    def test_a_line_in_doubt_is_asked_for(self) -> None:
        self.done("root 1", 1, "ok")
        self.give("mkdir 1 1 a 1")
        self.house(1).answer()
        self.assertEqual(self.said[-1], ["refused Down doubt"])
        # (it was done)
        self.give("mkdir 1 1 b 1")
        self.assertEqual(self.house(1).answer("ok epoch 1 allupto none skulk none entries 0 members 1:1:m"), "status 2")
        self.assertEqual(self.house(1).answer("ok 3 5@00000000000a"), "mkdir 1 b 3")

    def test_an_older_house_is_asked_by_dump(self) -> None:
        self.done("root 1", 1, "ok")
        self.give("epoch 1 1 2")
        self.house(1).answer()
        self.renew()
        self.give("epoch 1 1")
        self.assertEqual(self.house(1).answer("fault UnknownCommand 1"), "status 1")
        self.assertEqual(self.house(1).answer("dump epoch 2 allupto none members 1:1:m 2:2:r", "end"), "dump 1")
        self.assertEqual(self.house(1).answer("ok 3"), "epoch 1 3 1:1:m - 2")

    def test_a_line_that_may_still_be_under_way_is_not_given_up(self) -> None:
        self.done("root 1", 1, "ok")
        self.give("epoch 1 1 2")
        self.house(1).answer()
        self.house(1).starts += 1
        self.give("epoch 1 1")
        self.house(1).answer("ok epoch 1 allupto none skulk none entries 0 members 1:1:m")
        self.assertEqual(self.said[-1], ["refused Unsettled 1"])
        # (over the same stream the answer is behind the line)
        self.house(1).starts -= 1
        self.give("epoch 1 1")
        self.house(1).answer("ok epoch 1 allupto none skulk none entries 0 members 1:1:m")
        self.assertEqual(self.house(1).answer("ok 2"), "epoch 1 2 1:1:m")

    def test_a_house_that_may_be_made(self) -> None:
        for answer, said in (("refused NoHouse", "ok"), ("refused NoReplica", "refused HouseExists")):
            self.give("house 1 00000000000a")
            self.house(1).answer()
            self.give("house 1 00000000000a")
            self.assertEqual(self.house(1).answer(answer), "status 1")
            if said == "ok":
                self.house(1).answer("refused HouseExists")
            else:
                self.assertEqual(self.said[-1], [said])

    def test_a_house_is_made_once(self) -> None:
        self.assertEqual(self.done("house 1 00000000000A", 1, "ok"), "house 1 00000000000A")
        self.renew()
        for line in ("house 1 00000000000a", "house 1 00000000000c", "house 2 00000000000a"):
            self.give(line)
            self.assertEqual(self.said[-1], ["refused HouseExists"], line)
        self.done("house 2 00000000000b", 2, "ok")

    def test_a_lost_ledger_is_counted_again(self) -> None:
        self.give("mkdir 1 1 a 1")
        self.assertEqual(self.said[-1], ["refused NoDirectory"])
        self.numbers.recount(["recount"], self.said.append)
        self.house(1).answer("directory 1 held 2", "directory 2 gone 4", "end 2")
        self.house(2).answer("directory 1 held 1", "directory 2 held 3", "directory 7 held 1", "end 3")
        rest = "allupto none skulk none entries 0 members"
        self.house(1).answer(f"ok epoch 2 {rest} 1:1:r 2:1:m")
        for state in (f"ok epoch 1 {rest} 1:1:m 2:1:r", f"ok epoch 3 {rest} 1:1:m 2:3:s", f"ok epoch 1 {rest} 2:1:m"):
            self.house(2).answer(state)
        self.assertEqual(self.said[-1], ["ok 3"])
        found = Ledger(self.path).console.directories
        self.assertEqual(found, {1: (2, {1: (1, "r"), 2: (1, "m")}), 2: (4, {}), 7: (1, {2: (1, "m")})})
        self.assertEqual(self.done("mkdir 1 1 b 1", 1, "ok 8 9@00000000000a"), "mkdir 1 b 8")
        self.numbers.recount(["recount"], self.said.append)
        self.assertEqual(self.said[-1], ["refused DirectoryExists"])

    def test_a_house_that_is_down_is_not_left_out_without_a_word(self) -> None:
        self.numbers.recount(["recount"], self.said.append)
        self.house(1).answer("directory 1 held 1", "end 1")
        self.house(2).answer()
        self.house(1).answer("ok epoch 1 allupto none skulk none entries 0 members 1:1:m")
        self.assertEqual((self.said[-1], Ledger(self.path).console.directories), (["refused Down 2"], {}))
        self.numbers.recount(["recount", "-", "2"], self.said.append)
        self.house(1).answer("end 0")
        self.assertEqual((self.said[-1], self.house(2).asked), (["ok 0"], []))
        for words in (["recount", "2"], ["recount", "-", "x"]):
            self.numbers.recount(words, self.said.append)
            self.assertEqual(self.said[-1], ["fault BadWord 2"])

    def test_refusals_without_a_house(self) -> None:
        self.give("epoch 1 1")
        self.give("root 300")
        self.give("mkdir 1")
        self.assertEqual(self.said, [["refused NoDirectory"], ["fault BadWord 2"], ["fault WrongCount 2"]])
        self.house(1).is_up = False
        self.give("root 1")
        self.assertEqual((self.said[-1], Ledger(self.path).pending), (["refused Down"], None))


if __name__ == "__main__":
    unittest.main()
