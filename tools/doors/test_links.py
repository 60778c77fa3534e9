"""Tests of the line between two doors: no line gets the answer of another one, whatever the stream loses or repeats."""

from __future__ import annotations

import random
import unittest

from doors.houses import Answer, There
from doors.loops import Loop
from doors.programs import Slot


class Stream:
    """A stream that keeps what is sent."""

    def __init__(self) -> None:
        self.sent: list[str] = []

    def send(self, text: str) -> None:
        self.sent.append(text.rstrip("\n"))


class LinkTest(unittest.TestCase):
    """A house behind another door, and what that door says."""

    def setUp(self) -> None:
        self.house, self.stream = There(Loop(), 2, "true", lambda text: None), Stream()
        self.house.stream, self.house.is_up = self.stream, True  # type: ignore[assignment]
        self.heard: dict[str, Answer] = {}

    def ask(self, line: str) -> list[str]:
        """Asks, and returns the lines that the other door says: two, whose last one names the line."""
        self.house.ask(line, lambda told: self.heard.update({line: told}))
        number, _, text = self.stream.sent[-1].partition(" ")
        slot = Slot(text, number)
        slot.answer = [f"value {text}", f"end {text}"]
        return slot.said().splitlines()

    def say(self, *lines: str) -> None:
        for line in lines:
            self.house.line(line)

    def due(self, line: str) -> Answer:
        return [f"value @2 {line}", f"end @2 {line}"]

    def test_an_answer(self) -> None:
        one, two = self.ask("look a"), self.ask("look b")
        self.say(*one, *two)
        self.assertEqual(self.heard, {"look a": self.due("look a"), "look b": self.due("look b")})

    def test_a_lost_answer(self) -> None:
        self.ask("look a")
        self.say(*self.ask("look b"))
        self.assertEqual(self.heard, {"look a": None, "look b": self.due("look b")})

    def test_a_line_of_an_answer_is_lost(self) -> None:
        one, two, three = self.ask("look a"), self.ask("look b"), self.ask("look c")
        self.say(one[1], two[0], *three)
        self.assertEqual(self.heard, {"look a": None, "look b": None, "look c": self.due("look c")})

    def test_lines_that_come_twice_or_from_before(self) -> None:
        one, two = self.ask("look a"), self.ask("look b")
        self.say("welcome to host2", one[0], *one, *one, "7.1 end", *one, two[0], *two)
        self.assertEqual(self.heard, {"look a": self.due("look a"), "look b": self.due("look b")})
        self.say(*two)
        later = There(Loop(), 2, "true", lambda text: None)
        self.assertGreater(later.last, self.house.last)

    def test_any_loss_and_repetition(self) -> None:
        chance = random.Random(1)
        for _ in range(2000):
            self.setUp()
            lines = [line for name in "abcdef" for line in self.ask(f"look {name}")]
            self.say(*(line for line in lines for _ in range(chance.choice((0, 1, 1, 1, 2)))))
            self.assertTrue(all(told in (None, self.due(line)) for line, told in self.heard.items()), self.heard)

    def test_a_line_without_a_number(self) -> None:
        slot = Slot("@1 status 1")
        slot.answer = ["ok"]
        self.assertEqual(slot.said(), "ok\n")


if __name__ == "__main__":
    unittest.main()
