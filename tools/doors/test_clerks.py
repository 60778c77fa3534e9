"""Tests of how a door runs a clerk, over a clerk and a house that this test plays."""
from __future__ import annotations

import time
import unittest
from typing import Any

from doors import clerks
from doors.clerks import Clerk
from doors.lines import LONGEST_OF_HOUSES
from doors.loops import Loop
from doors.played import Played


class Stream:
    """What a clerk was sent."""

    def __init__(self) -> None:
        self.sent: list[str] = []

    def send(self, text: str) -> None:
        self.sent.append(text)

    def close(self) -> None:
        pass


class ClerksTest(unittest.TestCase):
    """Questions go to houses, and answers to the clerk that asked."""

    def setUp(self) -> None:
        self.house = Played(2)
        self.clerk = Clerk(Loop(), ["clerk"], 2, {2: self.house}, lambda text: None)
        self.stream = self.give_stream()
        self.said: list[list[str]] = []

    def give_stream(self) -> Stream:
        stream: Any = Stream()
        self.clerk.stream, self.clerk.known = stream, self.clerk.asked()
        found: Stream = stream
        return found

    def give(self, line: str, is_allowed: bool = True) -> None:
        self.clerk.command(line, self.said.append, lambda words: is_allowed)

    def test_a_question_and_its_answer(self) -> None:
        self.give("read low /.:/a A")
        self.clerk.line("ask 1 1 2 show low 1 a")
        self.assertEqual(self.house.answer("object", "end"), "show low 1 a")
        self.clerk.line("say 1 ok 0")
        self.assertEqual(self.stream.sent, ["do 1 read low /.:/a A\n", "hear 1 object\nhear 1 end\n"])
        self.assertEqual((self.said, self.clerk.jobs), ([["ok 0"]], {}))

    def test_a_house_that_is_not_reached_and_one_that_is_not_known(self) -> None:
        self.give("read low /.:/a A")
        self.clerk.line("ask 1 1 2 status 1")
        self.house.answer()
        self.clerk.line("ask 2 1 9 status 1")
        self.assertEqual(self.stream.sent[1:], ["down 1\n", "down 2\n"])

    def test_what_is_not_allowed_is_not_sent(self) -> None:
        self.give("create /.:/a", is_allowed=False)
        self.clerk.line("ask 1 1 2 create 1 a")
        self.assertEqual((self.house.asked, self.stream.sent[1:]), ([], ["hear 1 refused Forbidden\n"]))

    def test_an_answer_is_not_for_the_next_clerk(self) -> None:
        self.give("read low /.:/a A")
        self.clerk.line("ask 1 1 2 show low 1 a")
        self.clerk.ended()
        self.assertEqual(self.said, [["refused NoClerk doubt"]])
        after = self.give_stream()
        self.house.answer("object", "end")
        self.assertEqual(after.sent, [])

    def test_a_command_has_an_end(self) -> None:
        self.give("read low /.:/a A")
        self.clerk.jobs[1].since = time.monotonic() - clerks.LONGEST - 1
        self.clerk.line("ask 1 1 2 status 1")
        self.assertEqual((self.house.asked, self.stream.sent[1:]), ([], ["down 1\n"]))

    def test_what_a_clerk_does_not_read_is_not_sent(self) -> None:
        self.give("read low /.:/" + "a" * LONGEST_OF_HOUSES)
        self.assertEqual((self.said.pop(), self.stream.sent), (["fault LineTooLong 4081"], []))
        self.give("read low /.:/a A")
        for answer in (["object", "value \t00", "end"], ["value " + "00" * 2048, "end"], ["object", "end \xe9"]):
            self.clerk.line("ask 1 1 2 show low 1 a")
            self.house.answer(*answer)
            self.assertEqual(self.stream.sent.pop(), "down 1\n")

    def test_another_clerk_after_enough_lines(self) -> None:
        self.give("read low /.:/a A")
        self.clerk.sent = clerks.ENOUGH_LINES + 1
        self.give("read low /.:/b A")
        self.give("read low /.:/c A")
        self.assertEqual(self.stream.sent, ["do 1 read low /.:/a A\n"])
        later: list[Stream] = []

        def begin() -> None:
            if not self.clerk.stream:
                self.clerk.sent = 0
                later.append(self.give_stream())

        setattr(self.clerk, "begin", begin)
        self.clerk.line("say 1 ok 0")
        self.assertEqual((self.said, len(later)), ([["ok 0"]], 1))
        self.assertEqual(later[0].sent, ["do 2 read low /.:/b A\n", "do 3 read low /.:/c A\n"])

    def test_nonsense_of_a_clerk(self) -> None:
        self.give("read low /.:/a A")
        for line in ("", "say", "say 7", "say x y", "say 9 ok", "ask", "ask 1", "ask 1 x", "ask 1 1 x y", "hop 1 2"):
            self.clerk.line(line)
        self.assertEqual((self.said, self.house.asked), ([], []))


if __name__ == "__main__":
    unittest.main()
