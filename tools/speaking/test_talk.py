"""Tests of the talk with a process that is kept."""
from __future__ import annotations

import os
import stat
import tempfile
import unittest

from speaking.talk import Talk

# It numbers lines, answers a line `same` with how many lines it read, and ends at a line `bad`.
PROGRAM = """#!/usr/bin/env python3
import sys
for number, line in enumerate(sys.stdin, 1):
    word = line.strip()
    if word == "bad":
        print(f"{number} fault BadWord 1", flush=True)
        sys.exit(3)
    if word == "end":
        sys.exit(4)
    if not word.startswith("#"):
        print(f"{number} ok {word}", flush=True)
"""


class TalkTest(unittest.TestCase):
    """Answers have the numbers of the script, whatever was asked between."""

    def setUp(self) -> None:
        folder = tempfile.TemporaryDirectory()
        self.addCleanup(folder.cleanup)
        path = os.path.join(folder.name, "program")
        with open(path, "w", encoding="ascii") as file:
            file.write(PROGRAM)
        os.chmod(path, stat.S_IRWXU)
        self.talk = Talk(path, ("run",))
        self.addCleanup(self.talk.close)

    def test_answers_have_the_numbers_of_the_script(self) -> None:
        self.assertEqual(self.talk.ask([], ["a", "b"], True), ["1 ok a", "2 ok b"])
        self.assertEqual(self.talk.ask(["a", "b"], ["question"], False), ["3 ok question"])
        self.assertEqual(self.talk.ask(["a", "b", "# a comment"], ["c"], True), ["4 ok c"])

    def test_a_fault_is_an_answer(self) -> None:
        self.assertEqual(self.talk.ask(["a"], ["b", "bad"], True), ["2 ok b", "3 fault BadWord 1"])
        self.assertEqual(self.talk.ask(["a"], ["b"], True), ["2 ok b"])

    def test_lines_that_are_taken_back_are_forgotten(self) -> None:
        self.talk.ask([], ["a", "b"], True)
        self.assertEqual(self.talk.ask(["a"], ["c"], True), ["2 ok c"])

    def test_a_process_that_ends_otherwise_gives_none(self) -> None:
        self.assertIsNone(self.talk.ask(["a"], ["end"], True))
        self.assertIsNone(self.talk.ask(["end"], ["a"], True))

    def test_a_text_that_fills_pipes_is_written_beside_the_reading(self) -> None:
        lines = [f"{'x' * 100}{number}" for number in range(5000)]
        self.assertEqual(
            self.talk.ask([], lines, True), [f"{number + 1} ok {line}" for number, line in enumerate(lines)]
        )


if __name__ == "__main__":
    unittest.main()
