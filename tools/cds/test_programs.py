"""Tests of which program a tool runs."""

from __future__ import annotations

import os
import tempfile
import unittest
from unittest import mock

from cds import programs
from cds.programs import SAID, NoProgram, chosen, proved

# Notes its words, and prints a path, unless the file `fails` is there.
BUILD = """#!/bin/sh
echo "$@ ${CDS_SAID_UNPROVED-}" >>"${0%/*}/words"
[ ! -e "${0%/*}/fails" ] || exit 1
[ "$#" = 1 ] || echo "/path/$1$2"
"""


class OfChoices(unittest.TestCase):
    """The program of a repository that is made up."""

    def setUp(self) -> None:
        place = tempfile.TemporaryDirectory()
        self.addCleanup(place.cleanup)
        self.tools = f"{place.name}/tools"
        os.mkdir(self.tools)
        with open(f"{self.tools}/build", "w", encoding="utf-8") as it:
            it.write(BUILD)
        os.chmod(f"{self.tools}/build", 0o755)
        self.enterContext(mock.patch.object(programs, "ROOT", place.name))
        self.enterContext(mock.patch.dict(os.environ))
        os.environ.pop(SAID, None)

    def words(self) -> list[str]:
        """What `tools/build` was asked."""
        if not os.path.exists(f"{self.tools}/words"):
            return []
        with open(f"{self.tools}/words", encoding="utf-8") as it:
            return [line.rstrip() for line in it]

    def test_a_given_one_is_taken(self) -> None:
        self.assertEqual(chosen("cdsmend", "a/b"), os.path.abspath("a/b"))
        self.assertEqual(self.words(), [])

    def test_nothing_is_proved_unasked(self) -> None:
        self.assertEqual(chosen("cdsmend"), "/path/cdsmend--find")
        self.assertEqual(self.words(), ["cdsmend --find"])

    def test_that_answers_are_unproved_is_said_once(self) -> None:
        chosen("cdsreplay")
        chosen("cdsmend")
        self.assertEqual(self.words(), ["cdsreplay --find", "cdsmend --find 1"])

    def test_what_is_asked_for_is_proved_first(self) -> None:
        self.assertEqual(chosen("cdsmend", None, True), "/path/cdsmend--find")
        self.assertEqual(proved("cdsmend", True), "/path/cdsmend--proved")
        self.assertEqual(
            [it.split()[:2] for it in self.words()],
            [["cdsmend"], ["cdsmend", "--find"], ["cdsmend", "1"], ["cdsmend", "--proved"]],
        )

    def test_a_failure_is_one(self) -> None:
        with open(f"{self.tools}/fails", "w", encoding="utf-8"):
            pass
        for is_to_be_proved in (False, True):
            with self.assertRaises(NoProgram):
                chosen("cdsmend", None, is_to_be_proved)
        with self.assertRaises(NoProgram):
            proved("cdsmend", False)


if __name__ == "__main__":
    unittest.main()
