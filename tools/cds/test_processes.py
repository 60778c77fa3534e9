"""Tests of houses as processes, with a house that is made up: it answers each line with `ok` and that line."""

from __future__ import annotations

import os
import tempfile
import unittest

from cds.processes import PIECE, Process, take_lines

HOUSE = r"""#!/bin/sh
echo 0 new
number=0
while read -r line; do
    number=$((number + 1))
    case $line in
    post) echo "$number more 2 02"; echo "$number post 2 07"; echo "$number ok" ;;
    two) echo "$number value 01"; echo "$number end 1" ;;
    die) exit 8 ;;
    *) echo "$number ok $line" ;;
    esac
done
"""


class OfProcesses(unittest.TestCase):
    """A process that answers."""

    def setUp(self) -> None:
        place = tempfile.TemporaryDirectory()
        self.addCleanup(place.cleanup)
        path = f"{place.name}/house"
        with open(path, "w", encoding="ascii") as it:
            it.write(HOUSE)
        os.chmod(path, 0o755)
        self.process = Process(path, place.name)
        self.addCleanup(self.end)
        self.assertEqual(self.process.answer(), ["new"])

    def end(self) -> None:
        """Ends it, if a test left it."""
        if self.process.status is None:
            self.process.kill()
            self.process.drained()

    def test_answers(self) -> None:
        self.process.send(["a", "two", "b c"])
        self.assertEqual([self.process.answer() for _ in range(3)], [["ok a"], ["value 01", "end 1"], ["ok b c"]])
        self.assertEqual((self.process.close(), self.process.status), ([], 0))

    def test_posts_are_whole_messages(self) -> None:
        self.process.send(["post"])
        self.assertEqual(
            (self.process.answer(), self.process.fetched(), self.process.fetched()), (["ok"], [(2, "0207")], [])
        )

    def test_what_it_says_at_its_end(self) -> None:
        self.process.send(["a", "b"])
        self.assertEqual((self.process.close(), self.process.status), ([["ok a"], ["ok b"]], 0))

    def test_it_may_end_by_itself(self) -> None:
        self.process.send(["a", "die", "b"])
        self.assertEqual([self.process.answer(), self.process.answer()], [["ok a"], None])
        self.assertEqual((self.process.drained(), self.process.status), ([], 8))

    def test_it_is_killed(self) -> None:
        self.process.kill()
        self.assertEqual((self.process.drained(), self.process.status), ([], -9))

    def test_a_message_comes_in_pieces(self) -> None:
        self.assertEqual(take_lines("0207"), ["take 0207"])
        self.assertEqual(take_lines("00" * PIECE + "01"), [f"more {'00' * PIECE}", "take 01"])


if __name__ == "__main__":
    unittest.main()
