"""What the inputs of generate.py are made of."""

from __future__ import annotations

import io
import unittest

import generate
import measure


def lines(kind: str, count: int) -> list[list[str]]:
    """The words of each line of an input."""
    out = io.BytesIO()
    generate.write(kind, count, out)
    return [line.split() for line in out.getvalue().decode().splitlines()]


def serials(words: list[list[str]], command: str) -> list[int]:
    """The serial numbers of the messages that this command speaks of."""
    return [int(line[1]) for line in words if line[0] == command]


class Inputs(unittest.TestCase):
    def test_that_each_kind_has_a_size(self) -> None:
        self.assertEqual(set(generate.KINDS), set(measure.SIZES))

    def test_that_an_input_is_the_same_each_time(self) -> None:
        for kind in "told", "last", "epochs":
            self.assertEqual(lines(kind, 5), lines(kind, 5), kind)

    def test_that_each_message_is_delivered_and_lost_once(self) -> None:
        # (after the Joins of 63 houses, an update is told to as many; an epoch is told to two houses)
        for kind, posted in ("told", 63 * 4), ("epochs", 2 * 3):
            words = lines(kind, 3)
            self.assertEqual(serials(words, "deliver"), list(range(1, posted + 1)), kind)
            self.assertEqual(serials(words, "lose"), list(range(1, posted + 1)), kind)

    def test_that_the_last_house_takes_each_update(self) -> None:
        words = lines("last", 4)
        self.assertEqual(sum(line[0] == "house" for line in words), 255)
        self.assertEqual([line[:3] for line in words[-4:]], [["add", "255", "1"], ["remove", "255", "1"]] * 2)

    def test_that_groups_are_a_chain_or_a_fan(self) -> None:
        chain = [line[1:] for line in lines("chained", 1) if line[0] == "groupadd"]
        self.assertEqual(len(chain), 400)
        self.assertIn(["/.:/group-198", "/.:/group-199"], chain)
        fan = [line[1:] for line in lines("fanned", 1) if line[0] == "groupadd"]
        self.assertEqual(({group for group, _ in fan}, len({member for _, member in fan})), ({"/.:/group"}, 2_000))

    def test_that_a_profile_is_imported_from_or_listed(self) -> None:
        for kind, command in ("elements", "import"), ("listed", "proflist"):
            words = lines(kind, 3)
            self.assertEqual(len({tuple(line) for line in words if line[0] == "profadd"}), 2_000, kind)
            self.assertEqual([line[0] for line in words[-3:]], [command] * 3, kind)


class Growth(unittest.TestCase):
    def test_that_a_line_has_each_step_and_the_ratios(self) -> None:
        row = measure.growth_row("fanned", 8, [[10, 20, 40, 80], [20, 40, 80, 160]])
        self.assertEqual(row, "| `fanned` | 8 | 2.00, 2.00, 2.00 | 2.00, 2.00, 2.00 | 0.50, 0.50, 0.50, 0.50 |")

    def test_that_a_start_does_not_hide_which_program_grows_faster(self) -> None:
        even, square = [1_010, 1_020, 1_040, 1_080], [1_001, 1_004, 1_016, 1_064]
        self.assertTrue(measure.grows_faster(square, even))
        self.assertFalse(measure.grows_faster(even, square))
        self.assertTrue(measure.growth_row("fanned", 8, [square, even]).endswith("| faster"))


if __name__ == "__main__":
    unittest.main()
