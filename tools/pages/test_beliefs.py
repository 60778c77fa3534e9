"""Tests of which definitions are under others, and of how many lines they have."""
from __future__ import annotations

import unittest

from pages import beliefs
from pages.invented import Invented


def names(*under: str) -> set[str]:
    """The names of the definitions under these."""
    return {it.name for it in beliefs.under(list(under))}


class Beliefs(Invented):
    """Definitions under clauses."""

    def test_a_definition_is_under_itself(self) -> None:
        self.assertEqual(names("cell_replay/Replay.is_plain"), {"is_plain"})

    def test_an_import_by_another_name_is_followed(self) -> None:
        self.assertEqual(names("cell_replay/Replay.is_read"), {"is_read", "Colour", "is_even", "is_odd", "most_of"})

    def test_a_constructor_means_its_type(self) -> None:
        self.assertEqual(names("cell_replay/Replay.is_red"), {"is_red", "Colour"})
        self.assertEqual(names("base/Numbers.Blue"), {"Colour"})

    def test_a_name_with_places_is_found(self) -> None:
        self.assertEqual(names("cell_replay/Replay.is_there"), {"is_there", "◌⊂◌", "is_even", "is_odd", "most_of"})

    def test_what_is_not_of_the_repository_is_left_out(self) -> None:
        self.assertEqual(names("cell_replay/Replay.List"), set())
        self.assertEqual(names("base/Numbers.nothing"), set())

    def test_comments_are_no_lines_of_a_definition(self) -> None:
        (even,) = (it for it in beliefs.under(["base/Numbers.is_even"]) if it.name == "is_even")
        self.assertEqual(even.lines, ["abbrev pub is_even : ℕ → Bool", "is_even 0 = true", "is_even n = is_odd n"])
        self.assertEqual(even.number, 5)

    def test_a_definition_without_words_before_it_counts(self) -> None:
        (even,) = (it for it in beliefs.under(["base/Numbers.is_even"]) if it.name == "is_even")
        self.assertEqual(sum(len(it.lines) for it in beliefs.under(["base/Numbers.is_even"])), 7)
        self.assertEqual(even.file.name, "Numbers")

    def test_all_lines_are_those_of_the_files(self) -> None:
        self.assertEqual(beliefs.all_lines(), 22 + 15)


if __name__ == "__main__":
    unittest.main()
