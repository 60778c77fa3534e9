"""Tests of which functions planted bugs belong to."""
from __future__ import annotations

import unittest

from pages import bugs
from pages.invented import Invented


class Bugs(Invented):
    """Planted bugs, and the functions of a page."""

    def test_a_bug_changes_the_function_that_has_its_text(self) -> None:
        self.assertEqual({it.name for it in bugs.changed("base", "swapped")}, {"least"})

    def test_a_bug_of_a_constant_changes_who_names_it(self) -> None:
        self.assertEqual({(it.owner, it.name) for it in bugs.changed("base", "larger")}, {("Held", "put")})

    def test_a_bug_of_a_definition_changes_the_laws(self) -> None:
        self.assertEqual({it.name for it in bugs.changed("base", "odd")}, {"least_is_first"})

    def test_a_bug_belongs_to_the_nearest_callers(self) -> None:
        run, take = self.function("run"), self.function("take", "Shelf")
        self.assertEqual(bugs.nearest({self.function("least")}, {run, take}), {run})
        self.assertEqual(bugs.nearest({self.function("put", "Held")}, {run, take}), {take})
        self.assertEqual(bugs.nearest({self.function("greatest")}, {run, take}), set())

    def test_a_bug_of_no_function_is_lost(self) -> None:
        found, lost = bugs.by_function({self.function("run")})
        self.assertEqual(found, {self.function("run"): [("base", "larger"), ("base", "swapped")]})
        self.assertEqual(lost, [("base", "odd"), ("cell_replay", "nothing")])


if __name__ == "__main__":
    unittest.main()
