"""Tests of the groups of crates."""
from __future__ import annotations

import unittest

from pages import groups

TEXT = """# NAME: what it stands on

# Programs: what one runs
run: walk base
# House
walk: base

# Base
base: std

# Tests alone
tries: run
"""
EDGES: dict[str, set[str]] = {"run": {"walk", "base"}, "walk": {"base"}, "base": set(), "tries": {"run"}}


class GroupsTest(unittest.TestCase):
    """Groups are read, compared with what crates use, and drawn."""

    def setUp(self) -> None:
        self.groups = groups.read(TEXT)

    def test_headings_with_crates_are_groups(self) -> None:
        self.assertEqual(
            [(it.name, it.purpose, it.crates) for it in self.groups][:2],
            [("Programs", "what one runs", ("run",)), ("House", "", ("walk",))],
        )
        self.assertEqual(len(self.groups), 4)

    def test_the_order_has_no_fault(self) -> None:
        self.assertEqual(groups.faults(self.groups, EDGES), [])

    def test_a_crate_that_uses_a_higher_group_is_told(self) -> None:
        self.assertEqual(groups.faults(self.groups, {**EDGES, "base": {"walk"}}), ["base uses walk of a higher group"])

    def test_a_crate_that_uses_a_test_is_told(self) -> None:
        self.assertEqual(
            groups.faults(self.groups, {**EDGES, "walk": {"tries"}}), ["walk uses tries, which nothing may use"]
        )

    def test_an_arrow_that_others_give_is_left_out(self) -> None:
        self.assertEqual(groups.between(self.groups, EDGES)["Programs"], {"House"})

    def test_a_group_is_below_all_that_use_it(self) -> None:
        self.assertEqual(
            groups.levels(groups.between(self.groups, EDGES)), [["Tests alone"], ["Programs"], ["House"], ["Base"]]
        )

    def test_each_group_has_a_box(self) -> None:
        self.assertEqual(groups.drawn(self.groups, EDGES).count("<rect"), 4)


if __name__ == "__main__":
    unittest.main()
