"""Tests of the page of laws."""
from __future__ import annotations

import unittest

from pages import groups, laws

TEXT = """// A file.
use a::b;

/// What one
/// says.
pub fn one()
    ensures { a }
{}

pub fn two()
    ensures { b }
{}
"""


class Laws(unittest.TestCase):
    def test_a_law_says_what_its_comment_says(self) -> None:
        self.assertEqual(laws.told_in(TEXT), [("one", "What one says."), ("two", "")])

    def test_the_page_has_a_law_of_the_sources(self) -> None:
        group = groups.Group("Records", "", ("attr_sets",))
        self.assertIn("- **`joins_are_unions`**: ", laws.page([group]))


if __name__ == "__main__":
    unittest.main()
