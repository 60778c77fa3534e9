"""Tests of how the sources look."""

from __future__ import annotations

import unittest

from pages import style
from pages.invented import Invented

LONG = "x" * 60
ROW = "".join(f"    let number_{it} = one_of_them({it}, most_of_it);\n" for it in range(7))
SOURCE = f"""// It stands here.
/// The same, of another one.
pub fn run() {{ ensures {LONG}{LONG} }}
use {LONG}::{LONG};
// {LONG}{LONG}
{ROW}"""
DEFINITIONS = f"""use Rattle.shelf.specs.Names.(held)
use Rattle.base.specs.Names.(kept)
-- (this was told before)
pub listed : Bool
abbrev pub held : Bool
pub is_listed : Bool
pub wide : {LONG}{LONG}
"""


class Style(Invented):
    """Places of each kind."""

    def setUp(self) -> None:
        super().setUp()
        self.write("crates/shelf/src/here.rt", SOURCE)
        self.write("crates/shelf/src/there.rt", f"{ROW}\n// other words\n")
        self.write("crates/cell_replay/specs/Words.antt", DEFINITIONS)

    def places(self, kind: str) -> list[str]:
        """The places of a kind."""
        return list(style.KINDS[kind]())

    def test_wide_lines_are_found_but_for_imports(self) -> None:
        self.assertEqual(self.places("wide clause"), ["crates/shelf/src/here.rt:3"])
        self.assertEqual(self.places("wide comment"), ["crates/shelf/src/here.rt:5"])
        self.assertEqual(self.places("wide definition"), ["crates/cell_replay/specs/Words.antt:7"])

    def test_words_are_those_of_comments(self) -> None:
        self.assertEqual(self.places("stands"), ["crates/shelf/src/here.rt:1"])
        self.assertEqual(self.places("told"), ["crates/cell_replay/specs/Words.antt:3"])
        self.assertEqual(self.places("behind"), [])
        self.assertEqual(self.places("the same .."), ["crates/shelf/src/here.rt:2"])

    def test_participles_are_names_of_one_word(self) -> None:
        self.assertEqual(self.places("participle"), [f"crates/cell_replay/specs/Words.antt:{it}" for it in (4, 5)])

    def test_twins_are_named_together(self) -> None:
        self.assertEqual(self.places("twin"), ["crates/cell_replay/specs/Words.antt: Names"])

    def test_six_equal_lines_are_a_pair(self) -> None:
        self.assertEqual(self.places("pair"), ["crates/shelf/src/there.rt:1 as crates/shelf/src/here.rt:6"])


class Counts(unittest.TestCase):
    """Counts that are noted, and compared."""

    def test_counts_are_read(self) -> None:
        self.assertEqual(style.counts("wide clause: 3\nthe same ..: 0\n\n"), {"wide clause": 3, "the same ..": 0})

    def test_more_than_was_noted_is_said_and_counted(self) -> None:
        said, grown = style.changes(
            {"pair": 1, "twin": 2, "told": 1}, {"pair": ["a", "b"], "twin": ["a"], "told": ["a"]}
        )
        self.assertEqual(grown, 1)
        self.assertEqual([it.split(",")[0] for it in said], ["pair: 2", "twin: 1"])

    def test_only_a_lower_count_is_noted(self) -> None:
        now = {"pair": ["a", "b"], "twin": ["a"], "new": ["a"]}
        self.assertEqual(style.noted({"pair": 1, "twin": 2}, now), {"pair": 1, "twin": 1, "new": 1})


if __name__ == "__main__":
    unittest.main()
