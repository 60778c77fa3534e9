"""Tests of which files match over what a change adds to."""
from __future__ import annotations

import unittest

from pages import matching
from pages.invented import Invented

CODE = """fn act(it: &Command) {
    match it {
        Command::Root => root(),
        Command::Mkdir(house, _) => mkdir(house),
        Command::Crash | Command::Start => {}
    }
    let other = Command::Skulk(1);
}
"""
MODEL = "pub data Command : Type 0 where\n  pub Root : Command\n  pub Mkdir : ℕ → Command\n  Crash : Command\n\n"
ROWS = """use Rattle.cell_model.specs.Commands.{Command, Root, Mkdir as Made, Crash, Start}

acts : Command → Bool
acts Root = true
acts Made = true
acts Crash = false
"""


class Matching(Invented):
    """Variants that texts name."""

    def test_patterns_name_variants(self) -> None:
        self.assertEqual(matching.in_code(CODE, "Command"), {"Root", "Mkdir", "Crash", "Start"})

    def test_definitions_use_what_they_import(self) -> None:
        found = matching.in_definitions(ROWS, r"cell_model\.specs\.Commands")
        self.assertEqual(found, {"Command", "Root", "Mkdir", "Crash"})

    def test_another_name_of_an_import_counts(self) -> None:
        text = "use Rattle.cell_script.specs.Command.TheVariants as C\n\nrow = C.Root C.Mkdir\n"
        self.assertEqual(matching.in_definitions(text, r"\w+\.Command\.TheVariants"), {"Root", "Mkdir"})

    def test_files_that_name_several_match(self) -> None:
        self.write("crates/cell_model/specs/Commands.antt", MODEL)
        self.write("crates/base/src/acting.rt", CODE)
        self.write("crates/shelf/specs/Rows.antt", ROWS)
        self.assertEqual(matching.variants("Commands", "Command"), {"Root", "Mkdir", "Crash"})
        self.assertEqual(set(matching.matching("a command")), {("base", "acting.rt"), ("shelf", "Rows")})


if __name__ == "__main__":
    unittest.main()
