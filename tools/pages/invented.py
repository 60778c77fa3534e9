"""A small repository of three crates, for the tests of what reads sources."""
from __future__ import annotations

import functools
import os
import tempfile
import unittest
from typing import Any
from unittest import mock

from pages import beliefs, bugs, numbers, sources

FILES = {
    "crates.txt": (
        "# NAME: what it stands on\n\n# Programs\ncell_replay: shelf base std\nshelf: base\n# Base\nbase: std\n"
    ),
    "crates/cell_replay/src/replay.rt": """//! Replays.
use crate::shelf::Shelf;

/// Replays a script.
pub fn run(shelf: &mut Shelf, line: &[u8]) -> bool
    ensures { result ≡ is_read line }
{
    shelf.take(line, tools::least(1, 2));
    // unused(1)
    say("unused(1)")
}

fn say(text: &str) -> bool {
    text.is_empty()
}

fn unused(number: u64) -> u64 {
    number
}

#[test]
fn test_runs() {
    unused(1);
}
""",
    "crates/shelf/src/shelf.rt": """use crate::held::Held;

pub struct Shelf {
    pub held: Held,
    limit: u64,
}

pub trait Form {
    fn answer(&self, line: &[u8]) -> bool;
}

impl Shelf {
    pub fn take(&mut self, line: &[u8], most: u64) {
        self.held.put(line);
    }

    pub fn take_all(&mut self) {}
}

impl Held {
    fn put(&mut self, line: &[u8]) {
        MOST;
    }
}

impl Box {
    fn put(&mut self, line: &[u8]) {}
}

impl<'a> Form for Box {
    fn answer(&self, line: &[u8]) -> bool {
        true
    }
}
""",
    "crates/base/src/tools.rt": """pub const MOST: u64 = 4_096;

pub fn least(one: u64, other: u64) -> u64 {
    if one < other { one } else { other }
}

pub fn greatest(one: u64, other: u64) -> u64 {
    one.max(other)
}
""",
    "crates/base/src/laws.rt": "pub fn least_is_first() {}\n",
    "crates/base/specs/Numbers.antt": """-- Numbers (own).
use Rattle.std.specs.Prelude.{ℕ, Bool}

-- an even number (own)
abbrev pub is_even : ℕ → Bool
is_even 0 = true
-- (a comment inside)
is_even n = is_odd n

is_odd : ℕ → Bool
is_odd n = most_of n

-- a colour
pub data Colour : Type 0 where
  pub Red : Colour
  pub Blue : ℕ → Colour

abbrev pub most_of : ℕ → ℕ
most_of n = 4096

abbrev pub ◌⊂◌ : ℕ → ℕ → Bool
n ⊂ m = is_even m
""",
    "crates/cell_replay/specs/Replay.antt": """use Rattle.base.specs.Numbers.{Colour, Red, ◌⊂◌}
use Rattle.base.specs.Numbers as N
use Rattle.std.specs.Prelude.{List}

abbrev pub is_read : List Colour → Bool
is_read l = N.is_even 1

abbrev pub is_red : Colour → Bool
is_red Red = true

abbrev pub is_there : Bool
is_there = 1 ⊂ 2

abbrev pub is_plain : Bool
is_plain = true
""",
    "crates/base/plants/swapped.edit": "file: src/tools.rt\nold: one < other\nnew: other < one\n",
    "crates/base/plants/larger.edit": "file: src/tools.rt\nold: 4_096\nnew: 4_097\n",
    "crates/base/must-fail/odd.edit": "file: specs/Numbers.antt\nold: is_even 0 = true\nnew: is_even 0 = false\n",
    "crates/cell_replay/plants/nothing.edit": "file: src/replay.rt\nold: number\nnew: 0\n",
    "crates/cdsreplay/cases/first.case": "--- run\n--- 0\n",
    "tools/housing/program_tests.py": "class OfPrograms:\n    def test_lives(self):\n        pass\n",
}
CACHED: tuple[functools._lru_cache_wrapper[Any], ...] = (
    sources.text_of, sources.stood_on, sources.functions, sources.fields, sources.traits, sources.reached,
    sources.bugs, sources.cases, sources.house_tests, sources.tests, beliefs.files, bugs.functions_in, bugs.callers,
    numbers.constants,
)  # fmt: skip


def forget() -> None:
    """Forgets what was read of another repository."""
    for it in CACHED:
        it.cache_clear()


class Invented(unittest.TestCase):
    """Tests in a folder that has the files of the small repository."""

    def setUp(self) -> None:
        folder = tempfile.TemporaryDirectory()
        self.addCleanup(folder.cleanup)
        self.folder = folder.name
        for path, text in FILES.items():
            self.write(path, text)
        placed = mock.patch.object(sources, "ROOT", folder.name)
        placed.start()
        self.addCleanup(forget)
        self.addCleanup(placed.stop)
        forget()

    def write(self, path: str, text: str) -> None:
        """Writes a file of the repository."""
        os.makedirs(os.path.dirname(f"{self.folder}/{path}"), exist_ok=True)
        with open(f"{self.folder}/{path}", "w", encoding="utf-8") as it:
            it.write(text)
        forget()

    def function(self, name: str, owner: str = "") -> sources.Function:
        """The function of this name, of this type."""
        return next(it for it in sources.functions() if (it.name, it.owner) == (name, owner))
