"""Tests of how planted bugs are read and tried, over a crate and a prover that are made up: nothing is proved."""

from __future__ import annotations

import os
import tempfile
import unittest
from unittest import mock

from planting import copies
from planting.copies import plants_of, try_crate
from planting.plants import BAD, BY_NAME, PASSED, REFUSED, UNTRIED, Plant, function_at
from planting.verdicts import fallen_in, has_ended, is_named, is_of, is_proved, last_words, verdicts_in

SOURCE = """use std::mem;

const MOST: u64 = 7;

/// Adds.
pub fn add(a: u64) -> u64 {
    a + 1
}

impl Count {
    pub fn less(&self) -> u64 {
        self.number - 1
    }
}

impl Clone for Count {
    fn clone(&self) -> Count {
        Count { number: self.number }
    }
}

fn short() -> u64 { 2 }
"""
# A prover: a function is proved if its text is as it was. One that calls `add` falls with it.
PROVER = r"""#!/bin/sh
echo "$*" >>"$NOTED"
text=$(cat src/lib.rt)
has() { case $text in *"$1"*) return 0 ;; esac; return 1; }
sum=proved
say() { echo "fn $1: $2"; case $2 in proved) ;; *) sum=not-proved ;; esac; }
if has 'a + 1'; then say c::add proved; else say c::add 'not proved: the result is another'; fi
if has 'number - 1'; then
    if has 'a + 1'; then say c::Count::less proved; else say c::Count::less 'not proved: it calls c::add'; fi
elif has 'number - 3'; then say c::Count::less proved
elif has 'number - 4'; then
    say c::Count::less 'not proved'
    echo 'proofs/Count/less/Main.antt:1:2: error: `number` is not in scope'
else say c::Count::less 'could not tell'; fi
if has 'u64 { 2 }'; then say c::short proved; else say c::short 'no proof: 3 is no 2'; fi
has 'MOST: u64 = 7' || sum=not-proved
if has 'Syntax'; then echo 'error: a word'; else echo "logic=$sum"; fi
"""


class OfTexts(unittest.TestCase):
    """What is read of a source, and of a planted bug."""

    def test_the_function_around_a_place(self) -> None:
        for text, due in [
            ("a + 1", "add"),
            ("self.number - 1", "Count::less"),
            ("u64 { 2 }", "short"),
            ("MOST: u64", None),
            ("impl Count", None),
        ]:
            self.assertEqual(function_at(SOURCE, SOURCE.index(text)), due, text)

    def test_a_bug_has_its_changes(self) -> None:
        plant = Plant("c", "x", "file: src/lib.rt\nold: a + 1\nnew: a + 2\nold: MOST: u64 = 7\nnew: MOST: u64 = 8\n")
        self.assertEqual(plant.changes, [("a + 1", "a + 2"), ("MOST: u64 = 7", "MOST: u64 = 8")])
        changed = plant.changed(SOURCE)
        self.assertTrue(changed and "a + 2" in changed and "= 8" in changed)
        # (a change that is in no function makes it one of the whole crate)
        self.assertEqual(plant.heads(SOURCE), [])

    def test_a_bug_that_cannot_be_planted(self) -> None:
        self.assertIsNone(Plant("c", "x", "file: src/lib.rt\nold: u64\nnew: u32\n").changed(SOURCE))
        self.assertIsNone(Plant("c", "x", "file: src/lib.rt\n").changed(SOURCE))

    def test_what_refuses_a_bug(self) -> None:
        plant = Plant("c", "x", "")
        for reasons, kind in [
            (["the result is another"], REFUSED),
            (["`number` is not in scope"], BY_NAME),
            (["`number` is not in scope", "the result is another"], REFUSED),
            (["it does not cover this function"], BAD),
        ]:
            plant.fall(reasons)
            self.assertEqual(plant.kind, kind, reasons)

    def test_names_of_functions(self) -> None:
        self.assertTrue(is_named("c::maps::add", "add", "c::maps::"))
        self.assertFalse(is_named("c::sets::add", "add", "c::maps::"))
        self.assertTrue(is_named("c::Count::less", "Count::less", "c::maps::"))
        self.assertTrue(is_of("c::add::fn::0", ("c::fn::add", "c::add")))
        self.assertFalse(is_of("c::added", ("c::add",)))

    def test_what_a_check_says(self) -> None:
        said = "fn c::add: not proved: it calls c::less\nfn c::less: no proof: 3 is no 2\nfn c::x: proved\n"
        said += "logic=not-proved\n"
        self.assertEqual([name for name, _, _ in verdicts_in(said)], ["c::add", "c::less", "c::x"])
        fallen, reasons = fallen_in(said, verdicts_in(said))
        self.assertEqual(([name for name, _ in fallen], reasons), (["c::add", "c::less"], ["3 is no 2"]))
        self.assertEqual(
            (has_ended(said), is_proved(said), last_words(said).split(" / ")[-1]), (True, False, "logic=not-proved")
        )
        self.assertTrue(is_proved("logic=proved\n"))
        self.assertFalse(has_ended("error: a word\n"))


class OfTrials(unittest.TestCase):
    """Bugs that are tried on a copy of a crate."""

    def setUp(self) -> None:
        place = tempfile.TemporaryDirectory()
        self.addCleanup(place.cleanup)
        self.root = place.name
        for folder in ("crates/c/src", "crates/c/plants", "bin"):
            os.makedirs(f"{self.root}/{folder}")
        self.write("crates.txt", "b:\nc: b # a comment\nd: c\n")
        self.write("crates/c/src/lib.rt", SOURCE)
        os.makedirs(f"{self.root}/crates/b/src")
        self.write("bin/rt", PROVER)
        os.chmod(f"{self.root}/bin/rt", 0o755)
        there = {"PATH": f"{self.root}/bin:{os.environ['PATH']}", "NOTED": f"{self.root}/noted"}
        self.enterContext(mock.patch.object(copies, "ROOT", self.root))
        self.enterContext(mock.patch.dict(os.environ, there))

    def write(self, path: str, text: str) -> None:
        with open(f"{self.root}/{path}", "w", encoding="utf-8") as it:
            it.write(text)

    def tried(self, **changes: tuple[str, str]) -> dict[str, str]:
        """What came of bugs that each change a text to another."""
        for name, (old, new) in changes.items():
            self.write(f"crates/c/plants/{name}.edit", f"file: src/lib.rt\nold: {old}\nnew: {new}\n")
        plants = plants_of("c", ["must-fail", "plants"])
        self.assertEqual([it.name for it in plants], sorted(changes))
        try_crate("c", plants)
        return {it.name: it.kind for it in plants}

    def checks(self) -> int:
        """How many checks there were."""
        with open(f"{self.root}/noted", encoding="utf-8") as it:
            return len(it.readlines())

    def test_bugs_of_different_functions_are_tried_together(self) -> None:
        found = self.tried(one=("a + 1", "a + 2"), two=("u64 { 2 }", "u64 { 3 }"))
        self.assertEqual((found, self.checks()), ({"one": REFUSED, "two": REFUSED}, 2))

    def test_bugs_of_one_function_are_tried_one_after_the_other(self) -> None:
        found = self.tried(one=("a + 1", "a + 2"), two=("a + 1", "a + 3"))
        self.assertEqual((found, self.checks()), ({"one": REFUSED, "two": REFUSED}, 3))

    def test_one_that_falls_by_a_call_is_tried_again(self) -> None:
        found = self.tried(one=("a + 1", "a + 2"), two=("self.number", "0 + self.number"))
        # (`self.number` is there twice)
        self.assertEqual(found, {"one": REFUSED, "two": BAD})
        found = self.tried(one=("a + 1", "a + 2"), two=("pub fn less(&self)", "pub fn less(& self)"))
        self.assertEqual(found, {"one": REFUSED, "two": PASSED})

    def test_one_that_is_let_through(self) -> None:
        self.assertEqual(self.tried(one=("number - 1", "number - 3")), {"one": PASSED})

    def test_one_that_is_refused_by_name(self) -> None:
        self.assertEqual(self.tried(one=("number - 1", "number - 4")), {"one": BY_NAME})

    def test_one_of_which_the_prover_cannot_tell(self) -> None:
        self.assertEqual(self.tried(one=("number - 1", "number - 5")), {"one": UNTRIED})

    def test_one_that_cannot_be_read(self) -> None:
        self.assertEqual(self.tried(one=("a + 1", "a + 1 Syntax")), {"one": BAD})

    def test_one_outside_functions(self) -> None:
        self.assertEqual(
            self.tried(one=("MOST: u64 = 7", "MOST: u64 = 8"), two=("use std::mem", "use std::cmp")),
            {"one": REFUSED, "two": PASSED},
        )

    def test_a_crate_that_is_not_proved(self) -> None:
        self.write("crates/c/src/lib.rt", SOURCE.replace("u64 { 2 }", "u64 { 9 }"))
        self.assertEqual(self.tried(one=("a + 1", "a + 2")), {"one": UNTRIED})

    def test_the_checkout_is_not_touched(self) -> None:
        self.tried(one=("a + 1", "a + 2"))
        with open(f"{self.root}/crates/c/src/lib.rt", encoding="utf-8") as it:
            self.assertEqual(it.read(), SOURCE)


if __name__ == "__main__":
    unittest.main()
