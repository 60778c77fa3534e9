"""Tests of how the sources of the crates are read."""
from __future__ import annotations

import unittest

from pages import sources
from pages.invented import Invented


class Text(unittest.TestCase):
    """Parts of a text."""

    def test_a_bare_text_has_no_comments_and_no_strings(self) -> None:
        self.assertEqual(sources.bare('a(); // b()\nsay("c(\\"d\n"); e'), 'a(); \nsay(""\n); e')

    def test_commas_in_brackets_part_nothing(self) -> None:
        self.assertEqual(
            sources.split_at_commas("a, f(b, c), M<d, e>, |x| -> y"), ["a", " f(b, c)", " M<d, e>", " |x| -> y"]
        )

    def test_what_a_bracket_encloses(self) -> None:
        self.assertEqual(sources.inside("f(a, (b), [c]) d", 1), "a, (b), [c]")
        self.assertEqual(sources.inside("f(a", 1), "a")

    def test_who_owns_a_function(self) -> None:
        self.assertEqual(sources.owner_of("impl Shelf {"), ("Shelf", ""))
        self.assertEqual(
            sources.owner_of("impl<'a, T: Copy> fmt::Form<T> for base::Box<'a> where T: Ord {"), ("Box", "Form")
        )
        self.assertEqual(sources.owner_of("pub(crate) trait Form: Sized {"), ("Form", ""))


class Functions(Invented):
    """Functions, and whom they call."""

    def test_crates_stand_on_those_of_the_repository(self) -> None:
        self.assertEqual(sources.stood_on()["cell_replay"], {"cell_replay", "shelf", "base"})
        self.assertEqual(sources.stood_on()["base"], {"base"})

    def test_each_function_is_found(self) -> None:
        found = [(it.crate, it.owner, it.trait, it.name) for it in sources.functions()]
        self.assertEqual(
            found[:4],
            [("cell_replay", "", "", it) for it in ("run", "say", "unused", "test_runs")],
        )
        self.assertEqual(
            found[4:10],
            [
                ("shelf", "Form", "", "answer"),
                ("shelf", "Shelf", "", "take"),
                ("shelf", "Shelf", "", "take_all"),
                ("shelf", "Held", "", "put"),
                ("shelf", "Box", "", "put"),
                ("shelf", "Box", "Form", "answer"),
            ],
        )
        self.assertEqual([it[3] for it in found[10:]], ["least_is_first", "least", "greatest"])

    def test_a_function_has_its_parameters(self) -> None:
        take, least = self.function("take", "Shelf"), self.function("least")
        self.assertEqual((take.is_method, take.arity), (True, 2))
        self.assertEqual((least.is_method, least.arity), (False, 2))
        self.assertEqual(self.function("run").types["shelf"], {"Shelf"})

    def test_clauses_are_of_the_head(self) -> None:
        run = self.function("run")
        self.assertIn("is_read", run.head)
        self.assertNotIn("is_read", run.body)
        self.assertEqual(run.line, 5)

    def test_tests_are_no_code(self) -> None:
        self.assertEqual(sources.tests(), {"test_runs"})

    def test_a_call_goes_to_the_type_of_its_receiver(self) -> None:
        called = sources.Calls().of(self.function("take", "Shelf"))
        self.assertEqual({(it.owner, it.name) for it in called}, {("Held", "put")})

    def test_a_call_in_a_comment_or_a_string_is_none(self) -> None:
        called = sources.Calls().of(self.function("run"))
        self.assertEqual({it.name for it in called}, {"take", "least", "say"})

    def test_what_can_be_come_to(self) -> None:
        names = {(it.owner, it.name) for it in sources.reached()}
        self.assertEqual(names, {("", "run"), ("", "say"), ("Shelf", "take"), ("Held", "put"), ("", "least")})

    def test_a_call_of_a_trait_comes_to_all_that_implement_it(self) -> None:
        text = sources.text_of("crates/cell_replay/src/replay.rt")
        body = '    say("unused(1)")\n'
        self.write("crates/cell_replay/src/replay.rt", text.replace(body, f"    form.answer(line);\n{body}"))
        names = {(it.owner, it.name) for it in sources.reached()}
        self.assertLessEqual({("Form", "answer"), ("Box", "answer")}, names)

    def test_what_is_planted_and_tested(self) -> None:
        self.assertEqual(sources.bugs()["base", "swapped"], (["src/tools.rt"], ["one < other"]))
        self.assertEqual(len(sources.bugs()), 4)
        self.assertEqual(sources.cases(), ["first"])
        self.assertEqual(sources.house_tests(), {"house.case", "test_lives"})


if __name__ == "__main__":
    unittest.main()
