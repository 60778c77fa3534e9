"""Tests of what runs the parts of the tests."""

from __future__ import annotations

import contextlib
import io
import unittest

from testing.parts import BOTH, MADE, PROVED, UNPROVED, Part, has_tests, parts
from testing.suite import Suite, chosen, counted, passed_over, table, with_programs


def ran(*given: Part) -> tuple[tuple[int, int], str]:
    """How much passed and failed of these parts, and what was printed."""
    with contextlib.redirect_stdout(io.StringIO()) as said:
        found = Suite(given).run()
    return (found.passed, found.failed), said.getvalue()


def shell(name: str, line: str, programs: tuple[str, ...] = (), needs: str = "") -> Part:
    """A part that runs a line of shell."""
    return Part(name, "what it tries", ("sh", "-c", line), programs, 0.1, needs)


class OfCounts(unittest.TestCase):
    """How much passed and failed by what a command says."""

    def test_a_sum_counts(self) -> None:
        self.assertEqual(counted(0, "many words\n12 passed, 0 failed\n"), (12, 0))
        self.assertEqual(counted(1, "12 passed, 3 failed"), (12, 3))

    def test_a_status_without_a_sum_counts_one(self) -> None:
        self.assertEqual((counted(0, "all well\n"), counted(1, "")), ((1, 0), (0, 1)))

    def test_a_status_against_the_sum_is_a_failure(self) -> None:
        self.assertEqual(counted(1, "12 passed, 0 failed\n"), (12, 1))

    def test_a_sum_in_the_middle_is_none(self) -> None:
        self.assertEqual(counted(0, "12 passed, 3 failed\nall well\n"), (1, 0))

    def test_the_tests_of_a_crate_count(self) -> None:
        self.assertEqual(counted(0, "test result: ok. 7 passed; 0 failed; 0 ignored\nrun=ended status=0\n"), (7, 0))
        self.assertEqual(counted(101, "test result: FAILED. 6 passed; 1 failed; 0 ignored\n"), (6, 1))


class OfSuites(unittest.TestCase):
    """Parts that run."""

    def test_sums_are_added(self) -> None:
        self.assertEqual(
            ran(shell("a", "echo 3 passed, 0 failed"), shell("b", "exit 1"), shell("c", "exit 0"))[0], (4, 1)
        )

    def test_a_program_is_found_before_what_runs_it(self) -> None:
        found, said = ran(shell("cdsmend", "echo /a/path"), Part("after", "", ("echo", "{cdsmend}"), ("cdsmend",)))
        self.assertEqual(found, (2, 0))
        self.assertIn("\n/a/path\n== after", said)

    def test_without_its_program_a_part_fails(self) -> None:
        found, said = ran(shell("cdsmend", "exit 1"), Part("after", "", ("echo", "{cdsmend}"), ("cdsmend",)))
        self.assertEqual(found, (0, 2))
        self.assertIn("== after: not run", said)

    def test_without_its_command_a_part_is_passed_over(self) -> None:
        found, said = ran(shell("a", "exit 1", needs="no-such-command"))
        self.assertEqual(found, (0, 0))
        self.assertIn("passed over", said)

    def test_a_command_that_is_not_there_fails(self) -> None:
        self.assertEqual(ran(Part("a", "", ("./no-such-command",)))[0], (0, 1))

    def test_words_get_paths(self) -> None:
        self.assertEqual(with_programs(("run", "{cdsmend}", "{other}"), {"cdsmend": "/a"}), ["run", "/a", "{other}"])


class OfParts(unittest.TestCase):
    """The parts that there are."""

    def test_names_are_different(self) -> None:
        for kind in BOTH:
            names = [it.name for it in parts(kind)]
            self.assertEqual(len(names), len({*names}))

    def test_a_part_names_the_programs_that_it_runs(self) -> None:
        for part in parts(UNPROVED) + parts(PROVED):
            named = {it[1:-1] for it in part.words if it[1:-1] in MADE and it[:1] == "{"}
            self.assertEqual(named, {*part.programs}, part.name)

    def test_the_programs_come_with_a_name(self) -> None:
        self.assertEqual([it.name for it in chosen(parts(UNPROVED), ["house"])], ["cdshouse", "house"])
        self.assertEqual(chosen(parts(UNPROVED), []), parts(UNPROVED))

    def test_crates_with_tests_are_parts(self) -> None:
        self.assertTrue(has_tests("line_tests"))
        self.assertFalse(has_tests("cds_base"))
        self.assertIn("line_tests", {it.name for it in parts(UNPROVED)})
        self.assertNotIn("line_tests", {it.name for it in parts(PROVED)})

    def test_what_is_left_out_is_said(self) -> None:
        self.assertIn("starved", passed_over(UNPROVED))
        self.assertEqual(passed_over(PROVED), "")
        self.assertIn("rules", table(parts(UNPROVED)))


if __name__ == "__main__":
    unittest.main()
