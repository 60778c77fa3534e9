"""Tests of commands and answers: they are those of the pages, and an answer has the form of its command."""

from __future__ import annotations

import os
import re
import unittest

from cds import answers, commands

ROOT = os.path.dirname(os.path.dirname(os.path.dirname(os.path.realpath(__file__))))


def page(name: str) -> str:
    """The text of a page."""
    with open(f"{ROOT}/docs/{name}.md", encoding="utf-8") as it:
        return it.read()


def chapter(text: str, title: str) -> str:
    """A chapter of a page."""
    return re.split(r"\n## ", text.partition(f"\n## {title}\n")[2])[0]


class OfCommands(unittest.TestCase):
    """The table of commands."""

    def test_they_are_those_of_the_page(self) -> None:
        listed = re.findall(r"(?m)^\| .*", chapter(page("SCRIPT"), "All commands"))
        found = {name for row in listed for name in re.findall(r"`([a-z]+)[^`]*`", row.split(" | ")[0])}
        self.assertEqual(set(commands.RUN) - found, set())

    def test_a_line_has_the_form_of_its_command(self) -> None:
        for line in (
            "mkdir 1 1 sub 2 s3",
            "root 1",
            "put 1 1 a CDS_Class 5072",
            "octets msg 7",
            "lookup 1 low /.:/a x y z 7",
        ):
            self.assertTrue(commands.LINES[line.split()[0]].fullmatch(line), line)
        for line in (
            "mkdir 1 1 sub",
            "house 256 00000000000a",
            "put 1 1 a A 507",
            "read 1 mid /.:/a A",
            "create 0 1 a",
        ):
            self.assertFalse(commands.LINES[line.split()[0]].fullmatch(line), line)

    def test_the_places_of_houses_and_directories(self) -> None:
        self.assertEqual(commands.PLACES["mkdir"], (0, 1))
        self.assertEqual(commands.PLACES["epoch"], (1, 0))
        self.assertEqual(commands.PLACES["deliver"], (None, None))

    def test_the_form_of_a_script(self) -> None:
        self.assertEqual(commands.words_of(b"# ./cdsreplay clerk 8 <a.cds\nhouse 1 00000000000a\n"), ["clerk", "8"])
        self.assertEqual(commands.words_of(b"house 1 00000000000a\n  stop 1 1 keep root 1\n"), ["journal"])
        self.assertEqual(commands.words_of(b"image 1\n"), ["journal"])
        self.assertEqual(commands.words_of(b"house 1 00000000000a\nentrylist 1 low /.:/a\n"), ["inquire"])
        self.assertEqual(commands.words_of(b"house 1 00000000000a\n# image 1\n"), ["run"])


class OfAnswers(unittest.TestCase):
    """The tables of answers and refusals."""

    def test_refusals_are_those_of_the_pages(self) -> None:
        listed = re.findall(
            r"(?m)^\| .*", chapter(page("SCRIPT"), "All refusals") + chapter(page("FORMS"), "All refusals")
        )
        found = {name for row in listed for name in re.findall(r"`([A-Z][A-Za-z]+)[^`]*`", row.split(" | ")[0])}
        self.assertEqual(found - answers.REASONS, set())
        self.assertEqual({it for it in answers.REASONS if it not in page("SCRIPT") + page("FORMS")}, set())

    def test_each_command_has_both(self) -> None:
        self.assertEqual(set(commands.COMMANDS) - set(answers.REFUSALS), set())
        self.assertEqual(set(commands.PLAIN), set(answers.ANSWERS))

    def test_an_answer_has_the_form_of_its_command(self) -> None:
        for command, answer in [
            ("create", "ok 7@00000000000a posted 3 4"),
            ("mkdir", "ok 2 7@00000000000a"),
            ("deliver", "ok late 1 2 posted 9"),
            ("export", "ok 2"),
            ("house", "ok"),
            ("decode", "ok SpreadAck 40"),
        ]:
            self.assertTrue(answers.ANSWERS[command].fullmatch(answer), (command, answer))
            self.assertFalse(answers.ANSWERS[command].fullmatch(f"{answer} x"), (command, answer))

    def test_what_is_in_vain(self) -> None:
        for answer in ("refused Down", "7 refused NoHouse", "ok late 1 2", "9 ok noreplica"):
            self.assertTrue(answers.IN_VAIN.match(answer), answer)
        for answer in ("ok taken", "ok complete 7@00000000000a", "7 ok", "dump epoch 1"):
            self.assertFalse(answers.IN_VAIN.match(answer), answer)

    def test_lines_of_an_output(self) -> None:
        found = answers.answers_of(b"1 ok\n3 binding a\n3 end 1\n")
        self.assertEqual(found, {1: ["ok"], 3: ["binding a", "end 1"]})
        self.assertEqual(answers.serials_of("ok 7@00000000000a posted 3 4"), [3, 4])
        self.assertEqual(answers.serials_of("ok"), [])


if __name__ == "__main__":
    unittest.main()
