"""Tests of how a tool begins and ends, with one that is made up."""

from __future__ import annotations

import os
import subprocess
import sys
import tempfile
import unittest

from cds import tool

TOOLS = os.path.dirname(os.path.dirname(os.path.realpath(__file__)))
DOC = """Counts.

    tools/counts [--far] NAME
    tools/counts --all

It has nothing else to say.
"""
TOOL = f'''"""{DOC}"""
import sys
sys.path.insert(0, {TOOLS!r})
from cds import tool


def main(words):
    words_of = tool.Words(__doc__)
    words_of.add_argument("--far", action="store_true")
    words_of.add_argument("name")
    for number in range(10 if not words_of.parse_args(words).far else 1000000):
        print(number)
    return tool.summed(3, 1)


tool.run(main)
'''


def text_of(path: str) -> str:
    """The text of a file."""
    with open(path, encoding="utf-8", errors="replace") as it:
        return it.read()


class OfTools(unittest.TestCase):
    """A tool that counts to ten, or far."""

    def setUp(self) -> None:
        place = tempfile.TemporaryDirectory()
        self.addCleanup(place.cleanup)
        self.path = f"{place.name}/counts"
        with open(self.path, "w", encoding="utf-8") as it:
            it.write(TOOL)

    def ran(self, *words: str) -> subprocess.CompletedProcess[str]:
        return subprocess.run([sys.executable, self.path, *words], capture_output=True, text=True, check=False)

    def test_help_is_the_docstring(self) -> None:
        ran = self.ran("--help")
        self.assertEqual((ran.returncode, ran.stdout, ran.stderr), (0, DOC, ""))

    def test_a_wrong_word_prints_the_ways(self) -> None:
        ran = self.ran("a", "--fa")
        self.assertEqual(ran.returncode, 2)
        self.assertEqual(ran.stderr.splitlines()[:2], ["usage: tools/counts [--far] NAME", "       tools/counts --all"])

    def test_options_may_be_between_other_words(self) -> None:
        words = tool.Words(DOC)
        words.add_argument("--far")
        words.add_argument("names", nargs="*")
        given = words.parse_args(["a", "--far", "1", "b"])
        self.assertEqual((given.names, given.far), (["a", "b"], "1"))

    def test_the_sum_is_last(self) -> None:
        ran = self.ran("a")
        self.assertEqual((ran.returncode, ran.stdout.splitlines()[-1]), (1, "3 passed, 1 failed"))

    def test_it_ends_quietly_if_nobody_reads_on(self) -> None:
        command = [sys.executable, self.path, "--far", "a"]
        with subprocess.Popen(command, stdout=subprocess.PIPE, stderr=subprocess.PIPE, text=True) as tool:
            assert tool.stdout and tool.stderr
            self.assertEqual(tool.stdout.readline(), "0\n")
            tool.stdout.close()
            self.assertEqual((tool.stderr.read(), tool.wait()), ("", 141))


class OfHelp(unittest.TestCase):
    """The tools that take their words by their docstrings."""

    def test_help_of_all(self) -> None:
        texts = {it: text_of(f"{TOOLS}/{it}") for it in os.listdir(TOOLS) if os.path.isfile(f"{TOOLS}/{it}")}
        tools = [it for it, text in texts.items() if "tool.Words(__doc__)" in text]
        self.assertGreater(len(tools), 8)
        for name in tools:
            ran = subprocess.run([f"{TOOLS}/{name}", "--help"], capture_output=True, text=True, check=False)
            with self.subTest(name):
                self.assertEqual((ran.returncode, ran.stderr), (0, ""))
                self.assertEqual(ran.stdout, texts[name].split('"""')[1])
                self.assertIn(f"\n    tools/{name}", ran.stdout)


if __name__ == "__main__":
    unittest.main()
