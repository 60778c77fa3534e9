"""Tests of answers as objects: each answer of the cases, of the examples, of the pages and of houses is read, and
written back."""

from __future__ import annotations

import json
import subprocess
import unittest

from building.sources import ROOT
from cds.commands import FORMS
from cds.objects import NoAnswer, Object, line_of, object_of
from housing import cases as of_houses
from running.case_files import all_cases
from running.documents import of_documents
from running.drawn import of_examples
from running.runs import Run

TOOL = f"{ROOT}/tools/answers"


def of_scripts() -> list[str]:
    """The answer lines of all runs that replay a script."""
    runs = [*(it for _, it in all_cases()[0]), *(it for _, it in of_documents()[0]), *of_examples()]
    texts = [
        it.output.decode("ascii")
        for it in runs
        if type(it) is Run and it.words[:1] and it.words[0] in FORMS and not it.full
    ]
    return [line for text in texts for line in text.splitlines()]


def of_all_houses() -> list[str]:
    """What houses say in their cases, and on their page."""
    every = [*(lives for _, lives in of_houses.of_file()), *(lives for _, lives in of_houses.of_page())]
    return [line for lives in every for _, said in lives for line in said]


class Objects(unittest.TestCase):
    """Both ways."""

    def same(self, lines: list[str]) -> None:
        for line in lines:
            found = json.loads(json.dumps(object_of(line)))
            self.assertEqual(line_of(found), line)
            self.assertEqual((found["line"], found["kind"]), (int(line.split()[0]), line.split()[1]))

    def test_scripts(self) -> None:
        lines = of_scripts()
        self.assertGreater(len(lines), 6000)
        self.same(lines)

    def test_houses(self) -> None:
        lines = of_all_houses()
        self.assertGreater(len(lines), 300)
        self.same(lines)

    def test_what_an_object_has(self) -> None:
        stamp = {"text": "3@00000000000a", "time": 3, "node": "00000000000a"}
        for line, due in (
            ("5 ok 3@00000000000a posted 4 5", {"stamp": stamp, "posted": [4, 5]}),
            ("7 ok 2 5072 6c", {"number": 2, "values": ["5072", "6c"]}),
            ("4 ok 2 3@00000000000a", {"number": 2, "stamp": stamp}),
            ("12 ok stale 3@00000000000a none", {"result": "stale", "stamp": stamp, "running": None}),
            ("10 refused NotJoined 1 2", {"reason": "NotJoined", "numbers": [1, 2]}),
            ("5 refused Restored 3@00000000000a", {"reason": "Restored", "stamp": stamp}),
            ("1 fault BadWord 3", {"reason": "BadWord", "place": 3}),
            ("15 binding ncacn_ip_tcp:10.0.0.3", {"binding": "ncacn_ip_tcp:10.0.0.3"}),
            (
                "19 entry lpr object 3@00000000000a live",
                {"name": "lpr", "entry": "object", "birth": stamp, "death": None},
            ),
            (
                "9 dump epoch 1 allupto none members 1:1:m",
                {"epoch": 1, "allupto": None, "members": [{"house": 1, "since": 1, "role": "m"}]},
            ),
            ("0 last create 1 lpr", {"command": "create 1 lpr"}),
            ("3 ok stopped after", {"stopped": "after"}),
        ):
            found = object_of(line)
            self.assertEqual({name: it for name, it in found.items() if name not in ("line", "kind")}, due)

    def test_what_is_no_answer(self) -> None:
        for line in (
            "",
            "ok",
            "1",
            "1 hop",
            "1  ok",
            "01 ok",
            "1 ok hop",
            "1 end x",
            "1 value 5",
            "x ok",
            "1 ok 3@0000",
        ):
            with self.assertRaises(NoAnswer):
                object_of(line)
        strange: list[Object] = [{}, {"line": 1, "kind": "ok", "hop": 1}, {"line": 1, "kind": "ok", "result": "hop"}]
        for answer in strange:
            with self.assertRaises(NoAnswer):
                line_of(answer)


class Tool(unittest.TestCase):
    """The tool as a script uses it."""

    def ran(self, text: str, *words: str) -> tuple[int, str, str]:
        ran = subprocess.run([TOOL, *words], input=text, capture_output=True, text=True, check=False)
        return ran.returncode, ran.stdout, ran.stderr

    def test_both_ways(self) -> None:
        lines = "1 ok\n2 refused NoHouse\n"
        status, objects, _ = self.ran(lines)
        self.assertEqual((status, [json.loads(it)["kind"] for it in objects.splitlines()]), (0, ["ok", "refused"]))
        self.assertEqual(self.ran(lines, "--json"), (0, objects, ""))
        self.assertEqual(self.ran(objects, "--lines"), (0, lines, ""))

    def test_faults(self) -> None:
        self.assertEqual(self.ran("1 ok\nhop\n")[::2], (1, "answers: line 2 is no answer: hop\n"))
        self.assertEqual(self.ran("3\n", "--lines")[::2], (1, "answers: line 1 is no object of an answer: 3\n"))
        self.assertEqual(self.ran("hop\n", "--lines")[0], 1)
        self.assertEqual(self.ran("", "--json", "--lines")[0], 2)
        self.assertEqual(self.ran("", "/nothing/there")[0], 1)


if __name__ == "__main__":
    unittest.main()
