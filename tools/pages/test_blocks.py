"""Tests of which commands a page shows, and of the terminal in which they run."""

from __future__ import annotations

import tempfile
import unittest

from pages.blocks import Block, Step, blocks, steps
from pages.terminals import Late, Terminal

PAGE = """# A page

```sh
./cdsreplay check <examples/first.cds     # counts
```

One has `printf lpr | xxd -p`, and `./cdsreplay run <FILE` is none. Reading fails in `./cdsreplay run <examples`.

## A door

```sh
tools/door mycell/cell.toml
```

The door keeps that terminal.

```console
$ tools/cell mycell
cell> root 1
ok posted 1
$ false
```

## Far away

Not tried by `./test`: this needs three
machines. The rest is like it.

```sh
tools/door other.toml
```

## Here again

```
tools/build
```
"""


class BlocksTest(unittest.TestCase):
    def setUp(self) -> None:
        self.blocks = blocks("docs/PAGE.md", PAGE)

    def test_the_blocks_of_a_page(self) -> None:
        due = [
            (3, "sh", ""),
            (7, "sh", ""),
            (7, "sh", ""),
            (11, "sh", ""),
            (17, "console", ""),
            (29, "sh", "this needs three machines"),
            (35, "", ""),
        ]
        self.assertEqual([(it.line, it.kind, it.reason) for it in self.blocks], due)
        self.assertEqual([it.line for it in self.blocks if it.keeps], [11])
        self.assertEqual([it.lines for it in self.blocks if it.fails], [("./cdsreplay run <examples",)])

    def test_the_commands_of_a_block(self) -> None:
        self.assertEqual(steps(self.blocks[0]), [Step("./cdsreplay check <examples/first.cds")])
        self.assertEqual(
            steps(self.blocks[4]), [Step("tools/cell mycell", ("root 1",), ("ok posted 1",)), Step("false", (), ())]
        )

    def test_what_no_block_may_have(self) -> None:
        self.assertEqual(self.blocks[-1].fault(), "a block of no kind has a command: tools/build")
        self.assertEqual(Block("P", 1, "sh", ("tools/nothing x",)).fault(), "there is no such program: tools/nothing x")
        self.assertEqual([it.fault() for it in self.blocks[:-1]], [None] * 6)
        with self.assertRaises(ValueError):
            blocks("P", "Not tried by `./test`, so there.")

    def test_a_mark_before_the_first_part_is_of_the_whole_page(self) -> None:
        found = blocks("P", "Not tried by `./test`: why.\n\n## One\n\n```sh\nx\n```\n## Two\n\n```sh\ny\n```\n")
        self.assertEqual([it.reason for it in found], ["why", "why"])


class TerminalTest(unittest.TestCase):
    def setUp(self) -> None:
        folder = tempfile.TemporaryDirectory()
        self.addCleanup(folder.cleanup)
        self.terminal = Terminal(folder.name)
        self.addCleanup(self.terminal.close)

    def test_commands_follow_one_another(self) -> None:
        self.assertEqual(self.terminal.run("export A=b; echo x >file"), (0, ""))
        self.assertEqual(self.terminal.run("cat file - ; echo $A; false", "typed\n"), (1, "x\ntyped\nb\n"))

    def test_a_command_that_goes_on(self) -> None:
        self.terminal.keep("echo it is open; touch there; sleep 60")
        self.assertEqual(self.terminal.run("until [ -e there ]; do sleep 0.01; done")[0], 0)
        with self.assertRaises(Late):
            self.terminal.keep("false")


if __name__ == "__main__":
    unittest.main()
