"""Tests of the console of a cell: it numbers directories and epochs."""

from __future__ import annotations

import unittest

from cds.console import Console


class OfConsoles(unittest.TestCase):
    """A console of one directory."""

    def test_console(self) -> None:
        console = Console()
        console.done(3, "root s1 5")
        assert console.epoch_line(1, 5, ["7", "s3"]) == "epoch 1 2 3:1:s 5:1:m 7:2:r - 1"
        console.done(5, "epoch 1 2 3:1:s 5:1:m 7:2:r - 1")
        assert (console.master(1), console.others(1)) == (5, ["s3", "7"])
        assert console.epoch_line(1, 5, ["1"]) == "epoch 1 3 1:3:r 5:1:m - 3 7"
        assert console.mkdir_line(1, "a", ["2"]) == "mkdir 1 a 2 2"


if __name__ == "__main__":
    unittest.main()
