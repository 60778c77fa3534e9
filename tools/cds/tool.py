"""How a tool begins and ends: its words by what its docstring says of them, its sum, and a reader of its output that
goes away."""

from __future__ import annotations

import argparse
import os
import signal
import sys
import unittest
from collections.abc import Callable, Iterable
from typing import NoReturn

# Modules are compiled once, into out/, and not beside their sources.
sys.pycache_prefix = f"{os.path.dirname(os.path.dirname(os.path.dirname(os.path.realpath(__file__))))}/out/python"
sys.dont_write_bytecode = bool(os.environ.get("PYTHONDONTWRITEBYTECODE"))


class Words(argparse.ArgumentParser):
    """The words of a tool. `--help` prints its docstring, and a wrong word the lines of it that begin with the tool's
    path."""

    def __init__(self, doc: str) -> None:
        ways = [line.strip() for line in doc.split("\n\n")[1].splitlines()]
        super().__init__(ways[0].split()[0], usage="\n       ".join(ways), allow_abbrev=False)
        self.doc = doc
        setattr(self, "parse_args", self.parsed)

    def parsed(self, words: list[str] | None = None, given: argparse.Namespace | None = None) -> argparse.Namespace:
        """The words. Options may be between the others, if none of these takes all that is left."""
        if any(it.nargs == argparse.REMAINDER for it in self._actions):
            return super().parse_args(words, given)
        return self.parse_intermixed_args(words, given)

    def format_help(self) -> str:
        return f"{self.doc.strip()}\n"


def summed(passed: int, failed: int) -> int:
    """Prints how many things passed and failed, and returns the exit status."""
    print(f"{passed} passed, {failed} failed")
    return 1 if failed else 0


def tested(tests: Iterable[unittest.TestCase]) -> int:
    """Runs tests, prints what fails and the sum, and returns the exit status."""
    found = unittest.TextTestRunner(sys.stdout, verbosity=0).run(unittest.TestSuite(tests))
    failed = len({id(getattr(test, "test_case", test)) for test, _ in (*found.failures, *found.errors)})
    return summed(found.testsRun - failed, failed)


def fail(tool: str, fault: object, status: int = 1) -> int:
    """Says why a tool ends, and returns the exit status."""
    print(f"{tool}: {fault}", file=sys.stderr)
    return status


def leave_output() -> None:
    """What could not be written is not tried again at the end."""
    os.dup2(os.open(os.devnull, os.O_WRONLY), 1)


def run(main: Callable[[list[str]], int]) -> NoReturn:
    """Runs a tool, and ends with its status. It ends quietly if nobody reads its output any more, or somebody
    interrupts it."""
    try:
        try:
            status = main(sys.argv[1:])
        finally:
            sys.stdout.flush()
    except BrokenPipeError:
        leave_output()
        status = 128 + signal.SIGPIPE
    except KeyboardInterrupt:
        status = 128 + signal.SIGINT
    sys.exit(status)
