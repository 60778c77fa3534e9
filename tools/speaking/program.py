"""The program that answers scripts: which one, and how it is run."""

from __future__ import annotations

import re
import subprocess
from collections.abc import Sequence

from cds import programs
from cds.commands import FORMS

STATUSES = {
    1: "could not be built",
    4: "could not read",
    5: "could not write",
    6: "ran out of memory",
    7: "has a full journal",
}


class Failed(Exception):
    """The program gave no answers that can be used."""


def path(given: str | None, is_to_be_proved: bool = False) -> str:
    """The path of the program: the one that is given, the proved one of these sources, or one that is not proved."""
    try:
        return programs.chosen("cdsreplay", given, is_to_be_proved)
    except programs.NoProgram as error:
        raise Failed("there is no program to ask") from error


class Program:
    """A program, and the form in which it replays scripts."""

    def __init__(self, given: str | None = None, form: Sequence[str] = ("run",)) -> None:
        self.path, self.form = path(given), tuple(form)

    def run(self, script: bytes, form: tuple[str, ...] = ()) -> list[str]:
        """The answers to the octets of a script, without the last line end, line by line. A fault is one of them."""
        try:
            ran = subprocess.run([self.path, *(form or self.form)], input=script, capture_output=True, check=False)
        except OSError as error:
            raise Failed(f"{self.path}: {error.strerror}") from error
        if ran.returncode not in (0, 3):
            said = STATUSES.get(ran.returncode, f"ended with status {ran.returncode}")
            raise Failed(f"{self.path} {' '.join(form or self.form)}: it {said}")
        return ran.stdout.decode("ascii", "replace").splitlines()

    def fault(self, script: bytes, form: tuple[str, ...] = ()) -> tuple[int, str, int] | None:
        """The line, the reason and the place of the first fault of a script, or None."""
        form = form or self.form
        # `check` knows the commands of `run` and `clerk`, and is quicker.
        said = self.run(script, ("check",) if form[0] in ("run", "clerk") else form)
        found = re.fullmatch(r"(\d+) fault ([A-Za-z]+) (\d+)", said[-1]) if said else None
        return (int(found.group(1)), found.group(2), int(found.group(3))) if found else None


def form_words(text: str) -> tuple[str, ...]:
    """The words of a form that replays a script, or none where these are no form."""
    words = text.split()
    if words[:1] == ["clerk"]:
        good = len(words) == 2 and bool(re.fullmatch("[1-9][0-9]{0,3}", words[1])) and int(words[1]) <= 1000
    else:
        good = len(words) == 1 and words[0] in FORMS
    return tuple(words) if good else ()


def first_line_form(script: bytes) -> tuple[str, ...]:
    """The form that the first line of a script names, as in `# ./cdsreplay journal <FILE`, or none."""
    found = re.match(rb"# \./cdsreplay ([a-z]+(?: \d+)?) <", script)
    return form_words(found.group(1).decode()) if found else ()
