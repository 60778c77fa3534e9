"""The scripts of examples/ with their answers and pictures, and the runs of tools/picture."""

from __future__ import annotations

import functools
import importlib.machinery
import importlib.util
import io
import os
import re
import subprocess
import tempfile
from types import ModuleType

from cds.commands import words_of
from running.runs import ROOT, SECONDS, Run, difference, open_octets, status_of

PICTURE = f"{ROOT}/tools/picture"
PICTURE_CASES = f"{ROOT}/tools/pictures/cases"


@functools.cache
def picture_tool() -> ModuleType:
    """Returns tools/picture as a module, which is faster than a process for each run."""
    loader = importlib.machinery.SourceFileLoader("picture", PICTURE)
    spec = importlib.util.spec_from_loader("picture", loader)
    assert spec
    module = importlib.util.module_from_spec(spec)
    loader.exec_module(module)
    return module


class Drawing:
    """A run of tools/picture over a script and answers, and what its picture has, or what it says instead."""

    def __init__(self, name: str, words: list[str], script: bytes, answers: bytes, said: bytes, status: int) -> None:
        self.name, self.words, self.script, self.answers = name, words, script, answers
        self.said, self.status = said, status

    def fault(self, program: str) -> str | None:
        """Returns what differs, or None. A page is made with the program."""
        picture, streams = picture_tool(), [io.BytesIO(it) for it in (self.script, b"")]
        errors, asked = io.StringIO(), ["--program", program] if "--page" in self.words else []
        with tempfile.NamedTemporaryFile() as answers:
            answers.write(self.answers)
            answers.flush()
            try:
                status = picture.run([*self.words, *asked, "-", answers.name], *streams, errors)
            except (Exception, SystemExit) as error:
                return f"it fails with {error!r}"
        svg, said = streams[1].getvalue().decode(), errors.getvalue().encode()
        if status != self.status:
            return f"status {status}, not {self.status}, and standard error has {said[:200]!r}"
        if self.status:
            return (
                difference(self.said, said) if said != self.said else "standard output has a picture" if svg else None
            )
        wrong = [it for it in self.said.decode().splitlines() if not is_so(it, svg)]
        return "it does not hold that the picture " + "; ".join(wrong) if wrong else None


class Example:
    """The picture of an example, which has to be what tools/picture draws from the answers of the program."""

    def __init__(self, name: str) -> None:
        self.name = f"examples/{name}.svg"
        self.script, self.picture = f"{ROOT}/examples/{name}.cds", f"{ROOT}/examples/{name}.svg"

    def fault(self, program: str) -> str | None:
        """Returns what differs, or None."""
        octets = [open_octets(it) for it in (self.script, self.picture)]
        answers = subprocess.run(
            [program, *words_of(octets[0])], input=octets[0], stdout=subprocess.PIPE, timeout=SECONDS
        ).stdout
        ran = subprocess.run([PICTURE, self.script], input=answers, capture_output=True, timeout=SECONDS)
        if ran.stdout == octets[1]:
            return None
        return f"{difference(octets[1], ran.stdout)}, and standard error has {ran.stderr[:200]!r}"


def is_so(line: str, svg: str) -> bool:
    """Whether a line `has TEXT` or `lacks TEXT` holds of a picture."""
    verb, _, text = line.partition(" ")
    return text in svg if verb == "has" else verb == "lacks" and text not in svg


def cut_of(words: list[str], text: str) -> tuple[list[str], bytes]:
    """Returns words without `< cut N` at their end, and the text without its last N octets."""
    if words[-3:-1] == ["<", "cut"]:
        return words[:-3], text.encode()[: -int(words[-1])]
    return words, text.encode()


def drawings(path: str) -> list[Drawing]:
    """Returns the runs of tools/picture that a file has."""
    with open(path, encoding="utf-8", newline="\n") as it:
        parts = re.split(r"^---(.*)\n", it.read(), flags=re.M)[1:]
    runs = []
    for at in range(0, len(parts), 6):
        head, script, middle, answers, status, said = parts[at : at + 6]
        words, _, name = head.partition(" : ")
        taken, octets = cut_of(words.split(), script)
        _, answered = cut_of(middle.split(), answers)
        name = f"{os.path.basename(path)}, run {at // 6 + 1}" + (f", {name}" if name else "")
        runs.append(Drawing(name, taken, octets, answered, said.encode(), int(status)))
    return runs


def pictures() -> tuple[list[Drawing | Example], list[str]]:
    """Returns the runs of tools/picture and the pictures of the examples, and what is wrong with the files."""
    names = {it[:-4] for it in os.listdir(f"{ROOT}/examples") if it.endswith(".svg")}
    many = {
        it for it in examples() if re.search(rb"(?s)(\A|\n)house .*\nhouse ", open_octets(f"{ROOT}/examples/{it}.cds"))
    }
    faults = [f"examples/{it}.svg is not of an example with more than one house" for it in sorted(names - many)]
    try:
        runs = [it for file in sorted(os.listdir(PICTURE_CASES)) for it in drawings(f"{PICTURE_CASES}/{file}")]
        return [*runs, *(Example(it) for it in sorted(many))], faults
    except (ValueError, IndexError, UnicodeError) as error:
        return [], [f"{os.path.basename(PICTURE_CASES)} can't be read: {error}"]


def examples() -> list[str]:
    """Returns the names of the scripts of examples/, without `.cds`."""
    return sorted(it[:-4] for it in os.listdir(f"{ROOT}/examples") if it.endswith(".cds"))


def of_examples() -> list[Run]:
    """Returns the runs of the scripts of examples/, with the answers beside them."""
    runs = []
    for name in examples():
        script, answers = (open_octets(f"{ROOT}/examples/{name}.{it}") for it in ("cds", "out"))
        runs.append(Run(f"examples/{name}.cds", words_of(script), script, answers, status_of(answers)))
    return runs
