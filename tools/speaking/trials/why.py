"""Trials of tools/why: wrong uses, each with the words that it gets (`wrong-*.case`), and the pages of SCRIPT.md.

A block of these is one use. Its lines begin with `form:` (the form of the program, where it is not `run`), `|` (a line
of the script; \\t, \\r and \\xNN are octets, and \\c at its end leaves the line end out), `=` (the fault, or the answer
to the last line), and `>` (what the explanation has to say).
"""

from __future__ import annotations

import glob
import os
import re
import subprocess
import sys
from collections.abc import Iterator

from cds.commands import COMMANDS
from pictures.facts import Step
from speaking import findings, language, pages, program, refusals

HERE = os.path.dirname(os.path.realpath(__file__))
WHY = f"{os.path.dirname(os.path.dirname(HERE))}/why"


def ask(path: str, script: bytes, form: str | None = None, line: int | None = None) -> tuple[str, int]:
    """What tools/why says of a script, and its exit status."""
    said: list[str] = []
    status = findings.report(
        script, program.form_words(form) if form else program.first_line_form(script), line, path, said.append
    )
    return "\n".join(said), status


def blocks() -> Iterator[tuple[str | None, bytes, str, list[str]]]:
    """The blocks of the cases: the form, the script, the fault or answer, and the phrases."""
    text = ""
    for file in sorted(glob.glob(f"{HERE}/*.case")):
        with open(file, encoding="ascii") as it:
            text += re.sub(r"(?m)^#.*\n", "", it.read()) + "\n\n"
    for block in re.split(r"\n\n+", text.strip()):
        rows = [line.partition(" ")[::2] for line in block.splitlines()]
        script = b"".join(octets(line) for mark, line in rows if mark == "|")
        form = next((line for mark, line in rows if mark == "form:"), None)
        yield form, script, next(line for mark, line in rows if mark == "="), [
            line for mark, line in rows if mark == ">"
        ]


def octets(line: str) -> bytes:
    """The octets of a line of a case."""
    ended = line if line.endswith("\\c") else line + "\n"
    return ended.removesuffix("\\c").encode("latin-1").decode("unicode_escape").encode("latin-1")


def problem_of(path: str, form: str | None, script: bytes, answer: str, phrases: list[str]) -> str | None:
    """What is wrong with the explanation of a wrong use, or None."""
    said, status = ask(path, script, form)
    # (A command of another form is no fault there.)
    fault = answer.split()[0] in language.FAULTS and "replay this by" not in "".join(phrases)
    if status != (3 if fault or answer.startswith("no script") else 0):
        return f"status {status}: {said}"
    ran = program.Program(path, (form or "run").split()).run(script) if not answer.startswith("no script") else [answer]
    if not ran or not ran[-1].endswith(answer):
        return f"the program answers {ran[-1:]}"
    missing = [phrase for phrase in phrases if phrase not in said]
    return f"it does not say `{missing[0]}`, but\n{said}" if missing else None


def wrong_uses(path: str) -> Iterator[tuple[str, str | None]]:
    """Each block of the case."""
    count = 0
    for form, script, answer, phrases in blocks():
        count += 1
        yield repr(script[:70]), problem_of(path, form, script, answer, phrases)
    yield "how many wrong uses there are", None if count >= 61 else f"{count} of 61"


def faults_of_the_page(path: str) -> Iterator[tuple[str, str | None]]:
    """Each faulty line that SCRIPT.md lists gets its place marked, and a line of what to do that is no mere form."""
    for line, fault, form in re.findall(r"(?m)^\| (`.*`) \| `1 fault ([A-Za-z]+ \d+)` \|()$", pages.text()):
        for script in re.findall("`([^`]+)`", line):
            form = language.form_of(script.split()[0]) or "run"
            said, status = ask(path, f"{script}\n".encode(), form)
            good = status == 3 and fault in said and re.search(r"(?m)^ *\^+$", said) and len(said.splitlines()) >= 5
            yield script, None if good else said


def tables(_: str | tuple[str | None, ...] | list[str | int | Step] | None) -> Iterator[tuple[str, str | None]]:
    """The tables of SCRIPT.md are found, and each refusal has help."""
    yield "words", None if {"H", "NODE", "VALUE", "R.."} <= set(pages.words()) else str(sorted(pages.words()))
    lacking = [it for it in COMMANDS if it not in pages.commands()]
    yield "what each command does", str(lacking) if lacking else None
    lacking = [it for it in COMMANDS if it not in ("image",) and not pages.paragraph(it)]
    yield "paragraphs of commands", str(lacking) if lacking else None
    patterns = set(re.findall(r"(?m)^\| \[?`([a-z]+ [^`]*)`", pages.text()))
    lacking = [it for it in COMMANDS if it != "octets" and language.pattern(it).replace("H..", "R..") not in patterns]
    yield "forms of commands", str(lacking) if lacking else None
    yield "help for each refusal", (
        str(set(pages.refusals()) - set(refusals.HELP)) if set(pages.refusals()) - set(refusals.HELP) else None
    )
    kinds = {kind for taken in COMMANDS.values() for kind in taken.split()}
    yield "rows of words", str(kinds - set(pages.words())) if kinds - set(pages.words()) else None


def called(script: bytes, *words: str) -> tuple[str, int]:
    """What tools/why says when it is called, and its exit status."""
    ran = subprocess.run([sys.executable, WHY, *words], input=script, capture_output=True, check=False, timeout=120)
    return (ran.stdout + ran.stderr).decode(), ran.returncode


def calls(path: str) -> Iterator[tuple[str, str | None]]:
    """Calls of the tool, as a user makes them."""
    uses: tuple[tuple[list[str], bytes, int, str], ...] = (
        (["/"], b"", 1, "Is a directory"), (["/nowhere"], b"", 1, "No such file"), ([], b"", 2, "name a script"),
        (["--form", "load 3", "x"], b"", 2, "is no form"), (["--program", "/nowhere", WHY], b"", 3, "a program"),
        (["--help"], b"", 0, "tools/why"), (["--program", "/nowhere", "-"], b"root 1\n", 1, "No such file"),
        (["--program", path, "-"], b"", 0, "empty"),
        (["--program", path, "-"], b"house 1 08:00:2b:1c:4d:01\n", 3, "    house 1 08002b1c4d01\n"),
        (["--program", path, "--form", "clerk 8", "-"], b"house 1 00000000000a\n", 0, "no command was refused"),
        (["--program", path, f"{pages.ROOT}/examples/outage.cds"], b"", 0, "no command was refused"),
        (
            ["--program", path, "--line", "12", f"{pages.ROOT}/examples/missed.cds"],
            b"", 0, "House 3 is down since line 8",
        ),
        (["--program", path, "--line", "1", f"{pages.ROOT}/examples/missed.cds"], b"", 0, "has no answer"),
    )  # fmt: skip
    for words, script, status, phrase in uses:
        said, ended = called(script, *words)
        yield f"tools/why {' '.join(words)}", None if ended == status and phrase in said else f"{ended}: {said}"


def answers_of_lines(path: str) -> Iterator[tuple[str, str | None]]:
    """What --line says of deliveries that change nothing."""
    start = b"house 1 00000000000a\nhouse 2 00000000000b\nroot 1 2\ncreate 1 1 e\n"
    for more, line, phrase in (
        (b"deliver 2\n", 5, "The receiver holds nothing of this directory yet"),
        (b"deliver 1\nepoch 1 1 2\ndeliver 3\ndeliver 2\n", 8, "is in a later epoch already"),
        (b"deliver 1\nepoch 1 1 2\ncreate 1 1 f\ndeliver 4\n", 8, "has not heard of the message's epoch yet"),
        (b"deliver 1\nskulk 1 1\ndeliver 3\nskulk 1 1\ndeliver 4\n", 9, "answers a skulk that has ended"),
        (b"deliver 1\n", 5, "It is done"),
    ):  # fmt: skip
        said, status = ask(path, start + more, None, line)
        yield f"--line {line} of {more.decode()}", None if status == 0 and phrase in said else said


def trials(path: str) -> Iterator[tuple[str, str | None]]:
    """All trials of tools/why."""
    yield from tables(path)
    yield from wrong_uses(path)
    yield from faults_of_the_page(path)
    yield from answers_of_lines(path)
    yield from calls(path)
