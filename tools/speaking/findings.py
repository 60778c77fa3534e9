"""What is to be said of a script: its first fault, or its refusals."""

from __future__ import annotations

import re
from collections.abc import Callable, Iterator

from speaking import explain, language, program, reasons, refusals

# How many refusals are explained.
MOST = 40
# Files that are no scripts, by their first octets.
STRANGE = {
    b"\x89PNG": "a picture", b"\xff\xd8\xff": "a picture", b"<svg": "a picture",
    b"<?xml": "a picture, or another XML file", b"%PDF": "a page", b"\x7fELF": "a program",
    b"\x1f\x8b": "a compressed file: `gzip -d` first", b"PK\x03\x04": "a compressed file",
    b"\x02\x09": "the image of a house, for ./cdsreplay audit",
    b"\x01\x09": "the image of a house, for ./cdsreplay migrate", b"#!": "a program",
    b"\xff\xfe": "a text in UTF-16: `iconv -f UTF-16 -t ASCII` makes it one of ASCII",
}  # fmt: skip


def report(
    script: bytes, form: tuple[str, ...], line: int | None, given: str | None, say: Callable[[str], object]
) -> int:
    """Says what there is to say of a script, and returns the exit status."""
    strange = next((what for front, what in STRANGE.items() if script.startswith(front)), None)
    if strange:
        say(f"This is no script, but {strange}.")
        return 3
    if not script:
        say("The script is empty: it has no answers.")
        return 0
    asked = program.Program(given, form or ("run",))
    fault = asked.fault(script)
    if fault and fault[1] == "UnknownCommand" and not form:
        asked, fault = other_form(script, asked, fault, say)
    if fault:
        say_fault(script, asked.form, fault, say)
        return 3
    answers = asked.run(script)
    if line is not None:
        return say_line(script, answers, line, say)
    say_refusals(script, answers, say)
    return 0


def other_form(
    script: bytes, asked: program.Program, fault: tuple[int, str, int], say: Callable[[str], object]
) -> tuple[program.Program, tuple[int, str, int] | None]:
    """The program in the form that knows a command which the first fault is at, where there is one, and the first fault
    then."""
    word = line_of(script, fault[0]).split()[0].decode("ascii", "replace")
    other = language.form_of(word)
    if other is None or other == "run":
        return asked, fault
    say(
        f"line {fault[0]}: `{word}` is a command of the form {other}: replay this by ./cdsreplay {other}; `check` does"
        " not know it."
    )
    better = program.Program(asked.path, (other,))
    return better, better.fault(script)


def line_of(script: bytes, number: int) -> bytes:
    """The octets of a line."""
    return script.split(b"\n", number)[number - 1]


def say_fault(script: bytes, form: tuple[str, ...], fault: tuple[int, str, int], say: Callable[[str], object]) -> None:
    """Says a fault."""
    number, reason, place = fault
    for text in explain.explain(line_of(script, number), number, reason, place, form[0]).lines():
        say(text)


def refused(answers: list[str]) -> Iterator[tuple[int, str, list[int], str]]:
    """The refusals among answers: their lines, reasons and numbers."""
    for answer in answers:
        found = re.match(r"(\d+) refused ([A-Za-z]+)((?: \d+)*)", answer)
        if found:
            yield int(found.group(1)), found.group(2), [int(it) for it in found.group(3).split()], answer


def say_refusals(script: bytes, answers: list[str], say: Callable[[str], object]) -> None:
    """Says each refusal; what a reason means in general is said once."""
    found, known = list(refused(answers)), set()
    count = {0: "no command was", 1: "1 command was"}.get(len(found), f"{len(found)} commands were")
    say(f"There is no fault, and {count} refused.")
    for number, reason, numbers, answer in found[:MOST]:
        say("")
        say(f"line {number}: {line_of(script, number).decode().strip()}")
        say(f"    {answer}")
        for text in explained(script, answers, number, reason, numbers, reason not in known):
            say(text)
        known.add(reason)
    if len(found) > MOST:
        say(f"\n{len(found) - MOST} more are refused, the next one in line {found[MOST][0]}: --line explains any one.")


def explained(
    script: bytes, answers: list[str], number: int, reason: str, numbers: list[int], in_full: bool = True
) -> Iterator[str]:
    """What a refusal means here, and what helps."""
    if in_full:
        yield f"{reason}: {refusals.meaning(reason)}."
    here = reasons.why(script, answers, number, reason, numbers)
    yield from here
    if not here or in_full and reason not in refusals.HELPED:
        yield refusals.HELP.get(reason, "")


def say_line(script: bytes, answers: list[str], line: int, say: Callable[[str], object]) -> int:
    """Says what the answer to one line means."""
    found = [it for it in answers if it.startswith(f"{line} ")]
    if not found:
        say(f"Line {line} has no answer: it is empty, a comment, or not there.")
        return 0
    say(f"line {line}: {line_of(script, line).decode().strip()}")
    for answer in found:
        say(f"    {answer}")
    for number, reason, numbers, _ in refused(found):
        for text in explained(script, answers, number, reason, numbers):
            say(text)
    vain = re.match(rf"{line} ok (late|early|stale|noreplica)\b", found[0])
    if vain:
        say(refusals.VAIN[vain.group(1)])
    elif " refused " not in found[0]:
        say("It is done: docs/SCRIPT.md says what each word of the answer is.")
    return 0
