"""A script from the words of an operator."""

from __future__ import annotations

import re
from typing import IO

from pictures import facts
from speaking import desk, program, texts
from speaking.tokens import Fault


class Faulty(Exception):
    """A faulty line of the operator."""


def form_line(text: str) -> tuple[tuple[str, ...], int]:
    """The form that the first line of the words names, and the place of the line; or none, and -1."""
    for at, line in enumerate(text.splitlines()):
        if line.strip() and not line.strip().startswith("#"):
            found = re.fullmatch(r"\s*form\s+(.*?)\s*", line)
            words = program.form_words(found.group(1)) if found else ()
            if found and not words:
                raise Faulty(
                    f"line {at + 1}: `{found.group(1)}` is no form that replays a script: run, journal, inquire, or"
                    " clerk N"
                )
            return (words, at) if words else ((), -1)
    return (), -1


def write(
    text: str, wanted: tuple[str, ...], given: str | None, has_answers: bool, sink: IO[str], errors: IO[str]
) -> None:
    """Writes the script, or the answers, that words make."""
    named, at = form_line(text)
    form = wanted or named or ("run",)
    cell = desk.Desk(program.Program(given, form), has_comments=True)
    if form != ("run",):
        cell.lines.append(f"# ./cdsreplay {' '.join(form)} <FILE")
        print(cell.lines[0], file=sink)
    for number, line in enumerate(text.splitlines()):
        if number == at:
            continue
        done = one(cell, number + 1, line)
        for note in done.notes:
            print(f"write: line {number + 1}: {note}", file=errors)
        if has_answers:
            answered(line, done, sink)
        else:
            for made in done.lines if done.lines or line.strip() else [""]:
                print(made, file=sink)
            if not done.lines and not line.strip():
                cell.lines.append("")


def one(cell: desk.Desk, number: int, line: str) -> desk.Done:
    """Does one line."""
    try:
        return cell.do(line)
    except Fault as fault:
        lines = str(fault).splitlines()
        raise Faulty("\n".join([f"line {number}: {line.strip()}", *lines])) from fault
    except facts.Fault as fault:
        raise Faulty(f"line {number}: {line.strip()}: the answers are not understood: {fault}") from fault


def answered(line: str, done: desk.Done, sink: IO[str]) -> None:
    """Writes a line with the answers that tell something: all but those to deliveries and clocks that went well."""
    print(line, file=sink)
    for answer in done.answers:
        if not re.fullmatch(r"\d+ ok(?: taken)?(?: posted.*)?", answer):
            print(f"    {spoken(answer)}", file=sink)


def spoken(answer: str) -> str:
    """An answer with values as text."""
    found = re.fullmatch(r"(\d+ ok \d+)((?: (?:[0-9a-f]{2})+)+)", answer)
    if found:
        return found.group(1) + "".join(f" {texts.shown(digits)}" for digits in found.group(2).split())
    found = re.fullmatch(r"(\d+ value) ([0-9a-f]+)( .*)", answer)
    return f"{found.group(1)} {texts.shown(found.group(2))}{found.group(3)}" if found else answer
