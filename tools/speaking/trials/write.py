"""Trials of tools/write: five incidents from their logs, lines that are wrong, and each kind of line.

A file of incidents/ has a sentence, the log, the words of the operator, and answers that are known beforehand: `WORDS
=> ANSWER`, in the order of the words, each of which is one line of the answers to that line.
"""

from __future__ import annotations

import glob
import io
import os
import re
import subprocess
import sys
from collections.abc import Iterator

from speaking import program, writing

HERE = os.path.dirname(os.path.realpath(__file__))
WRITE = f"{os.path.dirname(os.path.dirname(HERE))}/write"


def write(path: str, words: str, has_answers: bool = False) -> tuple[str, str, int]:
    """What tools/write writes, what it says beside, and its exit status."""
    sink, errors = io.StringIO(), io.StringIO()
    try:
        writing.write(words, (), path, has_answers, sink, errors)
    except writing.Faulty as fault:
        return sink.getvalue(), str(fault), 1
    return sink.getvalue(), errors.getvalue(), 0


def called(words: str, *more: str) -> tuple[str, int]:
    """What tools/write says when it is called, and its exit status."""
    ran = subprocess.run(
        [sys.executable, WRITE, *more], input=words.encode(), capture_output=True, check=False, timeout=120
    )
    return (ran.stdout + ran.stderr).decode(), ran.returncode


def commands(text: str) -> list[str]:
    """The lines of a script, or of an operator, that say something."""
    return [line for line in text.splitlines() if line.strip() and not line.strip().startswith("#")]


def answer_problem(spoken: str, expected: str) -> str | None:
    """The first answer that does not come, in the order of the words, or None."""
    blocks = [block.splitlines() for block in re.split(r"(?m)^(?! )", spoken) if block]
    at = 0
    for row in expected.strip().splitlines():
        words, _, answer = row.partition(" => ")
        here = next((it for it in range(at, len(blocks)) if is_answered(blocks[it], words, answer)), None)
        if here is None:
            return f"{words}: no answer `{answer}` in\n{spoken}"
        at = here
    return None


def is_answered(block: list[str], words: str, answer: str) -> bool:
    """Whether a line and its answers are these words and, among others, this answer."""
    said = [re.sub(r"^\d+ ", "", line.strip()).partition(" posted ")[0] for line in block[1:]]
    return block[0].partition("  #")[0].strip() == words and answer in said


def incident(path: str, file: str) -> Iterator[tuple[str, str | None]]:
    """The problems of one incident."""
    with open(file, encoding="ascii") as it:
        _, log, words, expected = re.split(r"(?m)^--- (?:log|words|answers)\n", it.read())
    script, status = called(words, "--program", path, "-")
    beside = script
    name = os.path.basename(file)
    yield f"{name}: it is written", None if status == 0 else beside
    made, said = len(commands(script)), len(commands(words))
    yield f"{name}: {said} lines in place of {made}", None if 4 * said <= made else "more than a quarter"
    counted = re.findall(r"(?m)^(?:deliver|lose) \d+", words)
    yield f"{name}: no serial is counted", str(counted) if counted else None
    strange = set(re.findall(r"(?m)^(?:\S+ )?(\d\d:\d\d) ", words)) - set(re.findall(r"\d\d:\d\d", log))
    yield f"{name}: its times are those of the log", str(strange) if strange else None
    spoken, _, _ = write(path, words, True)
    yield f"{name}: its answers", answer_problem(spoken, expected)
    form = program.first_line_form(script.encode()) or ("run",)
    refused = [it for it in program.Program(path, form).run(script.encode()) if " fault " in it]
    yield f"{name}: the script has no fault", str(refused) if refused else None


CELL = "house a_ch b_ch c_ch\nroot a_ch b_ch c_ch\n"
# Words, and a line of the script that they have to make.
MADE = (
    ("house a_ch 08:00:2b:1c:4d:01\n", "house 1 08002b1c4d01"),
    ("house a_ch 8:0:2b:1c:4d:1\n", "house 1 08002b1c4d01"),
    ("house a_ch\n", "house 1 000000000001"),
    ("houses a_ch, b_ch\n", "house 2 000000000002"),
    ("house 7 00000000000a\nhouse x\n", "house 1 000000000001"),
    ("house 1 00000000000a\nroot 1\n", "root 1"),
    (CELL, "root 1 2 3"),
    ("house a_ch b_ch c_ch\nroot a_ch b_ch secondary c_ch\n", "root 1 2 s3"),
    ("house a_ch b_ch\nroot a_ch, s2\n", "root 1 s2"),
    (CELL + "create a_ch lpr\n", "create 1 1 lpr"),
    (CELL + "create a_ch /.:/lpr\n", "create 1 1 lpr"),
    (CELL + "create 1 1 lpr\n", "create 1 1 lpr"),
    (CELL + "a_ch created lpr   # a remark\n", "create 1 1 lpr"),
    (CELL + "08:12 a_ch created lpr\n", "clock 1 29520"),
    (CELL + "08:12:07 a_ch: create lpr\n", "clock 1 29527"),
    (CELL + "2026-03-14 08:00 a_ch create lpr\n2026-03-15 00:10 a_ch create x\n", "clock 1 87000"),
    (CELL + "clock a_ch 00:01:40\n", "clock 1 100"),
    (CELL + "clock a_ch 100\n", "clock 1 100"),
    (CELL + 'a_ch create lpr\nadd a_ch lpr Place "front hall"\n', "add 1 1 lpr Place 66726f6e742068616c6c"),
    (CELL + "a_ch create lpr\nadd a_ch lpr Place 68616c6c\n", "add 1 1 lpr Place 68616c6c"),
    (CELL + "mkdir a_ch /.:/print b_ch c_ch\ncreate b_ch /.:/print/laser\n", "create 2 2 laser"),
    (CELL + "mkdir a_ch print b_ch c_ch\ndeliver all\nskulk b_ch /.:/print\n", "skulk 2 2"),
    (CELL + "mkdir a_ch print b_ch\nmkdir b_ch /.:/print/colour c_ch\ndump c_ch /.:/print/colour\n", "dump 3 3"),
    (CELL + "deliver all\n", "deliver 2"),
    (CELL + "deliver all but to c_ch\nlose to c_ch\n", "lose 2"),
    (CELL + "deliver to c_ch\nlose all\n", "lose 1"),
    (CELL + "deliver all\nskulk a_ch through\n", "deliver 12"),
    (CELL + "deliver all\na_ch skulk through but to c_ch\n", "deliver 5"),
    (CELL + "from here deliver all\na_ch create lpr\n", "deliver 4"),
    (CELL + "from here deliver all lose to c_ch\na_ch create lpr\n", "lose 4"),
    (CELL + "deliver all\nepoch b_ch a_ch\n", "epoch 1 2 1"),
    (CELL + "deliver all\nb_ch epoch a_ch secondary c_ch\n", "epoch 1 2 1 s3"),
    (CELL + "deliver all\nepoch 1 b_ch a_ch\n", "epoch 1 2 1"),
    (CELL + "dump a_ch\n", "dump 1 1"),
    (CELL + "read a_ch lpr CDS_Class\n", "read 1 low /.:/lpr CDS_Class"),
    (CELL + "read a_ch HIGH /.:/lpr CDS_Class\n", "read 1 high /.:/lpr CDS_Class"),
    (CELL + "link a_ch printer lpr\n", "link 1 1 printer /.:/lpr"),
    (CELL + "groupadd all lpr\ndeliver all\n", "deliver 6"),
    (CELL + "09:00 groupadd all lpr\n", "clock 1 32400"),
    (CELL + "09:00 b_ch groupadd all lpr\n", "clock 2 32400"),
    (CELL + "octets house a_ch\n", "octets house 1"),
    ("# caf\u00e9\nhouse a_ch\n", "# caf?"),
    ("form clerk 4\nhouse a_ch\n", "# ./cdsreplay clerk 4 <FILE"),
)  # fmt: skip
# Words that are wrong, and what is said of them.
WRONG = (
    ("root a_ch\n", "line 1: root a_ch\nThere is no house `a_ch`"),
    (CELL + "create d_ch lpr\n", "There is no house `d_ch`; the houses are: a_ch, b_ch, c_ch"),
    (CELL + "a_ch creat lpr\n", "Is `create` meant?"),
    (CELL + "a_ch\n", "What did `a_ch` do?"),
    (CELL + "create a_ch /.:/print/lpr\n", "No directory /.:/print was made here"),
    (CELL + "add a_ch lpr Place hall\n", "A value is hexadecimal"),
    (CELL + 'add a_ch lpr Place "hall\n', "are not closed"),
    (CELL + 'create a_ch "lpr"\n', "Only a value is a text in quotes"),
    (CELL + "deliver all but c_ch\n", "is not understood here"),
    (CELL + "deliver all but to x_ch\n", "There is no house `x_ch`"),
    (CELL + "from here on\n", "`from here deliver all`"),
    (CELL + "stop a_ch 4 keep create a_ch lpr\n", "a command of the form `journal`"),
    (CELL + "2026-03-14 create a_ch lpr\n", "A time of day goes after 2026-03-14"),
    (CELL + "2026-03-14 08:00 a_ch create a\n2026-03-13 08:00 a_ch create b\n", "is before 2026-03-14"),
    (CELL + "2026-13-14 08:00 a_ch create a\n", "is no date"),
    (CELL + "house a_ch\n", "House `a_ch` is made already"),
    ("house 08:00:2b:1c:4d:01\n", "is no name of a house"),
    (CELL + "create a_ch lpr x\n", "WrongCount"),
    ("form load\n", "is no form that replays a script"),
)  # fmt: skip
# Words that are done, with what is said beside on standard error.
BESIDE = (
    (CELL + "create b_ch lpr\n", "has not got its Join yet"),
    (CELL + "deliver all\ncreate b_ch lpr\n", "The master is house 1"),
    (CELL + "08:00 a_ch create a\n07:00 a_ch create b\n", "Is it the next day?"),
    (
        CELL + "deliver all\ncrash c_ch\nskulk a_ch through\n",
        "The skulk is not complete: Nothing was delivered: c_ch is down.",
    ),
    (CELL + "deliver all\ndeliver all\n", "No message is under way there."),
)  # fmt: skip


def trials(path: str) -> Iterator[tuple[str, str | None]]:
    """All trials of tools/write."""
    for file in sorted(glob.glob(f"{HERE}/incidents/*.incident")):
        yield from incident(path, file)
    for words, line in MADE:
        script, beside, status = write(path, words)
        yield repr(words), None if status == 0 and line in script.splitlines() else f"status {status}: {script}{beside}"
    for words, said in WRONG:
        _, beside, status = write(path, words)
        yield repr(words), None if status == 1 and said in beside else f"status {status}: {beside}"
    for words, said in BESIDE:
        _, beside, status = write(path, words)
        yield repr(words), None if status == 0 and said in beside else f"status {status}: {beside}"
    uses: tuple[tuple[list[str], str, int, str], ...] = (
        ([], "", 2, "name a file"), (["/nowhere"], "", 1, "No such file"),
        (["--form", "towers", "-"], "", 2, "is no form"),
        (["--program", "/nowhere", "-"], "house a_ch\n", 1, "/nowhere: No such file"),
        (["--help"], "", 0, "from here deliver all"),
        (
            ["--program", path, "--answers", "-"], CELL + 'a_ch create lpr Place "hall"\nread a_ch lpr Place\n',
            0, 'ok 1 "hall"\n',
        ),
        (
            ["--program", path, "-"], CELL + "create d_ch lpr\n",
            1, "write: line 3: create d_ch lpr\nThere is no house `d_ch`",
        ),
    )  # fmt: skip
    for given, script, status, phrase in uses:
        said, ended = called(script, *given)
        yield f"tools/write {' '.join(given)}", None if ended == status and phrase in said else f"{ended}: {said}"
