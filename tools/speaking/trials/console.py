"""Trials of tools/console: lines from a pipe, and keys in a terminal, which tmux plays."""

from __future__ import annotations

import os
import shutil
import subprocess
import sys
import tempfile
import time
from collections.abc import Iterator

from speaking import console, program

HERE = os.path.dirname(os.path.realpath(__file__))
CONSOLE = f"{os.path.dirname(os.path.dirname(HERE))}/console"
PATIENCE = 120

CELL = "house a_ch b_ch c_ch\nroot a_ch b_ch c_ch\ndeliver all\ncreate a_ch lpr\n"
# Lines that are typed, and what has to be said after them; a `!` in front: what must not be.
TYPED = (
    ("house 1 00000000000a\n", ["1 ok"]),
    ("house 1 00000000000a\nhous 2 00000000000b\nhouse 2 00000000000b\n", ["1 ok", "Is `house` meant?", "2 ok"]),
    ("house 1 08:00:2b:1c:4d:01\n", ["1 ok"]),
    ("house a_ch\nroot b_ch\nroot a_ch\n", ["house 1 is a_ch", "There is no house `b_ch`", "2 ok"]),
    (CELL + "messages\n", ["3  Update from a_ch to b_ch, line 7: create 1 1 lpr", "4  Update from a_ch to c_ch"]),
    (CELL + "deliver to b_ch\nmessages\n", ["8 ok taken", "!Update from a_ch to b_ch", "4  Update from a_ch to c_ch"]),
    (CELL + "deliver to b_ch\nshow\n", ["* lpr", "1@a_ch", "The houses differ here"]),
    (CELL + "deliver all\nshow\n", ["  lpr", "!The houses differ here"]),
    (CELL + "crash b_ch\nshow\n", ["down", "read-only"]),
    (CELL + "undo\nread a_ch lpr A\n", ["taken back: create a_ch lpr", "7 refused NoSuchName 0"]),
    (CELL + "deliver all\nundo\ndeliver all\n", ["taken back: deliver all\n8 ok taken"]),
    ("undo\n", ["There is nothing to take back."]),
    (CELL + "create b_ch x\n", ["8 refused NotMaster", "The master is house 1: `create 1 1 x`."]),
    (CELL + 'add a_ch lpr Place "front hall"\nread a_ch lpr Place\n', ['ok 1 "front hall"']),
    (CELL + "deliver all\nskulk a_ch through\n", ["ok complete 2@000000000001"]),
    (CELL + "mkdir a_ch /.:/print b_ch\nshow /.:/print\n", ["master"]),
    (CELL + "show /.:/print\n", ["No directory /.:/print was made here"]),
    ("help\n", ["help COMMAND", "undo", "save FILE"]),
    (
        "help create\n",
        ["create H D S: makes an object", "a number from 1 to 255", "makes an entry with the simple name S"],
    ),
    ("help deliver\n", ["gives the message N to its receiver"]),
    ("help nonsense\n", ["There is no command `nonsense`"]),
    ("help undo\n", ["takes the last line back"]),
    ("# a comment\n\nhouse 1 00000000000a\n", ["1 ok"]),
    ("stop 1 4 keep skulk 1 1\n", ["a command of the form `journal`"]),
    ("quit\nhouse a_ch\n", ["!house 1 is a_ch"]),
    ("house a_ch\nquit\nquit\nhouse b_ch\n", ["1 line would be lost", "!house 2 is b_ch"]),
    (
        "load /nowhere\nsave\nload\n",
        ["/nowhere: No such file", "Name the file: `save FILE`.", "Name the file: `load FILE`."],
    ),
    ("house 1 00000000000a\nscript\n", ["   1  house 1 00000000000a"]),
    ("house 1 00000000000a \u00e9\n", ["is no name of a house"]),
)  # fmt: skip


def piped(path: str, text: str, *form: str, folder: str | None = None) -> tuple[str, int]:
    """What the console says to lines from a pipe, and its exit status."""
    words = [sys.executable, CONSOLE, "--program", path, *form]
    ran = subprocess.run(words, input=text.encode(), capture_output=True, check=False, timeout=PATIENCE, cwd=folder)
    return ran.stdout.decode() + ran.stderr.decode(), ran.returncode


def said_problem(said: str, wanted: list[str]) -> str | None:
    """The first thing that was not said, or that was and must not be; or None."""
    for it in wanted:
        if it.startswith("!") == (it.removeprefix("!") in said):
            return f"{it} in\n{said}"
    return None


def typed(path: str, text: str) -> str:
    """What the console says to lines."""
    said: list[str] = []
    at = console.Console(program.Program(path), said.append)
    for line in text.splitlines():
        if not at.is_over:
            at.take(line)
    return "\n".join(said)


def from_a_pipe(path: str) -> Iterator[tuple[str, str | None]]:
    """Lines that are typed."""
    for text, wanted in TYPED:
        yield repr(text), said_problem(typed(path, text), wanted)
    said, status = piped(path, CELL + "messages\n")
    yield "lines from a pipe", said_problem(said, ["1 ok", "3  Update from a_ch to b_ch"]) if status == 0 else said
    said, _ = piped(path, "house 1 00000000000a\nroot 1\nimage 1\n", "journal")
    yield "the form journal", said_problem(said, ["3 ok "])
    said, _ = piped(
        path, CELL + 'add a_ch lpr A "1"\nread a_ch lpr A\nput a_ch lpr A "2"\nread a_ch lpr A\n', "clerk", "4"
    )
    yield "the form clerk", said_problem(said, ['9 ok 1 "1"', '11 ok 1 "1"'])
    said, status = piped(path, "", "load", "3")
    yield "a form that replays no script", None if status == 2 and "is no form" in said else said
    said, status = piped("/nowhere", "")
    yield "a program that is not there", None if status == 1 and "No such file" in said else said


def files(path: str) -> Iterator[tuple[str, str | None]]:
    """Lines that are saved, loaded and drawn."""
    with tempfile.TemporaryDirectory() as folder:
        said, _ = piped(path, CELL + "save cell.cds\nsave cell.cds\nsave cell.cds over\npicture\n", folder=folder)
        yield "save, and not over", said_problem(
            said, ["cell.cds has 7 lines", "`save cell.cds over` writes over it", "cell.svg is drawn"]
        )
        with open(f"{folder}/cell.cds", encoding="ascii") as it:
            script = it.read()
        names = "# house 1 is a_ch\n# house 2 is b_ch\n# house 3 is c_ch\n"
        yield "what is saved", None if script.endswith(f"create 1 1 lpr\n{names}") else script
        yield "what is drawn", None if os.path.getsize(f"{folder}/cell.svg") > 1000 else "it is empty"
        said, _ = piped(path, "load cell.cds\ndeliver to b_ch\nundo\nundo\nhouse x\n", folder=folder)
        yield "load", said_problem(said, ["cell.cds is loaded", "ok taken", "taken back: deliver to b_ch", "1 ok"])
        with open(f"{folder}/bad.cds", "w", encoding="ascii") as it:
            it.write("house 1 00000000000a\nroot a_ch\nhouse 2 00000000000b\n")
        said, _ = piped(path, "load bad.cds\nroot 1\n", folder=folder)
        wanted = ["bad.cds, line 2: root a_ch", "There is no house `a_ch`", "the next one is 2", "2 ok"]
        yield "load of a faulty script", said_problem(said, wanted)


class Terminal:
    """A terminal with the console in it, which tmux plays."""

    def __init__(self, path: str, folder: str) -> None:
        self.name = f"console-{os.getpid()}"
        self.call(
            "new-session", "-d", "-x", "110", "-y", "45", "-c", folder, sys.executable, CONSOLE, "--program", path
        )

    def call(self, *words: str) -> str:
        """Calls tmux, with a server of its own."""
        ran = subprocess.run(
            ["tmux", "-L", self.name, "-f", "/dev/null", *words], capture_output=True, check=False, timeout=PATIENCE
        )
        return ran.stdout.decode()

    def type(self, *keys: str) -> None:
        """Types keys, each a name of tmux, or a text."""
        for key in keys:
            self.call(
                "send-keys",
                *([key] if key in ("Enter", "Up", "Left", "BSpace", "Tab", "C-c", "C-d", "C-a") else ["-l", key]),
            )

    def problem(self, wanted: list[str]) -> str | None:
        """What does not come to the screen in time, or None."""
        end, shown = time.monotonic() + PATIENCE, ""
        while time.monotonic() < end:
            shown = self.call("capture-pane", "-p")
            if all(it in shown for it in wanted):
                return None
            time.sleep(0.1)
        return f"{wanted} is not on the screen:\n{shown}"

    def is_over(self) -> bool:
        """Whether the console has ended."""
        end = time.monotonic() + PATIENCE
        while time.monotonic() < end:
            if not self.call("list-sessions").strip():
                return True
            time.sleep(0.1)
        return False

    def close(self) -> None:
        """Ends the server, which is this terminal's own."""
        self.call("kill-server")


# Keys, and what has to come to the screen. (A Ctrl-D that comes before the prompt is lost, so the last two wait for
# it.)
KEYS = (
    ("a prompt with the number of the line", ["house 1 00000000000a", "Enter"], ["1> house 1", "1 ok", "2>"]),
    ("a typo is explained, and nothing is lost", ["rot 1", "Enter"], ["Is `root` meant?", "2>"]),
    (
        "arrow-up brings the line back, to be mended",
        ["Up", "Left", "Left", "BSpace", "ot", "Enter"],
        ["2> root 1", "2 ok", "3>"],
    ),
    ("Ctrl-C drops a line", ["create 1 1 wr", "C-c"], ["^C", "3>"]),
    ("Tab completes a command", ["cre", "Tab", "1 1 lpr", "Enter"], ["3> create 1 1 lpr", "3 ok 1@00000000000a", "4>"]),
    ("undo", ["undo", "Enter"], ["4> undo", "taken back: create 1 1 lpr"]),
    ("help by command", ["help root", "Enter"], ["makes the root directory", "the house that is to be the master"]),
    ("save", ["save kept.cds", "Enter"], ["kept.cds has 2 lines"]),
    ("after what was saved it goes on", ["create 1 1 fax", "Enter"], ["3> create 1 1 fax\n3 ok 1@00000000000a\n4>"]),
    ("lines that are not saved", ["C-d"], ["3 lines would be lost: `save FILE`, or `quit` (or Ctrl-D) once more.\n4>"]),
)


def in_a_terminal(path: str) -> Iterator[tuple[str, str | None]]:
    """Keys in a terminal."""
    if not shutil.which("tmux"):
        print("console: tmux is not there, so no key was typed")
        return
    with tempfile.TemporaryDirectory() as folder:
        terminal = Terminal(path, folder)
        try:
            yield "it greets", terminal.problem(["An empty cell.", "1>"])
            for what, keys, wanted in KEYS:
                terminal.type(*keys)
                yield what, terminal.problem(wanted)
            terminal.type("C-d")
            yield "Ctrl-D once more ends it", None if terminal.is_over() else "it goes on"
        finally:
            terminal.close()


def trials(path: str) -> Iterator[tuple[str, str | None]]:
    """All trials of tools/console."""
    yield from from_a_pipe(path)
    yield from files(path)
    yield from in_a_terminal(path)
