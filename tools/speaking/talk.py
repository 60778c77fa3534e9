"""A process of the program that is kept while lines come: it answers each of them once."""
from __future__ import annotations

import subprocess
import threading
from collections.abc import Sequence

# A question of one line that is never a fault, and no message has this serial: once it is answered, so is all before
# it.
MARK = "octets msg 16777216"
# How many octets each pipe of Linux holds.
AT_ONCE = 4096


class Talk:
    """The program over the lines of one script, and questions between them that the script does not have."""

    def __init__(self, path: str, form: Sequence[str]) -> None:
        self.words = [path, *form]
        self.process: subprocess.Popen[str] | None = None
        # The lines of the script that the process has, and all lines that it has.
        self.kept: list[str] = []
        self.count = 0

    def close(self) -> None:
        """Ends the process."""
        if self.process is not None:
            self.process.kill()
            self.process.communicate()
            self.process = None

    def begin(self) -> subprocess.Popen[str]:
        """A new process, which has no line."""
        self.close()
        self.kept, self.count = [], 0
        pipe = subprocess.PIPE
        self.process = subprocess.Popen(
            self.words,
            stdin=pipe,
            stdout=pipe,
            stderr=subprocess.DEVNULL,
            text=True,
            encoding="ascii",
            errors="replace",
        )
        return self.process

    def ask(self, script: Sequence[str], lines: Sequence[str], is_kept: bool) -> list[str] | None:
        """The answers to lines that follow a script; None if the process ended otherwise than by a fault of one of
        them. Unless they are kept, the lines have to be questions."""
        process = self.process
        if process is None or len(self.kept) > len(script):
            process = self.begin()
        before = script[len(self.kept) :]
        if before:
            told = self.said(process, before, self.count - len(self.kept))
            if told is None or told.has_ended:
                self.close()
                return None
        self.kept = list(script)
        answers = self.said(process, lines, self.count - len(script))
        if answers is None:
            return None
        if answers.has_ended:
            self.close()
        elif is_kept:
            self.kept += lines
        return answers.lines

    def said(self, process: subprocess.Popen[str], lines: Sequence[str], more: int) -> Answers | None:
        """What the process says to lines. It has so many lines more than the script."""
        self.count += len(lines) + 1
        text = "".join(f"{line}\n" for line in [*lines, MARK])
        # (what a pipe may not hold at once is written beside the reading)
        writer = threading.Thread(target=written, args=(process, text)) if len(text) > AT_ONCE else None
        if writer is None:
            written(process, text)
        else:
            writer.start()
        found = Answers(more)
        assert process.stdout is not None
        for told in process.stdout:
            number, _, rest = told.rstrip("\n").partition(" ")
            if int(number) == self.count:
                break
            found.add(int(number), rest)
        else:
            found.has_ended = True
        if writer is not None:
            writer.join()
        return found if not found.has_ended or found.is_fault else None


class Answers:
    """Answers with the numbers of the script's lines."""

    def __init__(self, more: int) -> None:
        self.more, self.lines, self.has_ended, self.is_fault = more, list[str](), False, False

    def add(self, number: int, rest: str) -> None:
        """Takes a line of the process."""
        self.lines.append(f"{number - self.more} {rest}")
        self.is_fault = rest.startswith("fault ")


def written(process: subprocess.Popen[str], text: str) -> None:
    """Writes a text, as far as the process takes it."""
    assert process.stdin is not None
    try:
        process.stdin.write(text)
        process.stdin.flush()
    except BrokenPipeError:
        pass
