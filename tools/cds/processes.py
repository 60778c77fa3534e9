"""A house as a process: lines in, answers out."""

from __future__ import annotations

import os
import select
import signal
import subprocess
import time
from collections.abc import Sequence

# So long a house may be silent, in seconds, where something is due.
LONGEST = 120
# The words after the number with which an answer ends.
ENDS = ("ok", "refused", "fault", "end", "new")


class Silent(Exception):
    """A house owes an answer, and says nothing, or ended."""


class Process:
    """A house that runs. `posts` are messages that it posted and that nobody fetched yet, each as (to, octets)."""

    def __init__(self, program: str, folder: str, environment: dict[str, str] | None = None) -> None:
        variables = dict(os.environ, **(environment or {}))
        # (a session of its own: Ctrl-C at the prompt is not for houses)
        self.child = subprocess.Popen(
            [program, folder],
            stdin=subprocess.PIPE,
            stdout=subprocess.PIPE,
            env=variables,
            bufsize=0,
            start_new_session=True,
        )
        assert self.child.stdin and self.child.stdout
        self.sink, self.source = self.child.stdin, self.child.stdout
        self.folder = folder
        self.waiting = b""
        self.pieces: list[str] = []
        self.posts: list[tuple[int, str]] = []

    @property
    def status(self) -> int | None:
        """The status with which it ended, or None while it runs."""
        return self.child.returncode

    def send(self, lines: Sequence[str]) -> None:
        """Sends lines, as far as it reads them."""
        try:
            self.sink.write("".join(f"{line}\n" for line in lines).encode())
        except BrokenPipeError:
            pass

    def line(self, until: float) -> str | None:
        """The next line that it says, or None at the end."""
        while b"\n" not in self.waiting:
            left = until - time.monotonic()
            if left <= 0 or not select.select([self.source], [], [], left)[0]:
                raise Silent(f"{self.folder}: silent")
            octets = os.read(self.source.fileno(), 1 << 16)
            if not octets:
                return None
            self.waiting += octets
        line, self.waiting = self.waiting.split(b"\n", 1)
        return line.decode("ascii")

    def next_line(self) -> str | None:
        """The next line that it says as it is, or None at the end."""
        return self.line(time.monotonic() + LONGEST)

    def answer(self) -> list[str] | None:
        """The lines of the next answer without their numbers and without posts, or None where it ended before."""
        found, until = [], time.monotonic() + LONGEST
        while True:
            line = self.line(until)
            if line is None:
                return None
            words = line.split(" ")[1:]
            if words[0] in ("more", "post"):
                self.pieces.append(words[2])
                if words[0] == "post":
                    self.posts.append((int(words[1]), "".join(self.pieces)))
                    self.pieces = []
                continue
            found.append(" ".join(words))
            if words[0] in ENDS:
                return found

    def due(self) -> list[str]:
        """The lines of the next answer, which has to come."""
        answer = self.answer()
        if answer is None:
            raise Silent(f"{self.folder}: ended with status {self.child.wait()}, where an answer was due")
        return answer

    def fetched(self) -> list[tuple[int, str]]:
        """The messages that it posted since this was asked last."""
        posts, self.posts = self.posts, []
        return posts

    def kill(self) -> None:
        """Kills it, if it runs."""
        if self.child.poll() is None:
            self.child.send_signal(signal.SIGKILL)

    def drained(self) -> list[list[str]]:
        """The answers that it still gives until it ends."""
        found = []
        while (answer := self.answer()) is not None:
            found.append(answer)
        self.child.wait()
        self.sink.close()
        self.source.close()
        return found

    def close(self) -> list[list[str]]:
        """Ends its input. Returns the answers that it still gives."""
        try:
            self.sink.close()
        except BrokenPipeError:
            pass
        return self.drained()


def given(program: str, folder: str, lines: Sequence[str]) -> list[list[str]]:
    """What the house of a folder answers to lines, after its first words."""
    process = Process(program, folder)
    process.answer()
    process.send(lines)
    answers = [process.due() for _ in lines]
    process.close()
    return answers


# The most octets of a message in one line.
PIECE = 2000


def take_lines(octets: str) -> list[str]:
    """The lines that give a house a message, from its digits."""
    pieces = [octets[at : at + 2 * PIECE] for at in range(0, len(octets), 2 * PIECE)]
    return [f"more {piece}" for piece in pieces[:-1]] + [f"take {pieces[-1]}"]
