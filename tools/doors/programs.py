"""Programs at a socket of the door: lines in, answers out in the same order."""
from __future__ import annotations

import collections
import re
from collections.abc import Callable

from doors.allows import Who
from doors.lines import LONGEST, LONGEST_OF_DOORS, fault_of
from doors.loops import Loop
from doors.streams import Lines

# So many lines of one connection wait; then no more are read.
MOST_WAITING = 64
# A number before a line, which its answer has then, too.
NUMBERED = re.compile(r" *(\d{1,20}) (.*)")
LONGEST_NUMBER = 22
Say = Callable[[list[str]], None]
Command = Callable[[str, Who, Say], None]


class Slot:
    """A line, and its answer when there is one."""

    def __init__(self, line: str | None, number: str = "") -> None:
        self.line, self.number = line, number
        self.answer: list[str] | None = None
        self.is_begun = False

    def said(self) -> str:
        """The lines of the answer: `K.I LINE`, if the line had the number K, and else as they are."""
        lines = self.answer or []
        return "".join(
            f"{self.number}.{at} {line}\n" if self.number else f"{line}\n" for at, line in enumerate(lines, 1)
        )


class Program:
    """A connection. The lines of a program are done one after the other. Those of another door are for one house,
    which keeps their order; they are handed on at once."""

    def __init__(self, loop: Loop, fd: int, who: Who, command: Command, on_end: Callable[["Program"], None]) -> None:
        self.who, self.command, self.on_end = who, command, on_end
        self.slots: collections.deque[Slot] = collections.deque()
        self.longest = LONGEST_OF_DOORS if who.is_door else LONGEST
        self.is_over = False
        self.stream = Lines(loop, fd, fd, self.line, self.ended, self.longest + LONGEST_NUMBER)
        self.stream.outlives = True

    def ended(self) -> None:
        """No more lines come. Those that came are answered, if somebody still reads."""
        self.is_over = True
        self.close_if_done()

    def close_if_done(self) -> None:
        if self.stream.is_broken:
            self.slots.clear()
        if self.is_over and not self.slots:
            self.stream.finish()
            self.on_end(self)

    def line(self, line: str | None) -> None:
        number = NUMBERED.fullmatch(line or "")
        line = number[2] if number else line
        words = (line or "").split()
        # (a blank line and a comment have no answer)
        if line is not None and (not words or words[0].startswith("#")):
            return
        self.slots.append(Slot(line, number[1] if number else ""))
        if len(self.slots) >= MOST_WAITING:
            self.stream.pause()
        self.next()

    def next(self) -> None:
        """Begins what may be begun."""
        for slot in list(self.slots) if self.who.is_door else list(self.slots)[:1]:
            if not slot.is_begun:
                slot.is_begun = True
                self.begin(slot)

    def begin(self, slot: Slot) -> None:
        def say(answer: list[str]) -> None:
            slot.answer = answer
            self.flush()

        fault = fault_of(slot.line, self.longest)
        if fault:
            say([fault])
        else:
            self.command(slot.line or "", self.who, say)

    def flush(self) -> None:
        """Writes the answers that have their turn."""
        while self.slots and self.slots[0].answer is not None:
            self.stream.send(self.slots.popleft().said())
            if len(self.slots) == MOST_WAITING // 2:
                self.stream.go_on()
        if self.slots and not self.stream.is_broken:
            self.next()
        self.close_if_done()
