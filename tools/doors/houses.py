"""The houses of a cell as a door sees them: lines in their order, and answers in theirs. One that is here is a
process of this door; one that is there is behind another door, over any stream."""
from __future__ import annotations

import collections
import os
import re
import shlex
import signal
import subprocess
import time
from collections.abc import Callable

from doors.lines import LONGEST_OF_DOORS, LONGEST_OF_HOUSES, TURNS
from doors.loops import Loop
from doors.streams import Lines
from cds.processes import ENDS, take_lines

Answer = list[str] | None
Hear = Callable[[Answer], None]
# A start may take so long, in seconds.
LONGEST_START = 120.0
# A house that ended, or a stream, is started again after so long; then after twice that, up to the longest wait.
FIRST_WAIT, LONGEST_WAIT = 0.05, 5.0
# A line of another door: the number of the line that it answers, its place in the answer, and what it says.
ANSWERED = re.compile(r"(\d{1,20})\.(\d{1,9}) (.*)")
# The clock of a house is set again after so long.
CLOCK_AGES = 1.0

STATUSES = {
    1: "there is no program to run",
    3: "its input had a fault of octets",
    4: "it could not read",
    5: "it could not write",
    6: "it ran out of memory",
    7: "a segment has no room",
    8: "its disk failed, or is full",
    9: "its folder cannot be read, or its last segment is damaged",
    10: "another process has its folder",
    11: "another version wrote its folder, which tools/houses --renew renews",
    12: "its program answers otherwise than the one that wrote its folder",
}


def meaning(status: int) -> str:
    """What the end of a house means."""
    said = f"signal {-status} ended it" if status < 0 else STATUSES.get(status, "it ended")
    return f"{said} (status {status})"


class Waiting:
    """A line that is under way: when it was sent, and who hears the answer."""

    def __init__(self, line: str, hear: Hear | None, patience: float = 0.0) -> None:
        self.line, self.hear, self.patience, self.since = line, hear, patience, time.monotonic()
        # The number that it was sent with, to another door.
        self.number = 0


def ends_of(child: subprocess.Popen[bytes]) -> tuple[int, int]:
    """Descriptors of our own for a child's output and input."""
    assert child.stdin and child.stdout
    ends = os.dup(child.stdout.fileno()), os.dup(child.stdin.fileno())
    child.stdout.close()
    child.stdin.close()
    return ends


def kill(child: subprocess.Popen[bytes]) -> None:
    """Kills a child, which leads a group of its own, and what it started."""
    try:
        os.killpg(child.pid, signal.SIGKILL)
    except (ProcessLookupError, PermissionError):
        pass


def status_of(child: subprocess.Popen[bytes]) -> int:
    """The status of a child that has closed its output. One that goes on is killed, with what it started."""
    try:
        return child.wait(0.5)
    except subprocess.TimeoutExpired:
        pass
    finally:
        kill(child)
    return child.wait()


class House:
    """What both kinds have: the child, the lines under way, and what becomes of them. `note` gets a line for the
    log."""

    is_here = True

    def __init__(self, loop: Loop, number: int, command: list[str], note: Callable[[str], None]) -> None:
        self.loop, self.number, self.command, self.note = loop, number, command, note
        self.stream: Lines | None = None
        self.child: subprocess.Popen[bytes] | None = None
        self.flight: collections.deque[Waiting] = collections.deque()
        self.told: list[str] = []
        self.wait, self.heard, self.starts, self.late = FIRST_WAIT, time.monotonic(), 0, 0
        self.is_up = self.is_silent = self.is_closed = False
        self.restarts = True
        # So long a question, or a turn, waits for its answer, in seconds; then its house counts as down, and what
        # comes later is dropped. A house of this door that is silent for longer is killed.
        self.patience, self.kill_after = (1.0, 10.0), 15.0
        self.why = "not started"
        self.on_up: Callable[[], None] = lambda: None
        self.on_down: Callable[[], None] = lambda: None

    # ---- its life

    def begin(self) -> None:
        try:
            self.child = subprocess.Popen(
                self.command, stdin=subprocess.PIPE, stdout=subprocess.PIPE, bufsize=0, start_new_session=True
            )
        except OSError as error:
            self.fell(f"{self.command[0]}: {error.strerror}")
            return
        self.stream = Lines(self.loop, *ends_of(self.child), self.line, self.ended, LONGEST_OF_DOORS)
        self.told, self.starts, self.heard, self.is_silent = [], self.starts + 1, time.monotonic(), False
        self.begun()

    def begun(self) -> None:
        raise NotImplementedError

    def ended(self) -> None:
        """The stream is at its end: all that was under way is lost."""
        status = status_of(self.child) if self.child else 0
        self.stream = self.child = None
        self.fell(meaning(status) if self.is_here else f"the stream ended (status {status})")

    def fell(self, why: str) -> None:
        # (said once, and again after it was up)
        if why != self.why:
            self.note(f"house {self.number} is down: {why}")
        self.why, self.is_up = why, False
        flight, self.flight = self.flight, collections.deque()
        for waiting in flight:
            if waiting.hear:
                waiting.hear(None)
        self.on_down()
        if self.restarts and not self.is_closed:
            self.loop.after(self.wait, self.begin_again)
            self.wait = min(self.wait * 2, LONGEST_WAIT)

    def begin_again(self) -> None:
        if not self.stream and not self.is_closed:
            self.begin()

    def kill(self) -> None:
        """Kills the process, if one runs. What it said before is still heard."""
        if self.child and self.child.poll() is None:
            kill(self.child)

    def close(self) -> None:
        """Ends its input. A house answers what it has, and ends."""
        self.is_closed = True
        if self.stream:
            self.stream.close()
            self.stream = None

    # ---- lines

    def ask(self, line: str, hear: Hear) -> None:
        """Sends a line, of which the answer is heard, or None where it is not reached."""
        if not self.stream or not self.is_up or self.is_silent:
            hear(None)
        elif len(line) > LONGEST_OF_HOUSES and not line.startswith("take "):
            # (such a line would end its process)
            hear([f"fault LineTooLong {LONGEST_OF_HOUSES + 1}"])
        else:
            self.send(line, hear)

    def waiting(self, line: str, hear: Hear | None) -> Waiting:
        """A line that is sent now."""
        return Waiting(line, hear, self.patience[line.split(" ", 1)[0] in TURNS])

    def send(self, line: str, hear: Hear | None) -> None:
        raise NotImplementedError

    def line(self, text: str | None) -> None:
        raise NotImplementedError

    def tell(self, text: str) -> Waiting | None:
        """Takes a line of an answer. The line that it answers, if this is its last one."""
        self.told.append(text)
        if text.split(" ", 1)[0] not in ENDS or not self.flight:
            return None
        return self.flight.popleft()

    def tick(self) -> None:
        """Who waits too long hears that the house is down; a house that said nothing since is silent, until it says
        something."""
        now = time.monotonic()
        for waiting in self.flight:
            if waiting.hear and now - waiting.since > waiting.patience:
                self.late += 1
                if self.heard < waiting.since and not self.is_silent:
                    self.is_silent, self.why = True, "it is silent"
                    self.note(f"house {self.number} is silent: {waiting.line[:60]}")
                hear, waiting.hear = waiting.hear, None
                hear(None)
        if self.flight and now - max(self.flight[0].since, self.heard) > self.longest:
            self.kill()

    @property
    def longest(self) -> float:
        return self.kill_after

    @property
    def is_reached(self) -> bool:
        return self.is_up and not self.is_silent


class Here(House):
    """A house that is a process of this door, on a folder. `post` gets each message, its receiver first."""

    def __init__(
        self,
        loop: Loop,
        number: int,
        program: list[str],
        folder: str,
        note: Callable[[str], None],
        post: Callable[[int, str], None],
    ) -> None:
        super().__init__(loop, number, [*program, folder], note)
        self.folder, self.post = folder, post
        self.pieces: list[str] = []
        self.start: list[str] = []
        self.set_at = 0.0
        self.sets_clock = True
        # How many turns this process did, and the segment that it began with: where in the journal an answer is.
        self.turns = self.segment = 0
        self.on_answer: Callable[[str, list[str]], None] = lambda line, told: None

    def begun(self) -> None:
        self.pieces, self.turns, self.set_at = [], 0, 0.0
        self.flight.append(Waiting("start", self.started, LONGEST_START))

    @property
    def longest(self) -> float:
        return self.kill_after if self.is_up else LONGEST_START

    def started(self, told: Answer) -> None:
        if told:
            self.start, self.is_up, self.wait, self.why = told, True, FIRST_WAIT, ""
            self.note(f"house {self.number} is up, process {self.child.pid if self.child else 0}: {', '.join(told)}")
            self.on_up()

    def send(self, line: str, hear: Hear | None) -> None:
        lines = take_lines(line[5:]) if line.startswith("take ") else [line]
        now = time.monotonic()
        if self.sets_clock and now - self.set_at > CLOCK_AGES and line.split(" ", 1)[0] in TURNS:
            self.set_at = now
            lines.insert(0, f"clock {time.time_ns() // 1000}")
        # (a message goes in one, so that nothing comes between its parts)
        self.flight += [*(Waiting(part, None) for part in lines[:-1]), self.waiting(lines[-1], hear)]
        if self.stream:
            self.stream.send("".join(f"{part}\n" for part in lines))

    def line(self, text: str | None) -> None:
        self.heard, self.is_silent = time.monotonic(), False
        _, _, said = (text or "").partition(" ")
        word, _, rest = said.partition(" ")
        if word in ("more", "post"):
            to, _, octets = rest.partition(" ")
            self.pieces.append(octets)
            if word == "post":
                octets, self.pieces = "".join(self.pieces), []
                if to.isdigit():
                    self.post(int(to), octets)
            return
        waiting = self.tell(said)
        if waiting:
            told, self.told = self.told, []
            self.on_answer(waiting.line, told)
            if waiting.hear:
                waiting.hear(told)


class There(House):
    """A house behind another door: the lines `K @H LINE`, over the stream that a command makes. Each line of the answer
    begins with `K.I`, so a stream that loses, repeats or keeps lines gives no line the answer of another one."""

    is_here = False

    def __init__(self, loop: Loop, number: int, command: str, note: Callable[[str], None]) -> None:
        super().__init__(loop, number, shlex.split(command), note)
        # Where in its journal the last answer is, if the other door says so.
        self.at = (0, 0)
        # The number of the last line (no earlier door gave it), and how many lines of the present answer came.
        self.last, self.came = time.time_ns() // 1000, 0

    def begun(self) -> None:
        self.is_up, self.came = True, 0
        self.on_up()

    def send(self, line: str, hear: Hear | None) -> None:
        self.send_as_is(f"@{self.number} {line}", line, hear)

    def send_as_is(self, text: str, line: str, hear: Hear | None) -> None:
        """Sends a line to the other door itself."""
        self.last += 1
        waiting = self.waiting(line, hear)
        waiting.number = self.last
        self.flight.append(waiting)
        if self.stream:
            self.stream.send(f"{self.last} {text}\n")

    def is_next(self, number: int, place: int) -> bool:
        """Whether a line of an answer is the next one. Those before it that did not come are lost."""
        while self.flight and self.flight[0].number < number:
            self.lose()
        if not self.flight or self.flight[0].number > number or place <= self.came:
            return False
        self.came += 1
        if place > self.came:
            self.lose()
            return False
        return True

    def lose(self) -> None:
        """The answer to the first line under way did not come whole."""
        waiting, self.told, self.came = self.flight.popleft(), [], 0
        if waiting.hear:
            waiting.hear(None)

    def line(self, text: str | None) -> None:
        self.heard, self.is_silent, self.wait, self.why = time.monotonic(), False, FIRST_WAIT, ""
        answered = ANSWERED.fullmatch(text or "")
        if not answered or not self.is_next(int(answered[1]), int(answered[2])):
            return
        said = answered[3]
        if said.startswith("at "):
            numbers = [int(word) for word in said.split(" ")[1:] if word.isdigit()]
            self.at = (numbers[0], numbers[1]) if len(numbers) == 2 else (0, 0)
            return
        waiting = self.tell(said)
        if waiting:
            told, self.told, self.came = self.told, [], 0
            if waiting.hear:
                waiting.hear(None if told == ["refused Down"] else told)
