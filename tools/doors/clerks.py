"""The clerk of a door: a process that answers the commands of the name service, and asks houses for what it has to
know."""
from __future__ import annotations

import subprocess
import time
from collections.abc import Callable, Mapping

from doors.houses import Answer, House, ends_of, status_of
from doors.lines import LONGEST_OF_HOUSES, fault_of
from doors.loops import Loop
from doors.streams import Lines
from cds.processes import ENDS

# So long a command asks houses, in seconds; then none is reached any more, and so it comes to its end. A clerk that
# does not end it then is killed after twice that.
LONGEST = 60.0
FIRST_WAIT, LONGEST_WAIT = 0.2, 5.0
# A clerk ends at line 16,777,217. After so many there is another one, as soon as it has no command.
ENOUGH_LINES = 16_000_000


def heard(number: str, told: Answer) -> list[str]:
    """The lines that say an answer to a clerk. One that a clerk does not read no house says: that house counts as not
    reached."""
    lines = [f"hear {number} {line}" for line in told or ()]
    return [f"down {number}"] if not lines or any(map(fault_of, lines)) else lines


class Job:
    """A command under way. `may` says whether a line is allowed to whoever gave the command; `asked` is what was
    asked for it: the house, where in its journal the answer is, and the line."""

    def __init__(self, line: str, hear: Callable[[list[str]], None], may: Callable[[list[str]], bool]) -> None:
        self.line, self.hear, self.may = line, hear, may
        self.since = time.monotonic()
        self.said: list[str] = []
        self.asked: list[tuple[int, int, int, str]] = []


class Clerk:
    """`words` is the program and its own words; `houses` are those that it may ask, of which it prefers `near`."""

    def __init__(
        self, loop: Loop, words: list[str], near: int, houses: Mapping[int, House], note: Callable[[str], None]
    ) -> None:
        self.loop, self.words, self.near, self.houses, self.note = loop, words, near, houses, note
        self.stream: Lines | None = None
        self.child: subprocess.Popen[bytes] | None = None
        self.jobs: dict[int, Job] = {}
        # The commands that wait for another clerk, and how many lines this one was sent.
        self.held: list[Job] = []
        self.sent = 0
        self.known: tuple[int, list[int]] = (0, [])
        self.number, self.wait, self.is_closed = 0, FIRST_WAIT, False
        self.on_end: Callable[[Job], None] = lambda job: None
        # Where in its journal the last answer of a house is.
        self.place: Callable[[House], tuple[int, int]] = lambda house: (0, 0)

    # ---- its life

    def begin(self) -> None:
        if self.stream or self.is_closed or not self.words:
            return
        self.known = self.asked()
        near, houses = self.known
        words = [*self.words, str(near), *map(str, houses)]
        try:
            self.child = subprocess.Popen(
                words, stdin=subprocess.PIPE, stdout=subprocess.PIPE, bufsize=0, start_new_session=True
            )
        except OSError as error:
            self.note(f"the clerk does not start: {words[0]}: {error.strerror}")
            return
        self.stream, self.sent = Lines(self.loop, *ends_of(self.child), self.line, self.ended), 0

    def ended(self) -> None:
        """All commands under way are refused. Whether a plan was done nobody knows."""
        status = status_of(self.child) if self.child else 0
        self.stream, self.child = None, None
        self.note(f"the clerk ended with status {status}")
        jobs, self.jobs = self.jobs, {}
        for job in jobs.values():
            job.hear(["refused NoClerk doubt"])
        self.give_held()
        self.loop.after(self.wait, self.begin)
        self.wait = min(self.wait * 2, LONGEST_WAIT)

    def close(self) -> None:
        self.is_closed = True
        if self.stream:
            self.stream.close()
        if self.child:
            self.child.wait()
        self.stream = self.child = None

    def asked(self) -> tuple[int, list[int]]:
        """The house that it prefers, and all that it may ask."""
        houses = sorted(self.houses)
        return self.near or min(houses, default=1), houses

    def renew(self) -> None:
        """Another one, if it is to ask other houses than it knows, or has read enough lines."""
        if self.stream and not self.jobs and (self.is_spent or self.known != self.asked()):
            self.stream.close()
            if self.child:
                self.child.wait()
            self.stream = self.child = None
        self.begin()

    @property
    def is_spent(self) -> bool:
        return self.sent > ENOUGH_LINES

    def tick(self) -> None:
        oldest = min((job.since for job in self.jobs.values()), default=time.monotonic())
        if self.child and time.monotonic() - oldest > 2 * LONGEST:
            self.child.kill()

    # ---- commands

    def command(self, line: str, hear: Callable[[list[str]], None], may: Callable[[list[str]], bool]) -> None:
        job = Job(line, hear, may)
        if len(line) > LONGEST_OF_HOUSES:
            # (with its number in front the line would end the clerk)
            hear([f"fault LineTooLong {LONGEST_OF_HOUSES + 1}"])
        elif self.jobs and self.is_spent:
            self.held.append(job)
        else:
            self.give(job)

    def give(self, job: Job) -> None:
        self.renew()
        if not self.stream:
            job.hear(["refused NoClerk"])
            return
        self.number += 1
        self.jobs[self.number] = job
        self.send([f"do {self.number} {job.line}"])

    def give_held(self) -> None:
        """Gives the commands that wait for another clerk, once this one has none."""
        if not self.jobs:
            held, self.held = self.held, []
            for job in held:
                self.give(job)

    def send(self, lines: list[str]) -> None:
        if self.stream:
            self.sent += len(lines)
            self.stream.send("".join(f"{line}\n" for line in lines))

    def line(self, text: str | None) -> None:
        match (text or "").split(" ", 2):
            case ["say", number, said] if number.isdigit():
                self.say(int(number), said)
            case ["ask", number, said]:
                job, house, question = (*said.split(" ", 2), "", "")[:3]
                if job.isdigit() and house.isdigit():
                    self.ask(number, self.jobs.get(int(job)), int(house), question)

    def say(self, number: int, text: str) -> None:
        job = self.jobs.get(number)
        if not job:
            return
        job.said.append(text)
        if text.split(" ", 1)[0] in ENDS:
            del self.jobs[number]
            self.wait = FIRST_WAIT
            self.on_end(job)
            self.give_held()
            job.hear(job.said)

    def ask(self, number: str, job: Job | None, house: int, question: str) -> None:
        target, asker = self.houses.get(house), self.stream

        def hear(told: Answer) -> None:
            if job:
                job.asked.append((house, *(self.place(target) if told and target else (0, 0)), question))
            # (another clerk gives its questions the same numbers)
            if asker is self.stream:
                self.send(heard(number, told))

        if not target or not job or time.monotonic() - job.since > LONGEST:
            hear(None)
        elif not job.may(question.split(" ")):
            hear(["refused Forbidden"])
        else:
            target.ask(question, hear)
