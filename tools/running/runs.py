"""A run of a program over an input: what it is given, what it has to do, and what differs."""

from __future__ import annotations

import os
import re
import resource
import subprocess
from collections.abc import Callable

ROOT = os.path.dirname(os.path.dirname(os.path.dirname(os.path.realpath(__file__))))
SECONDS = 60
NO_MEMORY = 6
# Octets of an input, and rounds of `load`, beyond which a run is one of a large input.
LARGE, LARGE_LOAD = 1_000_000, 5000
# Answers of a line that changes nothing: no line that `cdsmend` writes may get one.
IN_VAIN = re.compile(rb"\d+ (refused|ok (late|early|stale|noreplica))\b")


def open_octets(path: str) -> bytes:
    """Returns the octets of a file, or none if there is no file."""
    if not os.path.isfile(path):
        return b""
    with open(path, "rb") as it:
        return it.read()


def short(line: bytes | None) -> str:
    """Returns a line as it is printed, with its first octets if it is long."""
    return "nothing" if line is None else repr(line[:100])[1:] + (f".. ({len(line)} octets)" if len(line) > 100 else "")


def difference(wanted: bytes, found: bytes) -> str:
    """Returns the first lines that differ."""
    a, b = wanted.split(b"\n"), found.split(b"\n")
    for at in range(max(len(a), len(b))):
        one, other = (it[at] if at < len(it) else None for it in (a, b))
        if one != other:
            return f"line {at + 1} is {short(other)}, not {short(one)}"
    return "no difference"


def status_of(output: bytes) -> int:
    """Returns how a run ends that writes this."""
    return 3 if re.search(rb"(\A|\n)\d+ fault [^\n]*\n\Z", output) else 0


class Run:
    """What the program is given, and what it has to do. `folder` and `full` are the source and the sink that fail."""

    def __init__(
        self,
        name: str,
        words: list[str],
        octets: bytes,
        output: bytes,
        status: int,
        folder: bool = False,
        full: bool = False,
    ) -> None:
        self.name, self.words, self.octets, self.output, self.status = name, words, octets, output, status
        self.folder, self.full = folder, full

    def ended(self, program: str, prepare: Callable[[], None] | None = None) -> tuple[int | None, bytes, bytes]:
        """Runs the program, and returns its status, what it wrote, and its standard error; None for the status if it
        did not end.

        Its process calls `prepare` before the program begins."""
        source = os.open(ROOT, os.O_RDONLY) if self.folder else subprocess.PIPE
        sink = os.open("/dev/full", os.O_WRONLY) if self.full else subprocess.PIPE
        words = [program, *self.words]
        try:
            with subprocess.Popen(words, stdin=source, stdout=sink, stderr=subprocess.PIPE, preexec_fn=prepare) as ran:
                try:
                    output, errors = ran.communicate(None if self.folder else self.octets, timeout=SECONDS)
                except subprocess.TimeoutExpired:
                    ran.kill()
                    return None, b"", b""
        finally:
            for it in (source, sink):
                if it != subprocess.PIPE:
                    os.close(it)
        return ran.returncode, output or b"", errors

    def fault(self, program: str) -> str | None:
        """Returns what differs, or None."""
        status, output, errors = self.ended(program)
        if status is None:
            return f"it did not end within {SECONDS} seconds"
        found = []
        if status != self.status:
            found.append(f"status {status}, not {self.status}")
        if output != self.output:
            found.append(difference(self.output, output))
        if errors:
            found.append(f"standard error has {errors[:100]!r}")
        return "; ".join(found) or None


def is_large(run: object) -> bool:
    """Whether a run has a large input, or makes one."""
    if not isinstance(run, Run):
        return False
    return len(run.octets) > LARGE or run.words[:1] == ["load"] and run.status == 0 and int(run.words[1]) > LARGE_LOAD


class Mending(Run):
    """A run of `cdsmend`. The script followed by the commands that it writes has to end with a skulk that is complete,
    and none of these commands may be refused or in vain."""

    # (the path of the program, which tools/cases sets)
    mender = ""

    def fault(self, program: str) -> str | None:
        """Returns what differs, or None."""
        fault = super().fault(self.mender)
        if fault or self.status or self.output.startswith(b"refused "):
            return fault
        ran = subprocess.run([program, "run"], input=self.octets + self.output, capture_output=True, timeout=SECONDS)
        answers, before = ran.stdout.splitlines(), self.octets.count(b"\n")
        last = (answers or [b""])[-1]
        if ran.returncode or b" complete " not in last:
            return f"the script followed by its commands ends with status {ran.returncode} and {short(last)}"
        vain = [it for it in answers if IN_VAIN.match(it) and int(it.split()[0]) > before]
        return f"a command that it writes is in vain: {short(vain[0])}" if vain else None


class Limited(Run):
    """A run with little memory beside its stack, in octets, that has to end as any other does."""

    room = 2**20

    def ended(self, program: str, prepare: Callable[[], None] | None = None) -> tuple[int | None, bytes, bytes]:
        """Runs the program with so much memory."""
        return super().ended(program, lambda: resource.setrlimit(resource.RLIMIT_DATA, (self.room, self.room)))


class Starved(Limited):
    """A run with so little memory that it has to end with status 6, after whole answers, and not after all of them.
    `output` has all of them, or is empty if the form writes nothing then."""

    room = 24 * 2**20

    def fault(self, program: str) -> str | None:
        """Returns what differs, or None."""
        status, output, errors = self.ended(program)
        if status != NO_MEMORY or errors:
            return f"status {status}, not {NO_MEMORY}, and standard error has {errors[:100]!r}"
        if not self.output.startswith(output):
            return difference(self.output, output)
        if self.output and output in (b"", self.output):
            return f"{len(output)} octets were written"
        return (
            f"it ends in a part of an answer: {short(output.splitlines()[-1])}"
            if output and not output.endswith(b"\n")
            else None
        )


class StarvedMending(Starved):
    """The same of `cdsmend`."""

    def fault(self, program: str) -> str | None:
        """Returns what differs, or None."""
        return super().fault(Mending.mender)
