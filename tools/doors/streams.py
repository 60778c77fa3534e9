"""Lines over two file descriptors, without waiting for either."""
from __future__ import annotations

import os
from collections.abc import Callable

from doors.loops import Loop

# So many octets are read, and written, at once.
MOST = 1 << 18


class Lines:
    """Lines of at most `longest` octets. `on_line` gets each one without its end, or None for one that is longer;
    `on_end` says that no more come."""

    def __init__(
        self,
        loop: Loop,
        source: int,
        sink: int,
        on_line: Callable[[str | None], None],
        on_end: Callable[[], None],
        longest: int = 1 << 30,
    ) -> None:
        self.loop, self.source, self.sink, self.longest = loop, source, sink, longest
        self.on_line, self.on_end = on_line, on_end
        self.taken, self.given = bytearray(), bytearray()
        self.is_open, self.is_dropping, self.is_due, self.is_waiting = True, False, False, False
        # Whether nobody reads what is written; whether it is closed when all is written; and whether the end of what
        # comes leaves it open.
        self.is_broken = self.is_ending = self.outlives = False
        for fd in {source, sink}:
            os.set_blocking(fd, False)
        loop.reads(source, self.readable)

    # ---- in

    def pause(self) -> None:
        """Reads no more, until `go_on`."""
        if self.is_open:
            self.loop.reads(self.source, None)

    def go_on(self) -> None:
        if self.is_open:
            self.loop.reads(self.source, self.readable)

    def readable(self) -> None:
        try:
            octets = os.read(self.source, MOST)
        except BlockingIOError:
            return
        except OSError:
            octets = b""
        if not octets:
            self.pause()
            if not self.outlives:
                self.close()
            self.on_end()
            return
        self.taken += octets
        if b"\n" in octets:
            *lines, rest = self.taken.split(b"\n")
            self.taken = rest
            for line in lines:
                self.line(line)
        if len(self.taken) > self.longest:
            self.is_dropping = True
            self.taken.clear()

    def line(self, octets: bytearray) -> None:
        is_long, self.is_dropping = self.is_dropping or len(octets) > self.longest, False
        if self.is_open:
            self.on_line(None if is_long else octets.decode("latin-1"))

    # ---- out

    def send(self, text: str) -> None:
        """Writes a text as soon as that goes."""
        self.given += text.encode("latin-1")
        if self.is_open and not self.is_due:
            self.is_due = True
            self.loop.at_last(self.flush)

    def flush(self) -> None:
        self.is_due = False
        if self.is_open and self.given:
            self.writable()

    def writable(self) -> None:
        try:
            written = os.write(self.sink, self.given if len(self.given) <= MOST else self.given[:MOST])
            del self.given[:written]
        except BlockingIOError:
            pass
        except OSError:
            self.is_broken = True
            self.given.clear()
        if self.is_ending and not self.given:
            self.close()
        elif self.is_waiting or self.given:
            self.is_waiting = bool(self.given)
            self.loop.writes(self.sink, self.writable if self.given else None)

    def finish(self) -> None:
        """Closes it when all is written."""
        self.is_ending = True
        if self.is_open and not self.given:
            self.close()

    def close(self) -> None:
        if self.is_open:
            self.is_open = False
            self.loop.reads(self.source, None)
            self.loop.writes(self.sink, None)
            for fd in {self.source, self.sink}:
                os.close(fd)
