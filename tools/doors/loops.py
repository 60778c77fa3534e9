"""One loop for all that a door waits for: file descriptors, and times."""
from __future__ import annotations

import heapq
import itertools
import select
import time
from collections.abc import Callable

Call = Callable[[], None]


class Watch:
    """What is done where a file descriptor can be read, and where it can be written."""

    def __init__(self) -> None:
        self.reads: Call | None = None
        self.writes: Call | None = None

    @property
    def events(self) -> int:
        return (select.EPOLLIN if self.reads else 0) | (select.EPOLLOUT if self.writes else 0)


class Loop:
    def __init__(self) -> None:
        self.epoll = select.epoll()
        self.watches: dict[int, Watch] = {}
        self.timers: list[tuple[float, int, Call]] = []
        self.counter = itertools.count()
        self.last: list[Call] = []

    # ---- what is waited for

    def reads(self, fd: int, call: Call | None) -> None:
        """Calls this where the descriptor can be read, or no longer."""
        watch = self.watches.setdefault(fd, Watch())
        before, watch.reads = watch.events, call
        self.change(fd, watch, before)

    def writes(self, fd: int, call: Call | None) -> None:
        """Calls this where the descriptor can be written, or no longer."""
        watch = self.watches.setdefault(fd, Watch())
        before, watch.writes = watch.events, call
        self.change(fd, watch, before)

    def change(self, fd: int, watch: Watch, before: int) -> None:
        if not watch.events:
            del self.watches[fd]
            if before:
                self.epoll.unregister(fd)
        elif not before:
            self.epoll.register(fd, watch.events)
        elif before != watch.events:
            self.epoll.modify(fd, watch.events)

    def after(self, seconds: float, call: Call) -> None:
        """Calls this once, after so many seconds."""
        heapq.heappush(self.timers, (time.monotonic() + seconds, next(self.counter), call))

    def at_last(self, call: Call) -> None:
        """Calls this once, after all else that is to be done now: what was written until then goes out in one."""
        self.last.append(call)

    # ---- work

    def once(self, longest: float) -> None:
        """Waits for something, at most so many seconds, and does it."""
        self.finish()
        left = min(longest, self.timers[0][0] - time.monotonic()) if self.timers else longest
        for fd, events in self.epoll.poll(max(0.0, left)):
            watch = self.watches.get(fd)
            # (an end, or an error, is seen by who reads or writes)
            if watch and watch.reads and events & ~select.EPOLLOUT:
                watch.reads()
            if watch and watch.writes and events & ~select.EPOLLIN:
                watch.writes()
        now = time.monotonic()
        while self.timers and self.timers[0][0] <= now:
            heapq.heappop(self.timers)[2]()
        self.finish()

    def finish(self) -> None:
        while self.last:
            calls, self.last = self.last, []
            for call in calls:
                call()

    def run_until(self, is_over: Callable[[], bool], seconds: float = 1e9) -> bool:
        """Works until something holds, or for so many seconds. Returns whether it holds."""
        until = time.monotonic() + seconds
        self.finish()
        while not is_over():
            left = until - time.monotonic()
            if left <= 0:
                return False
            self.once(min(left, 1.0))
        return True
