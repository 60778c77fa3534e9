"""Commands that run beside one another, and all end if whoever runs them is stopped."""

from __future__ import annotations

import contextlib
import os
import signal
import subprocess
import threading
from collections.abc import Iterator, Sequence
from typing import IO


class Children:
    """The commands that run, each with all that it starts in a session of its own."""

    def __init__(self) -> None:
        self.running: set[int] = set()
        self.alone, self.is_over = threading.Lock(), False

    @contextlib.contextmanager
    def started(self, words: Sequence[str], folder: str, out: IO[str]) -> Iterator[subprocess.Popen[str]]:
        """Starts a command, whose output goes to a file."""
        with self.alone:
            if self.is_over:
                raise OSError("it was stopped")
            ran = subprocess.Popen(
                words,
                cwd=folder,
                stdin=subprocess.DEVNULL,
                stdout=out,
                stderr=subprocess.STDOUT,
                text=True,
                start_new_session=True,
            )
            self.running.add(ran.pid)
        try:
            yield ran
        finally:
            with self.alone:
                self.running.discard(ran.pid)

    def stop(self) -> None:
        """Ends all that run, and starts no more."""
        with self.alone:
            self.is_over = True
            for it in self.running:
                with contextlib.suppress(ProcessLookupError):
                    os.killpg(it, signal.SIGTERM)
