"""The calls of the library for C, by ctypes."""

from __future__ import annotations

import ctypes
import functools
import os

ABI = 2
ROOM = 65536
OK, USAGE, BAD_INPUT, NO_ROOM, NO_MEMORY, JOURNAL_FULL = 0, 2, 3, 5, 6, 7


class Failed(Exception):
    """A call ended with another status than 0. `text` is what the form said until then."""

    def __init__(self, status: int, text: bytes) -> None:
        last = text.splitlines()[-1:]
        super().__init__(f"status {status}" + (f", and last: {last[0][:200]!r}" if last else ""))
        self.status, self.text = status, text


class Usage(Failed):
    """The words name no form."""


class BadInput(Failed):
    """The input is at fault. The text has the answers in front of the fault, and its line if the form has one."""


class NoMemory(Failed):
    """Memory ran out. The text is a front of what is due."""


class JournalFull(Failed):
    """A journal has no room for what a line puts."""


FAILURES = {USAGE: Usage, BAD_INPUT: BadInput, NO_MEMORY: NoMemory, JOURNAL_FULL: JournalFull}


class Library:
    """A library at a path."""

    def __init__(self, path: str) -> None:
        self.path = path
        self.calls = calls = ctypes.CDLL(path)
        calls.cds_abi.restype = ctypes.c_uint32
        calls.cds_abi.argtypes = []
        if calls.cds_abi() != ABI:
            raise OSError(f"{path} has calls of number {calls.cds_abi()}, and not {ABI}")
        octets, size = ctypes.c_char_p, ctypes.c_size_t
        calls.cds_run.restype = ctypes.c_uint32
        calls.cds_run.argtypes = [octets, size, octets, size, octets, size, ctypes.POINTER(size)]
        self._run = calls.cds_run

    def call(self, words: bytes, octets: bytes, room: int) -> tuple[int, int, bytes]:
        """One call with so much room: its status, how long the text is, and the front of it that has room."""
        out, length = ctypes.create_string_buffer(max(room, 1)), ctypes.c_size_t()
        status = self._run(words, len(words), octets, len(octets), out, room, ctypes.byref(length))
        return status, length.value, ctypes.string_at(out, min(room, length.value))

    def run(self, words: str, octets: bytes, room: int = ROOM) -> bytes:
        """What a form says of these octets. If there is more of it than room, it is called again with as much as it
        needs."""
        form, octets = words.encode(), bytes(octets)
        status, wanted, text = self.call(form, octets, room)
        if status == NO_ROOM:
            status, wanted, text = self.call(form, octets, wanted)
        if status != OK:
            raise FAILURES.get(status, Failed)(status, text)
        return text


def path_of_library() -> str:
    """The path of the library, by the places that the package says."""
    here = os.path.dirname(os.path.realpath(__file__))
    root = os.path.dirname(os.path.dirname(here))
    beside = [f"{here}/libcds.so", f"{root}/lib/libcds.so", f"{root}/out/library/lib/libcds.so"]
    named = os.environ.get("CDS_LIBRARY")
    return named if named else next((it for it in beside if os.path.isfile(it)), "libcds.so")


@functools.cache
def library() -> Library:
    """The library that `run` calls."""
    return Library(path_of_library())


def run(words: str, octets: bytes) -> bytes:
    """What a form says of these octets: all of it, or a failure is raised."""
    return library().run(words, octets)
