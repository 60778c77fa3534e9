"""A house that its caller steps, by the library for C: he keeps its records on a disk of his own, and carries its
messages."""

from __future__ import annotations

import ctypes
import threading
from collections.abc import Iterable
from types import TracebackType

from cds.calls import NO_MEMORY, NO_ROOM, OK, Library, library

EMPTY, HELD, NO_RECORD, NOT_KEPT, SPENT, BAD_LINE, NOT_STARTED, STARTED, NONE_WAITS = range(16, 25)
ROOM = 4096


class HouseFailed(Exception):
    """A call of a house was not done. But for `NoRecord` and `OutOfMemory` the house is as it was."""

    def __init__(self, code: int) -> None:
        super().__init__(f"{type(self).__name__}, code {code}")
        self.code = code


class Empty(HouseFailed):
    """The house was closed."""


class Held(HouseFailed):
    """The handle holds a house already."""


class NoRecord(HouseFailed):
    """These octets are not the next record of the house. It is spent then."""


class NotKept(HouseFailed):
    """A record waits to be kept."""


class Spent(HouseFailed):
    """It was spent before: open it again from the records that were kept."""


class BadLine(HouseFailed):
    """Octets that are not from 20 to 7E, or more than 4,080 of them."""


class NotStarted(HouseFailed):
    """It reads records, and has not started."""


class Started(HouseFailed):
    """It has started already."""


class NoneWaits(HouseFailed):
    """No record waits to be kept."""


class OutOfMemory(HouseFailed):
    """Memory ran out. The house is spent then, but after `next_segment`."""


FAILURES = {
    NO_MEMORY: OutOfMemory,
    EMPTY: Empty,
    HELD: Held,
    NO_RECORD: NoRecord,
    NOT_KEPT: NotKept,
    SPENT: Spent,
    BAD_LINE: BadLine,
    NOT_STARTED: NotStarted,
    STARTED: Started,
    NONE_WAITS: NoneWaits,
}


class Handle(ctypes.Structure):
    """What C sees of a house."""

    _fields_ = [("state", ctypes.c_void_p)]


class Reply:
    """What a line or a start came to: its record, if it has one, and, once that is durable, its text."""

    def __init__(self, house: House, record: bytes | None) -> None:
        self._house, self.record, self._text = house, record, None if record is not None else house.text()

    def kept(self) -> bytes:
        """Says that the record is durable, if there is one, and gives the text: that is when it may be said."""
        if self._text is None:
            self._house.kept()
            self._text = self._house.text()
        return self._text


class House:
    """A house between two lines. It is for the thread that made it."""

    def __init__(self, records: Iterable[bytes] = (), found: Library | None = None) -> None:
        """A house that has no record yet, or the one that goes on from all records of its last segment. `start` is
        next."""
        self._calls = house_calls(found or library())
        self._handle, self._thread, left = Handle(), threading.get_ident(), iter(records)
        first = next(left, None)
        try:
            if first is None:
                self._call("new")
            else:
                self._call("open", first, len(first))
            for record in left:
                self._call("redo", record, len(record))
        except HouseFailed:
            self.close()
            raise

    def _call(self, name: str, *words: object) -> None:
        """One call, which is done or raises."""
        if threading.get_ident() != self._thread:
            raise RuntimeError("a house is for the thread that made it")
        code = getattr(self._calls, f"cds_house_{name}")(ctypes.byref(self._handle), *words)
        if code != OK:
            raise FAILURES.get(code, HouseFailed)(code)

    def _octets(self, name: str) -> bytes:
        """All octets that a call puts into a room, which is asked again with more room if there are many."""
        room, length = ROOM, ctypes.c_size_t()
        while True:
            out = ctypes.create_string_buffer(room)
            try:
                self._call(name, out, room, ctypes.byref(length))
                return out.raw[: length.value]
            except HouseFailed as failed:
                if failed.code != NO_ROOM:
                    raise
                room = length.value

    def _reply(self) -> Reply:
        """What the last call came to."""
        try:
            return Reply(self, self._octets("record"))
        except NoneWaits:
            return Reply(self, None)

    def start(self) -> Reply:
        """Ends the life of the house before, and starts: its record is the first one of a next segment."""
        self._call("start")
        return self._reply()

    def line(self, octets: bytes) -> Reply:
        """What the house replies to a line, which is given without its end."""
        self._call("line", octets, len(octets))
        return self._reply()

    def next_segment(self) -> Reply:
        """Begins a next segment, whose first record this is."""
        self._call("next_segment")
        return self._reply()

    def kept(self) -> None:
        """The record that waits is durable."""
        self._call("kept")

    def text(self) -> bytes:
        """What is said of the last line or of the start."""
        return self._octets("text")

    def close(self) -> None:
        """Lets the house go."""
        if self._handle.state:
            self._call("free")

    def __enter__(self) -> House:
        return self

    def __exit__(
        self, kind: type[BaseException] | None, error: BaseException | None, trace: TracebackType | None
    ) -> None:
        self.close()


def house_calls(found: Library) -> ctypes.CDLL:
    """The calls of a house in a library."""
    calls, size = found.calls, ctypes.c_size_t
    handle, octets, length = ctypes.POINTER(Handle), ctypes.c_char_p, ctypes.POINTER(size)
    for name in ("new", "start", "next_segment", "kept", "free"):
        getattr(calls, f"cds_house_{name}").argtypes = [handle]
    for name in ("open", "redo", "line"):
        getattr(calls, f"cds_house_{name}").argtypes = [handle, octets, size]
    for name in ("record", "text"):
        getattr(calls, f"cds_house_{name}").argtypes = [handle, octets, size, length]
    for name in ("new", "open", "redo", "start", "line", "next_segment", "record", "kept", "text", "free"):
        getattr(calls, f"cds_house_{name}").restype = ctypes.c_uint32
    return calls
