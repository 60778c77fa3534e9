"""Reads the folder of a house (docs/LINES.md): its segments, their records, and whether each follows the one before."""
from __future__ import annotations

import hashlib
import itertools
import os
from collections.abc import Iterable, Iterator

HEAD = b"cdshouse journal %d %d\n"
# The version of the folder, and the one before it, in which each record of a house has an image.
VERSION, EARLIER = 2, 1
SUM = 32
NO_SUM = bytes(SUM)
# The greatest number of a segment.
GREATEST = (1 << 64) - 1
# The octets of a record before its text: number, clock, mark, length of the text.
FIELDS = 21


class Damaged(Exception):
    """A folder is not what houses write. `begun` is the segment of which only the first records are good, if there is
    one."""

    begun: Segment | None = None


class Record:
    """A record of a segment: its number, the clock, the lines of its text, and the image, or None: only the first one
    has it."""

    def __init__(self, place: str, body: bytes) -> None:
        if len(body) < FIELDS:
            raise Damaged(f"{place}: {len(body)} octets are no record")
        self.place = place
        self.number = int.from_bytes(body[:8], "big")
        self.clock = int.from_bytes(body[8:16], "big")
        size = int.from_bytes(body[17:FIELDS], "big")
        text, rest = body[FIELDS : FIELDS + size], body[FIELDS + size :]
        if body[16] > 1 or len(text) < size or (rest and not body[16]):
            raise Damaged(f"{place}: no record")
        self.image: bytes | None = rest if body[16] else None
        if not text.endswith(b"\n"):
            raise Damaged(f"{place}: the text has no line end")
        self.lines = text[:-1].decode("ascii").split("\n")

    @property
    def kind(self) -> str:
        """`new`, `start`, `segment`, or the command of a turn."""
        return self.lines[0].split(" ")[0]

    @property
    def is_first(self) -> bool:
        """Whether a segment of a house begins with it."""
        return self.kind in ("start", "segment")

    @property
    def running(self) -> list[str]:
        """The lines of the skulks that run where a segment begins in the middle of a process."""
        return [line for line in self.lines[1:] if self.kind == "segment" and line.startswith("running ")]

    @property
    def turn(self) -> list[str]:
        """The lines of the turn: its own, or those of the turn before that a start or a segment repeats."""
        return self.lines[1 + len(self.running) :] if self.is_first else self.lines

    @property
    def line(self) -> str:
        """The line of the turn."""
        return self.turn[0]

    @property
    def posts(self) -> list[tuple[int, str]]:
        """The receivers and the octets of what it posted."""
        words = [line.split(" ") for line in self.turn[1:-1]]
        return [(int(to), octets) for _, to, octets in words]

    @property
    def answer(self) -> str:
        """What the turn was answered."""
        return self.turn[-1]


def body(number: int, clock: int, lines: list[str], image: bytes | None) -> bytes:
    """The octets of a record before its sum."""
    text = "".join(f"{line}\n" for line in lines).encode("ascii")
    fields = (
        number.to_bytes(8, "big") + clock.to_bytes(8, "big") + bytes([image is not None]) + len(text).to_bytes(4, "big")
    )
    return fields + text + (image or b"")


def listed(octets: bytes) -> tuple[list[bytes], int]:
    """The records after open gates, and where the gate is that ends them."""
    found: list[bytes] = []
    at = 0
    while len(octets) - at >= 10 and octets[at] == 1:
        size = int.from_bytes(octets[at + 1 : at + 9], "big")
        if size > len(octets) - at - 10:
            break
        found.append(octets[at + 9 : at + 9 + size])
        at += size + 9
    return found, at


class Segment:
    """One file of a folder: its records, the sum of the last record before it, and that of its last one."""

    def __init__(self, path: str, number: int, fewest: int = 2, version: int = VERSION) -> None:
        with open(path, "rb") as file:
            octets = file.read()
        found, gate = listed(octets)
        if len(found) < fewest:
            raise Damaged(f"{path}: {len(found)} records")
        head = HEAD % (version, number)
        if found[0].startswith(HEAD % (EARLIER, number)) and version != EARLIER:
            raise Damaged(f"{path}: of version {EARLIER}, and tools/houses --renew makes one of version {VERSION}")
        if len(found[0]) != len(head) + 2 * SUM or not found[0].startswith(head):
            raise Damaged(f"{path}: no segment {number}")
        self.path, self.number = path, number
        self.before = found[0][len(head) : -SUM]
        self.last = self.before
        self.records: list[Record] = []
        try:
            self.read(found)
            self.check_end(octets, gate)
        except Damaged as fault:
            fault.begun = self
            raise

    def read(self, found: list[bytes]) -> None:
        """Reads the records as far as they are good."""
        for at, record in enumerate(found):
            body = self.body(f"{self.path} record {at}", record)
            if at:
                self.records.append(Record(f"{self.path} record {at}", body))

    def check_end(self, octets: bytes, gate: int) -> None:
        """No crash leaves a gate 1 at the end, or after it a record that fits and an open gate."""
        found, _ = listed(b"\1" + octets[gate + 1 :])
        if octets[gate : gate + 1] == b"\1":
            raise Damaged(f"{self.path}: record {len(self.records) + 1} is not whole")
        if len(found) > 1 and hashlib.sha256(self.last + found[0][:-SUM]).digest() == found[0][-SUM:]:
            raise Damaged(f"{self.path}: the gate of record {len(self.records) + 1} is closed")

    def body(self, place: str, record: bytes) -> bytes:
        """A record without its sum, which has to be that of it and all before."""
        body, own = record[:-SUM], record[-SUM:]
        if hashlib.sha256(self.last + body).digest() != own:
            raise Damaged(f"{place}: the sum is another")
        self.last = own
        return body


def chained(number: int, before: bytes, bodies: Iterable[bytes]) -> Iterator[bytes]:
    """The octets of a segment with records of these bodies after a sum, record by record."""
    for body in itertools.chain([HEAD % (VERSION, number) + before], bodies):
        before = hashlib.sha256(before + body).digest()
        yield b"\1" + (len(body) + SUM).to_bytes(8, "big") + body + before
    yield b"\0"


def sealed(number: int, bodies: Iterable[bytes], before: bytes = NO_SUM) -> bytes:
    """The octets of a segment with records of these bodies after a sum."""
    return b"".join(chained(number, before, bodies))


def bodies_of(path: str) -> list[bytes]:
    """The bodies of the records of a segment."""
    with open(path, "rb") as file:
        return [record[:-SUM] for record in listed(file.read())[0][1:]]


def numbers(folder: str) -> list[int]:
    """The numbers of the segments of a folder."""
    found = (int(name) for name in os.listdir(folder) if name.isdigit() and name[0] != "0")
    return sorted(number for number in found if number <= GREATEST)


def segments(folder: str, fewest: int = 2, version: int = VERSION) -> Iterator[Segment]:
    """The segments of a folder, each of which follows the one before, and has so many records or more: two in the
    folder of a house."""
    last: Segment | None = None
    for number in numbers(folder):
        if last and number != last.number + 1:
            raise Damaged(f"{folder}: segment {last.number + 1} is missing")
        try:
            segment = Segment(f"{folder}/{number}", number, fewest, version)
        except Damaged as fault:
            check_follows(fault.begun, last)
            raise
        check_follows(segment, last)
        yield segment
        last = segment


def check_follows(segment: Segment | None, last: Segment | None) -> None:
    """A segment, if there is one, follows the one before, if that was read."""
    if segment and (last and segment.before != last.last or segment.number == 1 and segment.before != NO_SUM):
        raise Damaged(f"{segment.path}: does not follow the segment before")


def records_of(folder: str, fewest: int = 2, version: int = VERSION) -> Iterator[Record]:
    """The records of a folder, up to the first one that is not good."""
    try:
        for segment in segments(folder, fewest, version):
            yield from segment.records
    except Damaged as fault:
        if fault.begun:
            yield from fault.begun.records
        raise


def check_repeated(record: Record, last: Record, turn: list[str]) -> None:
    """A start or a segment repeats the last turn, after the record before, and has an image."""
    if record.turn != turn:
        raise Damaged(f"{record.place}: repeats another turn than the last one")
    if record.image is None:
        raise Damaged(f"{record.place}: no image")
    if record.kind == "start" and record.clock:
        raise Damaged(f"{record.place}: a start at {record.clock}")
    if record.kind == "segment" and record.lines[0] != f"segment {last.number}":
        raise Damaged(f"{record.place}: segment {last.number} was due")
    if record.kind == "segment" and (record.number, record.clock) != (last.number, last.clock):
        raise Damaged(f"{record.place}: does not follow the record before")
    if record.kind == "segment" and last.image not in (None, record.image):
        raise Damaged(f"{record.place}: another image than the record before")


def front(folder: str, fewest: int = 2, version: int = VERSION) -> tuple[list[Record], Damaged | None]:
    """The entries of a house from the first on, and what is wrong with the folder after them, or None."""
    found: list[Record] = []
    try:
        add_entries(found, records_of(folder, fewest, version))
    except Damaged as fault:
        return found, fault
    return found, None


def entries(folder: str, fewest: int = 2, version: int = VERSION) -> list[Record]:
    """The entries of a house from the first on: its turns and its starts, by their numbers. One before a segment has
    the image of that."""
    found, fault = front(folder, fewest, version)
    if fault:
        raise fault
    return found


def houses_of(folders: Iterable[str]) -> dict[int, list[Record]]:
    """The entries of houses, by their numbers."""
    found = map(entries, folders)
    return {int(own[0].line.split(" ")[1]): own for own in found}


def add_entries(found: list[Record], records: Iterable[Record]) -> None:
    """Adds the entries that records are, up to the first record that does not follow the one before."""
    turn: list[str] = []
    for record in records:
        if record.kind == "new":
            if found or (record.number, record.clock, record.image, record.lines) != (0, 0, None, ["new"]):
                raise Damaged(f"{record.place}: no record of a new folder")
            continue
        if not found and (record.kind != "house" or record.clock):
            raise Damaged(f"{record.place}: does not begin with a house")
        if record.is_first:
            check_repeated(record, found[-1], turn)
        if record.kind == "segment":
            found[-1].image = record.image
            continue
        if record.number != len(found) + 1:
            raise Damaged(f"{record.place}: entry {record.number} where {len(found) + 1} is due")
        turn = record.turn
        found.append(record)


def lines_of(segment: Segment) -> Iterator[str]:
    """The records of a segment as text, line by line."""
    yield f"segment {segment.number} after {segment.before.hex()}"
    for record in segment.records:
        image = "no image" if record.image is None else f"image {len(record.image)}"
        yield f"{record.number} clock {record.clock} {image}"
        yield from (f"  {line}" for line in record.lines)


def shown(folder: str) -> Iterator[str]:
    """The records of a folder as text, line by line, up to the first one that is not good."""
    try:
        for segment in segments(folder):
            yield from lines_of(segment)
            yield f"sum {segment.last.hex()}"
    except Damaged as fault:
        if fault.begun:
            yield from lines_of(fault.begun)
        raise
