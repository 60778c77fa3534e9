#!/usr/bin/env python3
"""server.py FOLDER [OCTETS]: a house like `cdshouse FOLDER`, as a program in Python over the library.

It has a disk of its own, reads lines and writes answers (docs/LINES.md). Its folder has what `cdshouse` would keep
there, so that `cdsexplain` explains it, and `tools/cell CELL --program examples/embedded/server.py` runs houses of it:
the cell is its net. A segment is changed after so many octets, or three times those that it began with. It ends with 3
after octets that are no line, and with 8 if its disk or its output fails."""

from __future__ import annotations

import fcntl
import hashlib
import os
import sys

sys.path.insert(0, os.path.join(os.path.dirname(os.path.realpath(__file__)), "../../python"))
import cds  # noqa: E402

MOST = 1 << 20


def sync(path: str) -> None:
    """Makes durable what a file has, or which names a folder has."""
    descriptor = os.open(path, os.O_RDONLY)
    os.fsync(descriptor)
    os.close(descriptor)


def write(file: int, octets: bytes, at: int) -> None:
    """Writes all octets at a place of a file, and syncs it: one call may write fewer."""
    while octets:
        done = os.pwrite(file, octets, at)
        octets, at = octets[done:], at + done
    os.fsync(file)


class Disk:
    """The segments of a folder: `records` are those of the last one. A record is there once the gate before it is 1."""

    def __init__(self, folder: str, most: int) -> None:
        self.folder, self.records, self.sum, self.least = os.path.abspath(folder), list[bytes](), bytes(32), most
        self.file = self.size = self.most = 0
        self.lock = os.open(f"{self.folder}/lock", os.O_CREAT | os.O_WRONLY, 0o600)
        fcntl.flock(self.lock, fcntl.LOCK_EX | fcntl.LOCK_NB)
        self.number = max((int(name) for name in os.listdir(self.folder) if name.isdigit()), default=0)
        # (an earlier process may have died in front of a sync)
        sync(self.folder)
        if self.number:
            sync(f"{self.folder}/{self.number}")
            with open(f"{self.folder}/{self.number}", "rb") as file:
                self.read(file.read())

    def read(self, octets: bytes) -> None:
        """Reads a segment: its head, in which the sum before it is, and its records."""
        at = 0
        while octets[at] == 1:
            size = int.from_bytes(octets[at + 1 : at + 9], "big")
            body, found = octets[at + 9 : at + 9 + size - 32], octets[at + 9 + size - 32 : at + 9 + size]
            self.sum = hashlib.sha256((self.sum if at else body[-32:]) + body).digest()
            if self.sum != found:
                raise ValueError(f"{self.folder}/{self.number} is damaged at octet {at}")
            self.records += [body] if at else []
            at += 9 + size
        if not self.records:
            raise ValueError(f"{self.folder}/{self.number} has no record")

    def summed(self, body: bytes) -> bytes:
        """A record with its length and its sum, as it is after the gate, and the gate after it."""
        self.sum = hashlib.sha256(self.sum + body).digest()
        return (len(body) + 32).to_bytes(8, "big") + body + self.sum + b"\0"

    def begin(self, body: bytes) -> None:
        """Makes the next segment with this first record, whole or not at all."""
        self.number += 1
        head = self.summed(b"cdshouse journal 2 %d\n" % self.number + self.sum)
        octets = b"\1" + head[:-1] + b"\1" + self.summed(body)
        if self.size:
            os.close(self.file)
        self.file = os.open(f"{self.folder}/new", os.O_CREAT | os.O_TRUNC | os.O_RDWR, 0o600)
        write(self.file, octets, 0)
        os.rename(f"{self.folder}/new", f"{self.folder}/{self.number}")
        sync(self.folder)
        self.size, self.most = len(octets), max(self.least, 3 * len(octets))

    def add(self, body: bytes) -> None:
        """Adds a record, whole or not at all: it is synced before the gate opens."""
        octets = self.summed(body)
        write(self.file, octets, self.size)
        write(self.file, b"\1", self.size - 1)
        self.size += len(octets)


def serve(disk: Disk) -> int:
    """Serves lines until they end, and returns the status."""
    with cds.House(disk.records) as house:
        reply = house.start()
        disk.begin(reply.record or b"")
        while True:
            sys.stdout.buffer.write(reply.kept())
            sys.stdout.buffer.flush()
            if disk.size > disk.most:
                begun = house.next_segment()
                disk.begin(begun.record or b"")
                begun.kept()
            line = sys.stdin.buffer.readline()
            if not line:
                return 0
            try:
                reply = house.line(line.removesuffix(b"\n"))
            except cds.BadLine:
                return 3
            if reply.record is not None:
                disk.add(reply.record)


def main() -> int:
    """Serves the house of a folder, and returns the status."""
    try:
        return serve(Disk(sys.argv[1], int(sys.argv[2]) if len(sys.argv) > 2 else MOST))
    except OSError as error:
        print(f"server.py: {error}", file=sys.stderr)
        return 8


if __name__ == "__main__":
    sys.exit(main())
