"""The forms of `cdsreplay` in Python, by the library for C:

    import cds
    answers = cds.run("run", b"house 1 00000000000a\\n")

and a house that its caller steps:

    with cds.House(records) as house:
        reply = house.line(b"create 1 lpr")
        ...                                 # make reply.record durable, if there is one
        send(reply.kept())

docs/EMBEDDING.md says how to begin. The library is the one that CDS_LIBRARY names, or libcds.so beside this file, or in
lib/ of the package that this file came with, or in out/library/lib/ of this repository.
"""

from __future__ import annotations

from cds.calls import ABI, BadInput, Failed, JournalFull, Library, NoMemory, Usage, library, run
from cds.houses import (
    BadLine,
    Empty,
    Held,
    House,
    HouseFailed,
    NoneWaits,
    NoRecord,
    NotKept,
    NotStarted,
    OutOfMemory,
    Reply,
    Spent,
    Started,
)

__all__ = [
    "ABI",
    "BadInput",
    "BadLine",
    "Empty",
    "Failed",
    "Held",
    "House",
    "HouseFailed",
    "JournalFull",
    "Library",
    "NoMemory",
    "NoRecord",
    "NoneWaits",
    "NotKept",
    "NotStarted",
    "OutOfMemory",
    "Reply",
    "Spent",
    "Started",
    "Usage",
    "library",
    "run",
]
