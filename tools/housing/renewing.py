"""Writes the folder of a house of version 1 as one of version 2 (docs/HOUSE.md): its turns have no images, and each
process one segment."""

from __future__ import annotations

import os

from cds import journals


def body_of(record: journals.Record) -> bytes:
    """The octets of a record: a turn has no image."""
    image = record.image if record.kind == "start" else None
    return journals.body(record.number, record.clock, record.lines, image)


def lives(folder: str) -> list[tuple[journals.Segment, list[bytes]]]:
    """The processes of a folder: the segment in which one began, and the bodies of its records. One whose first segment
    was removed is left out."""
    found: list[tuple[journals.Segment, list[bytes]]] = []
    for segment in journals.segments(folder, version=journals.EARLIER):
        for record in segment.records:
            if record.kind in ("new", "start"):
                found.append((segment, []))
            if record.kind != "segment" and found:
                found[-1][1].append(body_of(record))
    if not found:
        raise journals.Damaged(
            f"{folder}: no process began in a segment that is there: start the house once with its own program"
        )
    return found


def renew(folder: str, target: str) -> str:
    """Writes the new folder. Says how large it is."""
    if journals.numbers(folder)[:1] == [1]:
        # (all of it is there, so all of it is compared)
        journals.entries(folder, version=journals.EARLIER)
    found, size = lives(folder), 0
    os.makedirs(target)
    first = found[0][0]
    before = first.before
    for number, (_, bodies) in enumerate(found, first.number):
        octets = journals.sealed(number, bodies, before)
        with open(f"{target}/{number}", "xb") as file:
            size += file.write(octets)
        before = octets[-journals.SUM - 1 : -1]
    return f"{len(found)} segments, {sum(len(bodies) for _, bodies in found)} records, {size:,} octets"
