"""Images of 20 directories, names of 254 octets and a megabyte, for the forms `migrate` and `audit D`."""

from __future__ import annotations

import random
from collections.abc import Iterator, Mapping

from cds import records
from cds.records import Entries
from running.runs import Run

NODES = "00000000000a", "00000000000b"
DIRECTORIES, ENTRIES, ATTRIBUTES, VALUES = 20, 12, 2, 2
# The AllUpTo of directory D is of this time, and all that it holds is earlier.
UPTO = 1_000_000

Directories = Mapping[int, Entries]


def name_of(entry: int) -> bytes:
    """Returns a name of 254 octets; these differ at their end, and ascend."""
    return b"n" * 250 + f"{entry:04}".encode()


def entries_of(directory: int) -> Entries:
    """Returns the entries of a directory, as `records.directory` takes them."""
    chance = random.Random(directory)
    found: dict[bytes, tuple[int, bytes, records.Attributes]] = {}
    for i in range(ENTRIES):
        birth = 1000 * directory + 10 * i + 1
        values = (
            {chance.randbytes(1020 + j): (1, records.stamp(birth + 1 + j, NODES[0])) for j in range(VALUES)}
            for _ in range(ATTRIBUTES)
        )
        found[name_of(i)] = records.OBJECT, records.stamp(birth, NODES[0]), dict(zip((b"Attribute", b"Other"), values))
    return found


def image_of(layout: int, house: int, directories: Directories) -> bytes:
    """Returns the image of house 1 or 2, which holds each of these directories with the other one."""
    members = [(1, 1, records.MASTER), (2, 1, records.READ_ONLY)]
    held = [
        records.directory(layout, number, 1, members, records.stamp(UPTO + number, NODES[0]), entries)
        for number, entries in directories.items()
    ]
    return records.image(layout, house, NODES[house - 1], UPTO + DIRECTORIES, held)


def without(
    directories: Directories,
    number: int,
    entry: int,
    attribute: bytes = b"",
) -> tuple[Directories, tuple[bytes, bytes]]:
    """Returns the directories without this entry, or without the last value of an attribute; and that value with its
    stamp, or nothing."""
    entries = dict(directories[number])
    kind, birth, attributes = entries.pop(name_of(entry))
    value = b"", b""
    if attribute:
        values = dict(attributes[attribute])
        value = max(values), values.pop(max(values))[1]
        entries[name_of(entry)] = kind, birth, {**attributes, attribute: values}
    return {**directories, number: entries}, value


def time_of(stamp: bytes) -> str:
    """Returns the text of a stamp."""
    return f"{int.from_bytes(stamp[:8], 'big')}@{stamp[8:].hex()}"


def audits(directories: Directories) -> Iterator[Run]:
    """Returns runs of `audit D` over two such images: they agree, or the one lacks what the other one has."""
    births, _ = without(directories, 7, 3)
    values, (value, at) = without(directories, DIRECTORIES, ENTRIES - 1, b"Other")
    birth = time_of(directories[7][name_of(3)][1])
    said = [
        (1, directories, directories, f"agree 1 {UPTO + 1}@{NODES[0]}"),
        (DIRECTORIES, births, directories, f"agree {DIRECTORIES} {UPTO + DIRECTORIES}@{NODES[0]}"),
        (7, directories, births, f"differ 7 1 birth {name_of(3).decode()} {birth}"),
        (7, births, directories, f"differ 7 2 birth {name_of(3).decode()} {birth}"),
        (
            DIRECTORIES,
            directories,
            values,
            f"differ {DIRECTORIES} 1 value {name_of(ENTRIES - 1).decode()} Other {value.hex()} {time_of(at)}",
        ),
        (DIRECTORIES + 1, directories, directories, "refused NoReplica 1"),
    ]
    for number, one, other, answer in said:
        octets = image_of(1, 1, one) + image_of(2, 2, other)
        yield Run(
            f"large, an audit of directory {number} of two large images",
            ["audit", str(number)],
            octets,
            f"{answer}\n".encode(),
            0,
        )


def runs() -> list[Run]:
    """Returns all of these."""
    directories = {it: entries_of(it) for it in range(1, DIRECTORIES + 1)}
    former, present = (image_of(it, 1, directories) for it in (1, 2))
    return [
        Run("large, an image of format 1 of a megabyte", ["migrate"], former, present, 0),
        Run("large, an image of format 2 of a megabyte", ["migrate"], present, present, 0),
        Run("large, an image with an octet after it", ["migrate"], present + b"\0", b"", 3),
        Run(
            "large, a whole image and the next one cut short",
            ["audit", "1"],
            present + present[:-1],
            f"2 fault Short {len(present)}\n".encode(),
            3,
        ),
        *audits(directories),
    ]
