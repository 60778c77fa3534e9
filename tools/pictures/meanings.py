"""What values mean: names, pointers, towers, elements of profiles, objects, and text. docs/FORMATS.md lays them out."""

from __future__ import annotations

import uuid

NDR = "8a885d04-1ceb-11c9-9fe8-08002b104860"
PROTOCOLS = {(0x0B, 0x07): "ncacn_ip_tcp", (0x0A, 0x08): "ncadg_ip_udp"}


def of(attribute: str, digits: str) -> str:
    """What a value means, in a few words, or nothing."""
    octets = bytes.fromhex(digits)
    known = {"CDS_Replicas": pointer, "CDS_Towers": tower, "RPC_ObjectUUIDs": an_object, "RPC_Profile": element}
    try:
        meaning = known[attribute](octets) if attribute in known else ""
    except (IndexError, ValueError):
        meaning = ""
    return meaning or text(octets)


def text(octets: bytes) -> str:
    """A text in quotes, if all octets are of one."""
    return f'"{octets.decode("ascii")}"' if all(0x20 <= it <= 0x7E for it in octets) else ""


def pointer(octets: bytes) -> str:
    """Where a child leads."""
    others = ", ".join(map(str, octets[6 : 5 + octets[4]]))
    return f"directory {int.from_bytes(octets[:4], 'big')} at house {octets[5]}" + (
        f", and at {others}" if others else ""
    )


def an_object(octets: bytes) -> str:
    """An object's UUID."""
    return str(uuid.UUID(bytes=octets))


def element(octets: bytes) -> str:
    """An element of a profile."""
    length = int.from_bytes(octets[21:23], "big")
    major, minor = int.from_bytes(octets[17:19], "big"), int.from_bytes(octets[19:21], "big")
    interface = "any interface" if octets[0] == 8 else f"interface {uuid.UUID(bytes=octets[1:17])}:{major}.{minor}"
    member, note = octets[23 : 23 + length].decode("ascii"), octets[23 + length :].decode("ascii")
    return f"priority {octets[0]}, {interface}, {member}" + (f', "{note}"' if note else "")


def tower(octets: bytes) -> str:
    """The interface and the binding of an RPC tower."""
    floors = floors_of(octets)
    if len(floors) != 5:
        return ""
    interface = f"{uuid.UUID(bytes_le=floors[0][0][1:17])}:{little(floors[0][0][17:19])}.{little(floors[0][1])}"
    protocol = PROTOCOLS.get((floors[2][0][0], floors[3][0][0]))
    port, address = int.from_bytes(floors[3][1], "big"), ".".join(map(str, floors[4][1]))
    return f"{protocol}:{address}[{port}], interface {interface}" if protocol and address else ""


def floors_of(octets: bytes) -> list[list[bytes]]:
    """The floors of a tower, each with its left and its right part."""
    floors, at = [], 2
    for _ in range(little(octets[:2])):
        parts = []
        for _ in range(2):
            length = little(octets[at : at + 2])
            parts.append(octets[at + 2 : at + 2 + length])
            at += 2 + length
        floors.append(parts)
    return floors


def little(octets: bytes) -> int:
    """A little-endian number."""
    return int.from_bytes(octets, "little")
