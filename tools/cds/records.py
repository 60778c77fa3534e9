"""Writes the octets of records: images, messages, towers and elements of profiles, as docs/FORMATS.md lays them out."""

from __future__ import annotations

from collections.abc import Iterable, Mapping, Sequence

OBJECT, LINK, CHILD = 1, 2, 3
MASTER, READ_ONLY, SECONDARY = 1, 2, 3
# The kinds of messages: the tag of the first is 1.
KINDS = ("Update", "Gather", "Gathered", "Spread", "SpreadAck", "Advance", "Join", "Leave")

# The values of an attribute, each with whether it is present and its stamp; the attributes of an entry; and the entries
# of a replica: kind, birth, attributes.
Values = Mapping[bytes, tuple[int, bytes]]
Attributes = Mapping[bytes, Values]
Entries = Mapping[bytes, tuple[int, bytes, Attributes]]
# A UUID, and a major and a minor version.
Interface = tuple[str, int, int]
Address = tuple[int, int, int, int]

NDR = "8a885d04-1ceb-11c9-9fe8-08002b104860", 2, 0
# The floors 3 and 4 of a protocol sequence: the RPC protocol, and that of the port.
PROTOCOLS = {"ncacn_ip_tcp": (0x0B, 0x07), "ncadg_ip_udp": (0x0A, 0x08)}


def number(value: int, size: int) -> bytes:
    """A number in so many octets, big-endian."""
    return value.to_bytes(size, "big")


def stamp(time: int, node: str) -> bytes:
    """The octets of a stamp; `node` is hexadecimal."""
    return number(time, 8) + bytes.fromhex(node)


def stamp_or_none(octets: bytes) -> bytes:
    """A stamp with its flag, or that of none."""
    return b"\x01" + octets if octets else b"\x00"


def text(octets: bytes) -> bytes:
    """Octets after their length, of one octet."""
    return number(len(octets), 1) + octets


def attribute(name: bytes, values: Values) -> bytes:
    """An attribute that was never cleared."""
    marks = (number(len(it), 2) + it + number(is_present, 1) + at for it, (is_present, at) in sorted(values.items()))
    return text(name) + b"\x00" + number(len(values), 8) + b"".join(marks)


def entry(name: bytes, kind: int, birth: bytes, attributes: Attributes) -> bytes:
    """A live entry after its name."""
    parts = (attribute(*it) for it in sorted(attributes.items()))
    return text(name) + number(kind, 1) + birth + b"\x00" + number(len(attributes), 8) + b"".join(parts)


def members_of(members: Sequence[tuple[int, int, int]]) -> bytes:
    """A list of members: houses, each with its since and kind."""
    return number(len(members), 1) + b"".join(
        number(it, 1) + number(since, 8) + number(kind, 1) for it, since, kind in members
    )


def directory_head(
    directory: int, epoch: int, members: Sequence[tuple[int, int, int]], all_up_to: bytes, count: int
) -> bytes:
    """What is before the entries of a directory of an image that is held: `count` is how many they are."""
    head = number(directory, 4) + b"\x01" + number(epoch, 8) + members_of(members)
    return head + stamp_or_none(all_up_to) + number(count, 8)


def directory(
    layout: int, number_: int, epoch: int, members: Sequence[tuple[int, int, int]], all_up_to: bytes, entries: Entries
) -> bytes:
    """A directory of an image that is held."""
    held = sum(1 + sum(map(len, attributes.values())) for _, _, attributes in entries.values())
    listed = b"".join(entry(it, *entries[it]) for it in sorted(entries))
    head = directory_head(number_, epoch, members, all_up_to, len(entries))
    return head + listed + (number(held, 8) if layout == 2 else b"")


def image_head(layout: int, house: int, node: str, floor: int, count: int) -> bytes:
    """What is before the directories of an image: `count` is how many they are."""
    return number(layout, 1) + b"\x09" + number(house, 1) + bytes.fromhex(node) + number(floor, 8) + number(count, 8)


def image(layout: int, house: int, node: str, floor: int, directories: Sequence[bytes]) -> bytes:
    """An image of this format, of the octets of its directories."""
    return image_head(layout, house, node, floor, len(directories)) + b"".join(directories)


def update(
    directory: int, sender: int, epoch: int, floor: int, name: bytes, kind: int, birth: bytes, attributes: Attributes
) -> bytes:
    """A message of the kind Update, with what an entry is."""
    head = b"\x02\x01" + number(directory, 4) + number(sender, 1) + number(epoch, 8) + number(floor, 8)
    return head + entry(name, kind, birth, attributes)


def uuid_of_tower(uuid: str) -> bytes:
    """A UUID as towers have it: its first three fields are little-endian."""
    octets = bytes.fromhex(uuid.replace("-", ""))
    return octets[3::-1] + octets[5:3:-1] + octets[7:5:-1] + octets[8:]


def floors_of(floors: Iterable[tuple[bytes, bytes]]) -> bytes:
    """Floors of a tower, each of two parts after their lengths."""
    return b"".join(len(part).to_bytes(2, "little") + part for floor in floors for part in floor)


def identity(interface: Interface) -> tuple[bytes, bytes]:
    """The floor of an interface, or of a transfer syntax."""
    uuid, major, minor = interface
    return b"\x0d" + uuid_of_tower(uuid) + major.to_bytes(2, "little"), minor.to_bytes(2, "little")


def tower(interface: Interface, protocol: str, port: int, address: Address) -> bytes:
    """A tower of five floors."""
    rpc, transport = PROTOCOLS[protocol]
    below = [(number(rpc, 1), b"\0\0"), (number(transport, 1), number(port, 2)), (b"\x09", bytes(address))]
    return b"\x05\x00" + floors_of([identity(interface), identity(NDR), *below])


def binding(protocol: str, port: int, address: Address) -> str:
    """The text of a binding without an object."""
    return f"{protocol}:{'.'.join(map(str, address))}" + (f"[{port}]" if port else "")


def interface_text(interface: Interface) -> str:
    """The text of an interface."""
    return "{}:{}.{}".format(*interface)


def element(priority: int, interface: Interface | None, member: str, note: str) -> bytes:
    """An element of a profile. The interface of a default element is None."""
    uuid, major, minor = interface or ("0" * 32, 0, 0)
    head = number(priority, 1) + bytes.fromhex(uuid.replace("-", "")) + number(major, 2) + number(minor, 2)
    return head + number(len(member), 2) + member.encode() + note.encode()


def element_text(priority: int, interface: Interface | None, member: str, note: str) -> str:
    """What `proflist` prints of an element."""
    said = interface_text(interface) if interface else "default"
    return f"element {priority} {said} {member} {note.encode().hex() or '-'}"
