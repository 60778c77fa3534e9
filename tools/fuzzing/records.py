"""Random octets: messages and images that are made field by field, towers, and damage. (tools/cds/records.py writes
good ones.)"""

from __future__ import annotations

from collections.abc import Callable
from random import Random

from cds import records

# What damage puts in.
PIECES = (
    "# house stop image lookup keep 5 upto 18446744073709551616 -1 01 /.: /.:/ /.:a 0g - high default 256 é".split()
)
PIECES += ["", "x" * 255]
# A time and a node.
Stamp = tuple[int, int]


def rarely(random_source: Random, least: int = 50) -> bool:
    """True once in so many times."""
    return random_source.randrange(least) == 0


class Record:
    """The octets of a message or an image, made field by field at random. One of the fields may break its rule."""

    def __init__(
        self, random_source: Random, breaks: bool = True, same: int | None = None, is_full: bool = False
    ) -> None:
        """With `same` so many fields are those of a record that this source would make without it. A full image has a
        directory, of which it holds a replica with an AllUpTo."""
        self.random, self.octets, self.same, self.is_full = random_source, bytearray(), same, is_full
        self.before_broken = random_source.choice([None, random_source.randrange(30)]) if breaks else None

    def number(self, size: int, value: int, *broken: int) -> None:
        """Puts a number, or one of the numbers that would break its rule, if it is the turn of this field."""
        if self.same is not None:
            self.same -= 1
            if self.same == 0:
                self.random.random()
        if broken and self.before_broken is not None:
            value = self.random.choice(broken) if self.before_broken == 0 else value
            self.before_broken -= 1
        self.octets += value.to_bytes(size, "big")

    def stamp(self, least: Stamp = (0, 0), *broken: Stamp) -> Stamp:
        """Puts a stamp from `least` on, where no one of `broken` takes its place. It is a time and a node."""
        found = max(least, (self.random.randint(1, 9), self.random.randint(10, 12)))
        numbers = [(time << 48) + node for time, node in (found, *broken)]
        self.number(14, *numbers)
        return found

    def optional(self, above: Stamp | None = None, is_there: bool = False) -> Stamp | None:
        """Puts a stamp later than `above`, if there is one, or none."""
        flag = 1 if is_there else self.random.randrange(2)
        self.number(1, flag, 2, 255)
        return self.later(above) if flag else None

    def later(self, above: Stamp | None, least: Stamp = (0, 0)) -> Stamp:
        """Puts a stamp later than `above`, if there is one, and from `least` on."""
        after = (above[0], above[1] + 1) if above else (0, 0)
        return self.stamp(max(after, least), *[it for it in (above,) if it and it >= least], *[(0, 1)] * bool(least[0]))

    def key(self, size: int, names: list[bytes], before: bytes | None) -> bytes:
        """Puts a name or a value above the one before, with its length."""
        above = [it for it in names if before is None or before < it] or [(before or b"") + b"a"]
        found = self.random.choice(above[:2])
        self.number(size, len(found), 0)
        if before and self.before_broken == 0:
            found, self.before_broken = before[: len(found)].ljust(len(found), b"-"), -1
        self.octets += found
        return found

    def keyed(self, item: Callable[[bytes | None], tuple[bytes, int]], most: int = 2, least: int = 0) -> int:
        """Puts so many items with ascending keys, after their number, and returns how much they hold."""
        count = self.random.randint(least, most)
        self.number(8, count, *[0] * (least > 0))
        before: bytes | None = None
        items = 0
        for _ in range(count):
            before, held = item(before)
            items += held
        return items

    def mark(self, above: Stamp | None, cleared: Stamp | None, before: bytes | None) -> tuple[bytes, int]:
        """Puts a value above the one before, with its flag and stamp."""
        found = self.key(2, [b"\x01", b"\x02", b"\x02\x00"], before)
        self.number(1, self.random.randrange(2), 2)
        self.later(above, cleared or (0, 0))
        return found, 1

    def attribute(self, above: Stamp | None, before: bytes | None) -> tuple[bytes, int]:
        """Puts an attribute above the one before, and returns how much it holds, too."""
        found = self.key(1, [b"A", b"B", b"CDS_Class"], before)
        cleared = self.optional(above)
        items = self.keyed(lambda last: self.mark(above, cleared, last), least=int(cleared is None))
        return found, items + (cleared is not None)

    def entry(self, above: Stamp | None) -> int:
        """Puts an entry without its name, and returns how much it holds."""
        self.number(1, self.random.randint(1, 3), 0, 4)
        self.stamp()
        death = self.optional(above)
        return 1 + (death is not None) + self.keyed(lambda last: self.attribute(above, last))

    def named(self, above: Stamp | None, before: bytes | None = None) -> tuple[bytes, int]:
        """Puts a name above the one before, and its entry."""
        found = self.key(1, [b"a", b"b", b"lpr"], before)
        return found, self.entry(above)

    def replica(self, is_delta: bool = False) -> int:
        """Puts an AllUpTo and entries, and returns how much they hold."""
        stamp = self.optional(is_there=self.is_full)
        return self.keyed(lambda last: self.named(stamp if is_delta else None, last), most=4 if self.is_full else 2)

    def members(self, most_kind: int) -> None:
        """Puts a list of members, whose kinds are up to this one."""
        houses = sorted(self.random.sample(range(1, 9), self.random.randint(1, 3)))
        master = self.random.choice(houses)
        self.number(1, len(houses), 0, 65)
        for place, house in enumerate(houses):
            self.number(1, house, *houses[:place])
            self.number(8, self.random.randint(0, 3))
            kind = 1 if house == master else self.random.randint(2, most_kind)
            self.number(1, kind, 0, most_kind + 1, 2 if house == master and place + 1 == len(houses) else 4)

    def message(self) -> bytearray:
        """Puts a message."""
        tag = self.random.randint(1, 8)
        self.number(1, 2, 0, 1, 3)
        self.number(1, tag, 0, 9)
        for size in (4, 1, 8, 8):
            self.number(size, self.random.randint(0, 3))
        if tag == 1:
            self.named(None)
        elif tag in (2, 3, 4, 5, 6):
            self.stamp()
        if tag in (3, 4):
            self.replica(is_delta=True)
        elif tag == 7:
            self.members(3)
            self.replica()
        return self.octets

    def directory(self, image_format: int, number: int) -> None:
        """Puts a directory of an image."""
        self.number(4, number, *[number - 1] * (number > 1))
        state = 1 if self.is_full else self.random.randint(1, 2)
        self.number(1, state, 0, 3)
        self.number(8, self.random.randint(0, 3))
        if state == 1:
            self.members(1 + image_format)
            held = self.replica()
            if image_format == 2:
                self.number(8, held, held + 1, max(held, 1) - 1 if held else 2)

    def image(self) -> bytearray:
        """Puts an image."""
        image_format = self.random.randint(1, 2)
        self.number(1, image_format, 0, 3)
        self.number(1, 9, 1, 10)
        for size in (1, 6, 8):
            self.number(size, self.random.randint(0, 3))
        count = self.random.randint(int(self.is_full), 2)
        self.number(8, count)
        for number in range(1, count + 1):
            self.directory(image_format, number)
        return self.octets


def damaged(random_source: Random, octets: bytes | bytearray) -> bytearray:
    """The octets with a part cut out, doubled, turned or filled anew."""
    found = bytearray(octets)
    begin = random_source.randint(0, len(found))
    end = min(len(found), begin + random_source.choice([0, 1, 1, 1, 2, 8, 200]))
    kind = random_source.randrange(5)
    if kind == 0:
        del found[begin:end]
    elif kind == 1:
        found[begin:begin] = found[begin:end]
    elif kind == 2:
        found[begin:end] = random_source.randbytes(end - begin)
    elif kind == 3:
        found[begin:begin] = random_source.choice(PIECES).encode()
    else:
        found[begin:end] = bytes((it + random_source.choice([1, 255, 128])) % 256 for it in found[begin:end])
    return found


def tower(random_source: Random) -> bytes:
    """The octets of a tower, mostly of the five floors of RPC."""

    def left() -> bytes:
        return b"\x0d" + random_source.randbytes(16) + random_source.randrange(3).to_bytes(2, "little")

    ndr, none = records.identity(records.NDR)
    rpc, transport = random_source.choice([*records.PROTOCOLS.values()])
    floors = [
        (left(), random_source.randbytes(2)),
        (ndr if random_source.randrange(4) else left(), none),
        (bytes([rpc]), none),
        (bytes([transport]), random_source.randbytes(2)),
        (b"\x09", random_source.randbytes(4)),
    ]
    if rarely(random_source, 5):
        floors = random_source.sample(floors, random_source.randint(1, 5)) + [(random_source.randbytes(3), b"")]
    if rarely(random_source, 100):
        floors = []
    return len(floors).to_bytes(2, "little") + records.floors_of(floors)


def towers(random_source: Random) -> bytes:
    """The octets of towers; now and then the last one has the first octet alone."""
    found = b"".join(tower(random_source) for _ in range(random_source.randint(0, 30)))
    return found + b"\5" if rarely(random_source) else found


def image(random_source: Random) -> bytes:
    """The octets of an image of either format, of which one field may break its rule; now and then damaged, or cut
    short."""
    octets = bytes(Record(random_source).image())
    if rarely(random_source, 3):
        octets = bytes(damaged(random_source, octets))
    return octets[: random_source.randint(0, len(octets))] if rarely(random_source, 5) else octets
