"""A cell of one house: what docs/SCRIPT.md says that its commands are answered, and what docs/FORMATS.md says that its
image is."""

from __future__ import annotations

from cds import records

NODE = "00000000000a"


class LoneHouse:
    """House 1 with the root directory, and others that it alone holds. It makes a script line by line, with the
    answers."""

    lines: list[str]
    answers: list[str]
    directories: dict[int, dict[bytes, tuple[int, bytes, dict[bytes, dict[bytes, tuple[int, bytes]]]]]]

    def __init__(self) -> None:
        self.lines, self.answers, self.time = [], [], 0
        # of each directory its entries: the kind, the birth, and of each attribute its values
        self.directories = {1: {}}
        self.say(f"house 1 {NODE}", "ok")
        self.say("root 1", "ok")

    def say(self, line: str, *answers: str) -> None:
        """Adds a line with its answers."""
        self.lines.append(line)
        self.answers += [f"{len(self.lines)} {it}" for it in answers]

    def script(self) -> bytes:
        """Returns the octets of the script."""
        return "".join(f"{it}\n" for it in self.lines).encode()

    def output(self) -> bytes:
        """Returns the octets of all answers."""
        return "".join(f"{it}\n" for it in self.answers).encode()

    def stamp(self) -> bytes:
        """Returns the octets of the stamp that is given last."""
        return records.stamp(self.time, NODE)

    def stamped(self) -> str:
        """Takes the next stamp, and returns its text: the clock stays at 0."""
        self.time += 1
        return f"{self.time}@{NODE}"

    def create(self, name: str) -> None:
        """Makes an object in the root directory."""
        self.say(f"create 1 1 {name}", f"ok {self.stamped()}")
        self.directories[1][name.encode()] = records.OBJECT, self.stamp(), {}

    def mkdir(self, name: str) -> None:
        """Makes a child of the root directory, with its directory."""
        number = len(self.directories) + 1
        self.say(f"mkdir 1 1 {name} 1", f"ok {number} {self.stamped()}")
        pointer = records.number(number, 4) + b"\x01\x01"
        self.directories[1][name.encode()] = (
            records.CHILD,
            self.stamp(),
            {b"CDS_Replicas": {pointer: (1, self.stamp())}},
        )
        self.directories[number] = {}

    def change(self, name: str, attribute: str, value: bytes, is_present: bool = True) -> tuple[str, str]:
        """Adds a value, or removes it. Returns the command without what may be before it."""
        _, _, attributes = self.directories[1][name.encode()]
        stamped = self.stamped()
        attributes.setdefault(attribute.encode(), {})[value] = int(is_present), self.stamp()
        return f"{'add' if is_present else 'remove'} 1 1 {name} {attribute} {value.hex()}", f"ok {stamped}"

    def add(self, name: str, attribute: str, value: bytes) -> None:
        """Adds a value, by a line of its own."""
        self.say(*self.change(name, attribute, value))

    def values(self, name: str, attribute: str) -> str:
        """Returns what a read answers of an attribute."""
        marks = self.directories[1][name.encode()][2].get(attribute.encode(), {})
        shown = sorted(it for it, (is_present, _) in marks.items() if is_present)
        return " ".join(["ok", str(len(shown)), *(it.hex() for it in shown)])

    def image(self) -> str:
        """Returns what `octets house 1` answers, and so does `image 1`."""
        held = [
            records.directory(2, it, 1, [(1, 1, records.MASTER)], b"", entries)
            for it, entries in self.directories.items()
        ]
        octets = records.image(2, 1, NODE, self.time, held)
        return f"ok {len(octets)} {octets.hex()}"
