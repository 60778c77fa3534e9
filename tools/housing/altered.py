"""The journals of a cell, with one thing altered at a time: what `cdsexplain` is tried with. Numbers and sums are made
right again, unless a row says that they are as they were."""

from __future__ import annotations

import copy
import os
import random
import shutil
from collections.abc import Callable, Iterable, Iterator, Sequence

from cds import journals
from cds.processes import given, take_lines
from doors.prompt import Cell
from housing.net import Net

# What the houses of the cell do. Of the messages some are lost, and some come later.
SESSION = """
house 1 00000000000a
house 2 00000000000b
house 3 00000000000c
root 1 2 s3
clock 1 50
create 1 1 a
put 1 1 a A 00
create 3 1 b
mkdir 1 1 sub 1 s2
link 1 1 l /.:/a
create 2 2 c
crash 2
start 2
clock 3 70
add 3 1 b A 01
skulk 1 1
epoch 1 1 2 s3
delete 1 1 a
epoch 2 2 s1 3
repoint 1 1 sub 2 1
crash 1
start 1
skulk 2 2
clock 2 60
remove 2 2 c A 02
skulk 1 1
epoch 1 1 s3
clear 3 1 b A
epoch 1 1 2 s3
crash 3
start 3
""".split(
    "\n"
)[
    1:-1
]
LOST, DELAYED = 10, 20
# A segment is changed for the next one once it has so many octets, and so many times those that it begins with.
SMALL_SEGMENTS = {"HOUSE_SEGMENT": "1000", "HOUSE_TIMES": "2"}
# A cell whose folders are small.
SMALL = ["house 1 00000000000a", "house 2 00000000000b", "root 1 2", "create 1 1 a"]


def worked(
    folder: str, program: str, seed: int, session: Iterable[str], lost: int = LOST, delayed: int = DELAYED
) -> dict[int, str]:
    """The folders of a cell that worked. (A program that heeds SMALL_SEGMENTS changes its segments often.)"""
    chance = random.Random(seed)
    os.environ.update(SMALL_SEGMENTS)
    cell = Cell(folder, ([program], []), Net(chance, loss=lost), delayed, lambda text: None)
    for line in session:
        cell.answer(line.split())
    cell.close()
    for name in SMALL_SEGMENTS:
        del os.environ[name]
    return {house: cell.path(house) for house in cell.houses()}


class Item:
    """A record of a segment: `new`, `segment`, `start`, or a turn with its own lines."""

    def __init__(self, record: journals.Record) -> None:
        self.kind = record.kind if record.kind in ("new", "segment", "start") else "turn"
        self.number, self.clock, self.image = record.number, record.clock, record.image
        self.lines = record.lines if self.kind == "turn" else []
        self.running = record.running

    @property
    def is_entry(self) -> bool:
        """Whether it is an entry."""
        return self.kind in ("start", "turn")

    @property
    def posts(self) -> range:
        """The places of its posts among its lines."""
        return range(1, len(self.lines) - 1)

    def body(self, turn: list[str]) -> bytes:
        """Its octets, after this turn."""
        segment = [f"segment {self.number}", *self.running, *turn]
        lines = {"new": ["new"], "start": ["start", *turn], "segment": segment}.get(self.kind, self.lines)
        return journals.body(self.number, self.clock, lines, self.image)


# Entries with their numbers, and those of a journal that are altered.
Numbered = list[tuple[int, Item]]


class Journal:
    """The journal of a house: its segments, each a list of items."""

    def __init__(self, folder: str) -> None:
        self.segments = [[Item(record) for record in segment.records] for segment in journals.segments(folder)]

    def copy(self) -> Journal:
        """A copy, that can be altered."""
        return copy.deepcopy(self)

    def places(self) -> list[tuple[int, int]]:
        """The segment and the place there of each entry, in their order."""
        return [
            (at, place) for at, items in enumerate(self.segments) for place, item in enumerate(items) if item.is_entry
        ]

    def item(self, entry: int) -> Item:
        """The entry of this number."""
        at, place = self.places()[entry - 1]
        return self.segments[at][place]

    def entries(self) -> Numbered:
        """The numbers of its entries, each with its item."""
        return [(number, self.item(number)) for number in range(1, len(self.places()) + 1)]

    def images(self) -> Numbered:
        """The first records of its segments that have an image, each with the number of the entry whose image that
        is."""
        return [(item.number, item) for items in self.segments for item in items[:1] if item.image is not None]

    def turns(self) -> Numbered:
        """Those that are turns and did not make the house."""
        return [(number, item) for number, item in self.entries() if item.kind == "turn" and number > 1]

    def renumber(self) -> None:
        """Numbers its entries from 1 on."""
        number = 0
        for item in (item for items in self.segments for item in items):
            number += item.is_entry
            item.number = number

    def octets(self) -> Iterator[bytes]:
        """Those of its segments."""
        before, turn = journals.NO_SUM, list[str]()
        for number, items in enumerate(self.segments, 1):
            bodies = []
            for item in items:
                turn = item.lines if item.kind == "turn" else turn
                bodies.append(item.body(turn))
            octets = journals.sealed(number, bodies, before)
            before = octets[-journals.SUM - 1 : -1]
            yield octets

    def write(self, folder: str) -> None:
        """Writes its segments into a folder."""
        shutil.rmtree(folder, ignore_errors=True)
        os.makedirs(folder)
        for number, octets in enumerate(self.octets(), 1):
            with open(f"{folder}/{number}", "wb") as file:
                file.write(octets)


def other(text: str) -> str:
    """A text whose last character is another digit."""
    return text[:-1] + ("1" if text[-1] != "1" else "2")


def other_octets(octets: bytes, place: int) -> bytes:
    """Octets of which one is another."""
    changed = bytearray(octets)
    changed[place] ^= 1
    return bytes(changed)


class Case:
    """Folders of a cell, in one of which an entry of a house is altered; or none in particular."""

    def __init__(self, house: int, entry: int | None, folders: list[str]) -> None:
        self.house, self.entry, self.folders = house, entry, folders
        # What has to be said of it, if a replay cannot know that.
        self.due: str | None = None

    @property
    def own_folder(self) -> str:
        """How what is said of the altered folder begins."""
        place = next(place for place, folder in enumerate(self.folders, 1) if folder.endswith("/altered"))
        return f"folder {place}: segment "


Cases = Iterator[Case]
Entries = Callable[[Journal], Numbered]


class Alterations:
    """The cases of a cell, row by row. `room` is a folder for what is altered."""

    def __init__(self, room: str, program: str, seed: int = 1) -> None:
        self.room, self.program, self.chance = room, program, random.Random(seed)
        self.folders = worked(f"{room}/cell", program, seed, SESSION)
        self.journals = {house: Journal(folder) for house, folder in self.folders.items()}

    def with_folder(self, house: int, entry: int | None, folder: str) -> Case:
        """A case with this folder of a house."""
        return Case(house, entry, [*(self.folders | {house: folder}).values()])

    def with_journal(self, house: int, entry: int | None, journal: Journal) -> Case:
        """A case with this journal of a house."""
        journal.write(f"{self.room}/altered")
        return self.with_folder(house, entry, f"{self.room}/altered")

    def each(self, entries: Entries, alter: Callable[[int, Journal, int], bool | None]) -> Cases:
        """A case of each of these entries of all journals; `alter` changes a journal at one."""
        for house, journal in self.journals.items():
            for number, _ in entries(journal):
                altered = journal.copy()
                if alter(house, altered, number) is not False:
                    yield self.with_journal(house, number, altered)

    def each_item(self, entries: Entries, alter: Callable[[Item], None]) -> Cases:
        """The same, if an item alone is changed."""
        return self.each(entries, lambda _, journal, number: alter(journal.item(number)))

    def each_post(self, alter: Callable[[list[str], int], None]) -> Cases:
        """A case of each message that was posted; `alter` changes one of the lines of its turn."""
        for house, journal in self.journals.items():
            for number, item in journal.turns():
                for place in item.posts:
                    altered = journal.copy()
                    alter(altered.item(number).lines, place)
                    yield self.with_journal(house, number, altered)

    # ---- an entry is another

    def clock(self) -> Cases:
        def alter(item: Item) -> None:
            item.clock += 1

        return self.each_item(Journal.entries, alter)

    def line(self) -> Cases:
        def alter(item: Item) -> None:
            item.lines[0] = other(item.lines[0])

        return self.each_item(Journal.turns, alter)

    def answer(self) -> Cases:
        def alter(item: Item) -> None:
            item.lines[-1] = other(item.lines[-1])

        return self.each_item(Journal.turns, alter)

    def each_image(self, alter: Callable[[Item], bool | None]) -> Cases:
        """A case of each record with an image; `alter` changes it, and says whether it did."""
        for house, journal in self.journals.items():
            for place, (number, _) in enumerate(journal.images()):
                altered = journal.copy()
                if alter(altered.images()[place][1]) is not False:
                    yield self.with_journal(house, number, altered)

    def image(self) -> Cases:
        def alter(item: Item) -> None:
            assert item.image is not None
            item.image = other_octets(item.image, self.chance.randrange(len(item.image)))

        return self.each_image(alter)

    def no_image(self) -> Cases:
        def alter(item: Item) -> None:
            item.image = None

        return self.each_image(alter)

    def running(self) -> Cases:
        others = {"gather": "spread", "spread": "gather"}

        def alter(item: Item) -> bool:
            item.running = [" ".join(others.get(word, word) for word in line.split(" ")) for line in item.running]
            return bool(item.running)

        return self.each_image(alter)

    def post(self) -> Cases:
        def alter(lines: list[str], place: int) -> None:
            lines[place] = other(lines[place])

        return self.each_post(alter)

    def receiver(self) -> Cases:
        def alter(lines: list[str], place: int) -> None:
            word, to, octets = lines[place].split(" ")
            lines[place] = f"{word} {int(to) % len(self.folders) + 1} {octets}"

        for case in self.each_post(alter):
            case.due = f"house {case.house} entry {case.entry}: posted what the replay does not post"
            yield case

    def no_post(self) -> Cases:
        def alter(lines: list[str], place: int) -> None:
            del lines[place]

        return self.each_post(alter)

    def posts_to(self, house: int) -> list[str]:
        """The messages to a house that were posted, each once."""
        items = [item for journal in self.journals.values() for _, item in journal.turns()]
        words = [item.lines[place].split(" ") for item in items for place in item.posts]
        return [*dict.fromkeys(octets for _, to, octets in words if int(to) == house)]

    def posts_to_others(self, house: int) -> list[str]:
        """The messages to other houses that were posted, but those that came to this one, too."""
        own = self.posts_to(house)
        return [octets for to in self.folders if to != house for octets in self.posts_to(to) if octets not in own]

    def taken(self) -> Cases:
        def alter(house: int, journal: Journal, number: int) -> bool:
            item = journal.item(number)
            if not item.lines[0].startswith("take "):
                return False
            item.lines[0] = f"take {self.chance.choice(self.posts_to_others(house))}"
            return True

        return self.each(Journal.turns, alter)

    # ---- entries are others

    def left_out(self) -> Cases:
        def alter(_: int, journal: Journal, number: int) -> None:
            at, place = journal.places()[number - 1]
            del journal.segments[at][place]
            journal.renumber()

        return self.each(lambda journal: journal.entries()[1:], alter)

    def left_out_and_not_numbered(self) -> Cases:
        def alter(_: int, journal: Journal, number: int) -> None:
            at, place = journal.places()[number - 1]
            del journal.segments[at][place]

        return self.each(lambda journal: journal.entries()[1:-1], alter)

    def twice(self) -> Cases:
        def alter(_: int, journal: Journal, number: int) -> None:
            at, place = journal.places()[number - 1]
            journal.segments[at].insert(place, copy.deepcopy(journal.segments[at][place]))
            journal.renumber()

        return self.each(Journal.turns, alter)

    def exchanged(self) -> Cases:
        def alter(_: int, journal: Journal, number: int) -> None:
            (at, place), (next_at, next_place) = journal.places()[number - 1 : number + 1]
            one, two = journal.segments[at], journal.segments[next_at]
            one[place], two[next_place] = two[next_place], one[place]
            journal.renumber()

        return self.each(lambda journal: journal.entries()[1:-1], alter)

    # ---- folders are others

    def altered_copy(self, house: int) -> str:
        """A folder that is that of a house."""
        shutil.rmtree(f"{self.room}/altered", ignore_errors=True)
        shutil.copytree(self.folders[house], f"{self.room}/altered")
        return f"{self.room}/altered"

    def no_segment(self) -> Cases:
        for house, journal in self.journals.items():
            for number in range(1, len(journal.segments) + 1):
                os.remove(f"{self.altered_copy(house)}/{number}")
                yield self.with_folder(house, None, f"{self.room}/altered")

    def two_folders(self) -> Cases:
        """A house's folder as it was before, beside it; and a house of its number or its node."""
        for house, journal in self.journals.items():
            for front in self.fronts(journal):
                front.write(f"{self.room}/altered")
                yield Case(house, 1, [*self.folders.values(), f"{self.room}/altered"])
            node = journal.item(1).lines[0].split(" ")[2]
            for line in (f"house {house} 0000000000ff", f"house 9 {node}"):
                shutil.rmtree(f"{self.room}/altered", ignore_errors=True)
                os.makedirs(f"{self.room}/altered")
                self.given(f"{self.room}/altered", [line])
                yield Case(house, 1, [*self.folders.values(), f"{self.room}/altered"])

    def fronts(self, journal: Journal) -> Iterator[Journal]:
        """What a journal was after each of its entries but the last one."""
        for at, place in journal.places()[:-1]:
            front = journal.copy()
            front.segments = [*front.segments[:at], front.segments[at][: place + 1]]
            yield front

    def given(self, folder: str, lines: Sequence[str]) -> str:
        """What the house of a folder says of the last of these lines."""
        return given(self.program, folder, lines)[-1][-1]

    def earlier(self) -> Cases:
        for house, journal in self.journals.items():
            for number, front in enumerate(self.fronts(journal), 1):
                yield self.with_journal(house, number, front)

    def old_copy(self) -> Cases:
        for house, journal in self.journals.items():
            for number, front in enumerate(self.fronts(journal), 1):
                front.write(f"{self.room}/altered")
                self.given(f"{self.room}/altered", ["put 1 b A 77"])
                yield self.with_folder(house, number, f"{self.room}/altered")

    def misdirected(self) -> Cases:
        """A message that another house was sent is given to a house, which takes it."""
        for house in self.folders:
            for octets in self.posts_to_others(house):
                if self.given(self.altered_copy(house), take_lines(octets)).startswith(("ok taken", "ok complete")):
                    yield self.with_folder(house, len(self.journals[house].places()) + 2, f"{self.room}/altered")

    def cut(self) -> Cases:
        """The only segment of a house of a small cell, cut after each of its octets."""
        small = worked(f"{self.room}/small", self.program, 1, SMALL, lost=0, delayed=0)
        with open(f"{small[1]}/1", "rb") as file:
            octets = file.read()
        os.makedirs(f"{self.room}/cut/altered")
        for size in range(len(octets)):
            with open(f"{self.room}/cut/altered/1", "wb") as file:
                file.write(octets[:size])
            yield Case(1, None, [f"{self.room}/cut/altered", small[2]])

    def rotten(self) -> Cases:
        for house, journal in self.journals.items():
            for number, octets in enumerate(journal.octets(), 1):
                for _ in range(ROTTEN):
                    with open(f"{self.altered_copy(house)}/{number}", "wb") as file:
                        file.write(other_octets(octets, self.chance.randrange(len(octets))))
                    yield self.with_folder(house, None, f"{self.room}/altered")


# So many octets of each segment are changed.
ROTTEN = 10

ROWS: dict[str, Callable[[Alterations], Cases]] = {
    "a clock is another": Alterations.clock,
    "the last octet of a line is another": Alterations.line,
    "the last octet of an answer is another": Alterations.answer,
    "an octet of an image is another": Alterations.image,
    "a first record has no image": Alterations.no_image,
    "the round of a skulk that runs is another": Alterations.running,
    "the last octet of a message that was posted is another": Alterations.post,
    "a message was posted to another house": Alterations.receiver,
    "a message was not posted": Alterations.no_post,
    "the message that was taken is one to another house": Alterations.taken,
    "an entry is left out": Alterations.left_out,
    "an entry is left out, and the numbers are as they were": Alterations.left_out_and_not_numbered,
    "an entry is there twice": Alterations.twice,
    "an entry is exchanged with the next one": Alterations.exchanged,
    "a segment is missing": Alterations.no_segment,
    "a second folder of a house, or a second house of a node": Alterations.two_folders,
    "a folder is one of before, after each of its entries": Alterations.earlier,
    "the same, and the house went on": Alterations.old_copy,
    "a house was given a message to another one, and took it": Alterations.misdirected,
    "a folder is cut after each octet of its last segment": Alterations.cut,
    "an octet of a segment is another, and the sums are as they were": Alterations.rotten,
}
