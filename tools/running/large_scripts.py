"""Scripts of thousands of lines for the forms `clerk N`, `inquire` and `journal`, with the answers that docs/SCRIPT.md
says."""

from __future__ import annotations

import random
from collections import OrderedDict
from collections.abc import Callable, Iterator

from cds import records
from running.lone_house import LoneHouse
from running.runs import Limited, Run

UUID = "a0000000-0000-0000-0000-000000000001"
OTHER_UUID = "01020304-0506-0708-090a-0b0c0d0e0f10"


def run_of(name: str, words: list[str], house: LoneHouse) -> Run:
    """Returns the run of a script that was made so."""
    return Run(f"large, {name}", words, house.script(), house.output(), 0)


class Clerk:
    """A clerk, as the page says: it keeps so many answers, and of these the one that was not used for longest goes."""

    # (the names that are there, by the word "there", and the values of attributes)
    kept: OrderedDict[tuple[int | str, ...], str]

    def __init__(self, room: int) -> None:
        self.room, self.kept = room, OrderedDict()

    def ask(self, query: tuple[int | str, ...], fresh: str) -> str:
        """Returns the answer that is kept, or the one that is given now and kept from now on."""
        if query not in self.kept and len(self.kept) == self.room:
            self.kept.popitem(last=False)
        self.kept.setdefault(query, fresh)
        self.kept.move_to_end(query)
        return self.kept[query]

    def read(self, house: LoneHouse, asking: int, name: str, attribute: str) -> str:
        """Returns what a read at low confidence is answered."""
        if not self.ask((asking, name), "there" if name.encode() in house.directories[1] else ""):
            return "refused NoSuchName 0"
        return self.ask((asking, name, attribute), house.values(name, attribute))


def full_clerk(room: int) -> Run:
    """A clerk of this room is full with answers that names are not there; one of them is used again, and one more
    answer comes. Then all names are made, which the clerk has not heard: it drops the second answer, and not the
    first."""
    house, name = LoneHouse(), "name{}".format
    for i in [*range(room), 0, room]:
        house.say(f"read 1 low /.:/{name(i)} A", "refused NoSuchName 0")
    for i in range(room + 1):
        house.create(name(i))
    for i in [*range(2, room + 1), 0]:
        house.say(f"read 1 low /.:/{name(i)} A", "refused NoSuchName 0")
    # (what was dropped is asked for anew, with its values; these two answers push out the next two)
    for i in (1, 2, 3):
        house.say(f"read 1 low /.:/{name(i)} A", "ok 0")
    house.say(f"read 1 low /.:/{name(0)} A", "refused NoSuchName 0")
    return run_of(f"a clerk of room {room} drops what was not used for longest", ["clerk", str(room)], house)


def busy_clerk(room: int, names: int, lines: int) -> Run:
    """Reads of many entries by two houses, in no order, among updates. One attribute has more than 100 values."""
    house, clerk, chance = LoneHouse(), Clerk(room), random.Random(room)
    house.say("house 2 00000000000b", "ok")
    for i in range(names // 2):
        house.create(f"name{i}")
    for i in range(150):
        house.add("name0", "A", records.number(i, 2))
    while len(house.lines) < lines:
        name, attribute, asking = f"name{chance.randrange(names)}", chance.choice("AB"), chance.randint(1, 2)
        is_there = name.encode() in house.directories[1]
        if chance.random() < 0.8:
            house.say(f"read {asking} low /.:/{name} {attribute}", clerk.read(house, asking, name, attribute))
        elif is_there:
            house.say(*house.change(name, attribute, chance.randbytes(1), chance.random() < 0.7))
        else:
            house.create(name)
    for asking in (1, 2):
        house.say(f"read {asking} low /.:/name0 A", clerk.read(house, asking, "name0", "A"))
    house.say("read 2 high /.:/name0 A", house.values("name0", "A"))
    return run_of(f"{lines} lines at a clerk of room {room}", ["clerk", str(room)], house)


def groups() -> Run:
    """2,000 lines that change a group, and a list of its members each hundred lines."""
    house, members, chance = LoneHouse(), set(), random.Random(1)
    house.say("groupadd /.:/all /.:/first", "ok 2")
    members.add("/.:/first")
    while len(house.lines) < 2000:
        member = f"/.:/member-{chance.randrange(600)}"
        if len(house.lines) % 100 == 99:
            house.say("grouplist 1 low /.:/all", *(f"member {it}" for it in sorted(members)), f"end {len(members)}")
        elif chance.random() < 0.7:
            house.say(f"groupadd /.:/all {member}", "ok 1")
            members.add(member)
        else:
            house.say(f"groupdel /.:/all {member}", "ok 1" if member in members else "refused NoSuchMember")
            members.discard(member)
    return run_of("2,000 lines about a group", ["inquire"], house)


def is_listed(option: str, asked: tuple[str, int, int], interface: tuple[str, int, int] | None) -> bool:
    """Whether `proflist` lists an element of this interface by this option of the versions."""
    if not interface or interface[0] != asked[0]:
        return False
    (_, major, minor), (_, asked_major, asked_minor) = interface, asked
    return {
        "all": True,
        "compatible": major == asked_major and minor >= asked_minor,
        "exact": (major, minor) == (asked_major, asked_minor),
        "major_only": major == asked_major,
        "upto": (major, minor) <= (asked_major, asked_minor),
    }[option]


def elements() -> Iterator[tuple[int, tuple[str, int, int] | None, str, str]]:
    """Returns 5,000 elements of a profile, each once, in no order."""
    for i in range(5000):
        interface = None if i % 50 == 0 else ((UUID, OTHER_UUID)[i % 3 == 0], i * 7 % 5, i * 37 % 300)
        note = "" if i % 4 and i < 1250 else f"note-{i}"
        yield i * 11 % 8 if interface else 8, interface, f"/.:/member-{i % 1250}", note


def questions() -> Iterator[tuple[str, Callable[..., object]]]:
    """Returns the words of each question of `proflist` about a profile, and what says whether it lists an element."""
    yield "all - all -", lambda it: True
    yield "default - all -", lambda it: not it[1]
    yield "bymbr - all /.:/member-50", lambda it: it[2] == "/.:/member-50"
    asked, member = (UUID, 4, 109), "/.:/member-7"
    for option in ("all", "compatible", "exact", "major_only", "upto"):
        words = f"{records.interface_text(asked)} {option}"
        yield f"byif {words} -", lambda it, option=option: is_listed(option, asked, it[1])
        yield f"byboth {words} {member}", lambda it, option=option: is_listed(option, asked, it[1]) and it[2] == member


def profile() -> Run:
    """A profile of 5,000 elements, which are listed by each kind of question and option."""
    house = LoneHouse()
    for i, (priority, interface, member, note) in enumerate(elements()):
        said = records.interface_text(interface) if interface else "default"
        house.say(f"profadd /.:/profile {said} {member} {priority} {note or '-'}", "ok 1" if i else "ok 2")
    every = sorted(elements(), key=lambda it: records.element(*it))
    for words, is_asked in questions():
        found = [records.element_text(*it) for it in every if is_asked(it)]
        house.say(f"proflist 1 low /.:/profile {words}", *found, f"end {len(found)}")
    return run_of("5,000 elements of a profile", ["inquire"], house)


def batches(bindings: list[str], most: int) -> list[str]:
    """Returns the lines of a lookup that finds these bindings."""
    found = []
    for at in range(0, len(bindings), most):
        batch = bindings[at : at + most]
        found += [f"batch {len(batch)}", *(f"binding {it}" for it in batch)]
    return [*found, f"end {len(bindings)}"]


def exported(house: LoneHouse) -> tuple[str, list[str]]:
    """Exports a server of 200 bindings, and returns what begins a lookup of it, and the bindings in their order."""
    interface, chance = (UUID, 1, 2), random.Random(2)
    every = [(chance.choice([*records.PROTOCOLS]), i * 331 % 65536, (10, i % 3, 0, i)) for i in range(200)]
    for at in range(0, 200, 50):
        said = ",".join(records.binding(*it) for it in every[at : at + 50])
        house.say(f"export /.:/server {records.interface_text(interface)} {said} -", "ok 50" if at else "ok 51")
    every.sort(key=lambda it: records.tower(interface, *it))
    return f"lookup 1 low /.:/server {records.interface_text(interface)} -", [records.binding(*it) for it in every]


def bindings() -> Run:
    """A server of 200 bindings, which are looked up at once and in batches."""
    house = LoneHouse()
    question, every = exported(house)
    for most in (1, 63, 64, 199, 200, 201, 65535):
        house.say(f"{question} ncacn_ip_tcp,ncadg_ip_udp {most}", *batches(every, most))
    of_udp = [it for it in every if it.startswith("ncadg_ip_udp")]
    house.say(f"{question} ncadg_ip_udp 64", *batches(of_udp, 64))
    house.say("entrylist 1 low /.:/server", f"interface {records.interface_text((UUID, 1, 2))}", "end 1")
    return run_of("200 bindings", ["inquire"], house)


def widest_batch() -> Limited:
    """A lookup takes memory for what it finds, and not for the most that a batch may have."""
    house = LoneHouse()
    question, every = exported(house)
    house.say(f"{question} ncacn_ip_tcp,ncadg_ip_udp 65535", *batches(every, 65535))
    return Limited("starved, a batch of 65,535 bindings at most", ["inquire"], house.script(), house.output(), 0)


def interfaces() -> Run:
    """A server of 300 interfaces. Their versions are little-endian in towers, so 256 comes before 1."""
    house = LoneHouse()
    offered = [(UUID if i % 2 else OTHER_UUID, i % 3, i * 7) for i in range(300)]
    for i, it in enumerate(offered):
        house.say(f"export /.:/offers {records.interface_text(it)} ncacn_ip_tcp:10.0.0.1 -", "ok 1" if i else "ok 2")
    offered.sort(key=lambda it: records.tower(it, "ncacn_ip_tcp", 0, (10, 0, 0, 1)))
    house.say("entrylist 1 low /.:/offers", *(f"interface {records.interface_text(it)}" for it in offered), "end 300")
    return run_of("300 interfaces", ["inquire"], house)


def stop_inside(house: LoneHouse, call: int, what: str, value: bytes) -> None:
    """Stops the house inside an update, and starts it again."""
    is_done = call > 2 and what == "keep"
    time, marks = house.time, dict(house.directories[1][b"entry"][2][b"A"])
    command, _ = house.change("entry", "A", value)
    if not is_done:
        house.time, house.directories[1][b"entry"][2][b"A"] = time, marks
    house.say(f"stop 1 {call} {what} {command}", "ok stopped after" if is_done else "ok stopped before")
    house.say("start 1", "ok")


def journal() -> Run:
    """20 directories, and 1,000 updates of a house, whose image then has more than 64 KiB. Each hundredth is stopped,
    and by twos the house is taken down and started again. The image is printed now and then."""
    house, chance = LoneHouse(), random.Random(3)
    for i in range(20):
        house.mkdir(f"child-{i}-" + "x" * (254 - len(f"child-{i}-")))
    house.create("entry")
    house.add("entry", "A", b"first")
    for i in range(1000):
        value = chance.randbytes(20 if i < 960 else 1024)
        if i % 100 == 50:
            stop_inside(house, i // 100 % 4 + 1, ("keep", "drop", "torn")[i // 100 % 3], value)
            continue
        house.add("entry", "A", value)
        if i % 200 == 99:
            house.say("crash 1", "ok")
            house.say("start 1", "ok")
        if i % 250 == 249:
            house.say("image 1", house.image())
        house.say("read 1 low /.:/entry B", "ok 0")
    house.say("octets house 1", house.image())
    return run_of("1,000 puts into a journal", ["journal"], house)


def runs() -> list[Run]:
    """Returns all of these."""
    clerks = [full_clerk(100), full_clerk(1000), busy_clerk(100, 80, 2000), busy_clerk(1000, 700, 4000)]
    return [*clerks, groups(), profile(), bindings(), interfaces(), journal()]
