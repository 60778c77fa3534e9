#!/usr/bin/env python3
"""Writes an input of one kind and size to standard output:

    generate.py comments N   N comment lines of 60 octets
    generate.py adds N       one entry, and N `add` and `remove` commands over eight values of it, and a `read`
    generate.py values N     one entry, N `add` commands of as many values, and a `read`
    generate.py creates N    N `create` commands, each with an `add`, and then a `read` of each entry
    generate.py check N      N commands of several kinds, for the form `check`
    generate.py towers N     the octets of N RPC towers of five floors, 75 octets each, for the form `towers`
    generate.py untowers N   the text of the same towers, a line each, for the form `untowers`
    generate.py bag N        a directory at three houses, and N updates whose messages are delivered twice and then lost
    generate.py two_masters N  N updates at a master and two secondary members in turn, each told to the others, with a
                               skulk each thousand
    generate.py skulks N     a directory of 10,000 entries with four values each at four houses, and N skulks of it
    generate.py quiet N      the same, but that each update comes through to each house before the skulk
    generate.py crashes N    a house with 10,000 entries that goes down and starts again N times
    generate.py purges N     an entry that gets N values and loses them again, with a skulk each thousand lines
    generate.py deaths N     N entries at three houses, each created and deleted, with a skulk each thousand lines
    generate.py exports N    N servers, each exported with three bindings and an object
    generate.py imports N    a profile of 200 elements over 50 groups of 200 members, and N imports from it
    generate.py lookups N    the same, but N lookups in batches of 1, 10 and 65,535, for the form `inquire`
    generate.py inquiries N  a profile of 5,000 elements, and N inquiries for them by each kind, for the form `inquire`
    generate.py cached N     200 entries at two houses, and N reads at low confidence in mixed order, for the form
                             `clerk 1000`
    generate.py crowded N    the same of 2,000 entries, of which few fit into the room of the clerk
    generate.py journals N   N updates of a house of 100 entries, of which each hundredth is stopped, for the form
                             `journal`
    generate.py idle N       two houses of 100 entries, and N commands that change nothing of them, for the form
                             `journal`
    generate.py resumed N    a journal of N images, and then 100 times its last image, a `crash` and a `start`, for the
                             form `journal`
    generate.py wide N       a directory at 64 houses, and N updates at its master, whose messages are delivered to four
                             houses and lost to the others
    generate.py deep N       a path of 200 directories, and N reads at its end
    generate.py linked N     a chain of 63 links, and N reads through all of it
    generate.py told N       a directory at 64 houses, and N updates at its master, whose messages all come through
    generate.py last N       255 houses, of which the last has the directory alone, and N updates there
    generate.py epochs N     a directory of 16 entries at three houses, and N epochs of it, whose Joins come through
    generate.py chained N    a chain of 200 groups with a server each, and N imports from its beginning
    generate.py fanned N     a group of 2,000 servers, and N imports from it
    generate.py elements N   a profile of 2,000 elements, and N imports from it
    generate.py listed N     the same, but N times all of its elements, for the form `inquire`
    generate.py small N      one command: what it costs to begin
    generate.py mends N      a cell of 64 houses in trouble, N lines, for the program `cdsmend`
    generate.py migrate N    the image, in format 1, of a house with N entries of four values each, for the form
                             `migrate`
    generate.py audits N     two such images, of N entries each, of houses that agree, for the form `audit 1`
    generate.py differing N  the same, but that the last value of the second one is missing in the first
    generate.py script N     the script of the form `load` with N rounds, as text; `loads N` is the same

The same kind and size is the same input, always.
"""

from __future__ import annotations

import os
import sys
from collections.abc import Callable, Iterable, Iterator
from typing import IO

sys.dont_write_bytecode = True
sys.path.insert(0, f"{os.path.dirname(os.path.dirname(os.path.realpath(__file__)))}/tools")
from cds import records, tool


def comments(count: int) -> Iterator[str]:
    for i in range(1, count + 1):
        yield f"# Comment {i:010}, which says nothing and has no answer.\n"


def adds(count: int) -> Iterator[str]:
    yield "house 1 00000000000a\nroot 1\ncreate 1 1 entry\n"
    # Numbers that look random, so that values come and go in no order.
    x = count
    for _ in range(count):
        x = (x * 1103515245 + 12345) % 2147483648
        command = "add" if x >> 20 & 3 else "remove"
        yield f"{command} 1 1 entry Attribute 0000{x >> 24 & 7:02x}ff\n"
    yield "read 1 low /.:/entry Attribute\n"


def mixed(count: int) -> Iterator[int]:
    """The numbers below the count, each once, in no order."""
    # A step that shares no divisor with the count visits each number once.
    step = next(s for s in range(count * 2 // 3 + 1, 2 * count + 2) if coprime(s, count))
    return (i * step % count for i in range(count))


def values(count: int) -> Iterator[str]:
    yield "house 1 00000000000a\nroot 1\ncreate 1 1 entry\n"
    for i in mixed(count):
        yield f"add 1 1 entry Attribute {i:08x}\n"
    yield "read 1 low /.:/entry Attribute\n"


def creates(count: int) -> Iterator[str]:
    yield "house 1 00000000000a\nroot 1\n"
    for i in mixed(count):
        yield f"create 1 1 entry-{i:08}\n"
        yield f"add 1 1 entry-{i:08} Attribute {i:08x}\n"
    for i in range(count):
        yield f"read 1 low /.:/entry-{i:08} Attribute\n"


def check(count: int) -> Iterator[str]:
    for i in range(count):
        kind, name = i % 5, f"entry-{i // 5:08}"
        if kind == 0:
            yield f"clock 1 {i}\n"
        elif kind == 1:
            yield f"create 1 1 {name}\n"
        elif kind == 4:
            yield f"read 1 low /.:/{name} Attribute\n"
        else:
            yield f"{'add' if kind == 2 else 'remove'} 1 1 {name} Attribute {i:08x}\n"


def houses(count: int) -> Iterator[str]:
    """Houses from 1 on, and the root directory at the first."""
    for house in range(1, count + 1):
        yield f"house {house} {house:012x}\n"
    yield "root 1\n"


def pseudorandom(seed: int) -> Iterator[int]:
    """Numbers below 2048 that look random."""
    while True:
        seed = (seed * 1103515245 + 12345) % 2147483648
        yield seed >> 20


def changed(house: int, chance: int) -> str:
    """A change at a house, by a number: of one of 16 entries, a value that comes, or one that goes."""
    command = "add" if chance & 3 else "remove"
    return f"{command} {house} 1 entry-{chance >> 2 & 15:02} Attribute 0000{chance >> 6 & 7:02x}ff\n"


def replicate(count: int) -> Iterator[str]:
    """The root directory comes to all houses, by the first messages of the cell."""
    others = range(2, count + 1)
    yield f"epoch 1 1 {' '.join(map(str, others))}\n"
    yield from delivered(range(1, count), 1)


def delivered(serials: range | list[int], times: int) -> Iterator[str]:
    """Messages that are each delivered so many times, and then lost."""
    for _ in range(times):
        for serial in serials:
            yield f"deliver {serial}\n"
    for serial in serials:
        yield f"lose {serial}\n"


def bag(count: int) -> Iterator[str]:
    yield from houses(3)
    for i in range(16):
        yield f"create 1 1 entry-{i:02}\n"
    yield from replicate(3)
    serial = 3
    random = pseudorandom(count)
    for _ in range(count):
        yield changed(1, next(random))
        yield from delivered(range(serial, serial + 2), 2)
        serial += 2
    for house in 1, 2, 3:
        yield f"dump {house} 1\n"


def two_masters(count: int) -> Iterator[str]:
    yield from houses(3)
    for i in range(16):
        yield f"create 1 1 entry-{i:02}\n"
    yield "epoch 1 1 s2 s3\n"
    yield from delivered(range(1, 3), 1)
    serial = 3
    random = pseudorandom(count)
    for at in range(count):
        yield changed(at % 3 + 1, next(random))
        yield from delivered(range(serial, serial + 2), 1)
        serial += 2
        if at % 1_000 == 999:
            yield "skulk 1 1\n"
            # The two rounds with their answers, and what follows the last.
            for _ in range(5):
                yield from delivered(range(serial, serial + 2), 1)
                serial += 2
    for house in 1, 2, 3:
        yield f"dump {house} 1\n"


# The entries of the directory that is skulked, or kept over crashes.
ENTRIES = 10_000


def skulks(count: int, told: int = 1) -> Iterator[str]:
    """Of each update so many other houses get the message at once, and the rest by the skulk alone."""
    yield from houses(4)
    for i in mixed(ENTRIES):
        yield f"create 1 1 entry-{i:08}\n"
        for value in range(4):
            yield f"add 1 1 entry-{i:08} Attribute {i:08x}{value:02x}\n"
    yield from replicate(4)
    serial = 4
    random = pseudorandom(count)
    for _ in range(count):
        for _ in range(4):
            x = next(random)
            yield f"{'add' if x & 3 else 'remove'} 1 1 entry-{x:08} Attribute {x:08x}{x >> 2 & 3:02x}\n"
            yield from delivered(range(serial, serial + told), 1)
            yield from delivered(range(serial + told, serial + 3), 0)
            serial += 3
        yield "skulk 1 1\n"
        # The two rounds with their answers, and what follows the last.
        for _ in range(5):
            yield from delivered(range(serial, serial + 3), 1)
            serial += 3
    for house in 1, 4:
        yield f"octets house {house}\n"


def crashes(count: int) -> Iterator[str]:
    yield from houses(1)
    for i in mixed(ENTRIES):
        yield f"create 1 1 entry-{i:08}\n"
        yield f"add 1 1 entry-{i:08} Attribute {i:08x}\n"
    for _ in range(count):
        yield "crash 1\nstart 1\n"
    yield "octets house 1\n"


def purges(count: int) -> Iterator[str]:
    yield from houses(1)
    yield "create 1 1 entry\n"
    for command in "add", "remove":
        for at, i in enumerate(mixed(count), 1):
            yield f"{command} 1 1 entry Attribute {i:08x}\n"
            if at % 1_000 == 0:
                yield "skulk 1 1\n"
    yield "skulk 1 1\noctets house 1\n"


def deaths(count: int) -> Iterator[str]:
    yield from houses(3)
    yield from replicate(3)
    serial = 3
    for at, i in enumerate(mixed(count), 1):
        yield f"create 1 1 entry-{i:08}\ndelete 1 1 entry-{i:08}\n"
        # The other houses hear of it by the next skulk alone.
        yield from delivered(range(serial, serial + 4), 0)
        serial += 4
        if at % 500 == 0 or at == count:
            yield "skulk 1 1\n"
            for _ in range(5):
                yield from delivered(range(serial, serial + 2), 1)
                serial += 2
    for house in 1, 2, 3:
        yield f"octets house {house}\n"


def interface(number: int) -> str:
    return f"a0000000-0000-0000-0000-{number:012x}"


def exports(count: int) -> Iterator[str]:
    yield from houses(1)
    yield "mkdir 1 1 servers 1\n"
    for i in mixed(count):
        host = f"10.{i >> 16 & 255}.{i >> 8 & 255}.{i & 255}"
        bindings = f"ncacn_ip_tcp:{host}[1025],ncadg_ip_udp:{host}[1026],ncacn_ip_tcp:{host}"
        yield (
            f"export /.:/servers/server-{i:08} {interface(i % 10)}:1.0"
            f" {bindings} 00000000-0000-0000-0000-{i + 1:012x}\n"
        )


# What imports search: servers of ten interfaces, aliases of some of them, and groups.
SERVERS = 5_000
ALIASES = 1_000
GROUPS = 50


def members(group: int) -> Iterator[str]:
    """The 200 members of a group: 160 servers, 32 aliases, and 8 groups, of which it is one itself."""
    # A step that shares no divisor with their numbers brings each server and each alias into one group or two.
    for i in range(160):
        yield f"servers/server-{(group * 160 + i) * 7 % SERVERS:04}"
    for i in range(32):
        yield f"aliases/alias-{(group * 32 + i) * 7 % ALIASES:04}"
    for i in range(8):
        yield f"groups/group-{(group + i) % GROUPS:02}"


def elements() -> Iterator[str]:
    """For each group an element for an interface, for a later minor version of it, for another interface, and for
    any."""
    for group in range(GROUPS):
        member, priority = f"/.:/groups/group-{group:02}", group % 8
        yield f"{interface(0)}:1.0 {member} {priority} -"
        yield f"{interface(0)}:1.3 {member} {7 - priority} -"
        yield f"{interface(10)}:1.0 {member} {priority} -"
        yield f"default {member} 8 -"


def searched() -> Iterator[str]:
    """A cell to search in, with the profile at its root."""
    yield from houses(1)
    yield "mkdir 1 1 servers 1\nmkdir 1 1 aliases 1\nmkdir 1 1 groups 1\n"
    for i in mixed(SERVERS):
        yield (
            "export"
            f" /.:/servers/server-{i:04} {interface(i % 10)}:1.{i % 4} ncacn_ip_tcp:10.0.{i >> 8}.{i & 255}[1025] -\n"
        )
    for i in range(ALIASES):
        yield f"link 1 3 alias-{i:04} /.:/servers/server-{i * 3:04}\n"
    for group in range(GROUPS):
        for member in members(group):
            yield f"groupadd /.:/groups/group-{group:02} /.:/{member}\n"
    for element in elements():
        yield f"profadd /.:/profile {element}\n"


def imports(count: int) -> Iterator[str]:
    yield from searched()
    for i in range(count):
        yield f"import 1 {'high' if i % 2 else 'low'} /.:/profile {interface(i % 10)}:1.1 - ncacn_ip_tcp,ncadg_ip_udp\n"


def lookups(count: int) -> Iterator[str]:
    yield from searched()
    for i in range(count):
        asked = f"{interface(i % 10)}:1.1 - ncacn_ip_tcp,ncadg_ip_udp {(1, 10, 65_535)[i % 3]}"
        yield f"lookup 1 {'high' if i % 2 else 'low'} /.:/profile {asked}\n"


def inquiries(count: int) -> Iterator[str]:
    yield from houses(1)
    for i in mixed(5_000):
        # Of ten interfaces, in ten versions, at fifty members; each hundredth is for any interface.
        asked, priority = (f"{interface(i % 10)}:{i // 10 % 5}.{i // 50 % 2}", i % 8) if i % 100 else ("default", 8)
        yield f"profadd /.:/profile {asked} /.:/member-{i % 50:02} {priority} note-{i:04}\n"
    for i in range(count):
        asked, member = f"{interface(i % 9)}:{i % 5}.1", f"/.:/member-{i % 50:02}"
        version = ("all", "compatible", "exact", "major_only", "upto")[i // 7 % 5]
        choices = (
            "all - all -",
            "default - all -",
            f"byif {asked} {version} -",
            f"bymbr - all {member}",
            f"byboth {asked} {version} {member}",
        )
        yield f"proflist 1 low /.:/profile {choices[i % 5]}\n"


def reads(names: int, count: int) -> Iterator[str]:
    """So many entries at two houses, each with a value, and reads of them that look random."""
    yield "house 1 00000000000a\nhouse 2 00000000000b\nroot 1 2\ndeliver 1\n"
    serial = 2
    for i in mixed(names):
        yield f"create 1 1 entry-{i:04}\nadd 1 1 entry-{i:04} Attribute {i:08x}\n"
        yield from delivered(range(serial, serial + 2), 1)
        serial += 2
    random = pseudorandom(count)
    for i in range(count):
        yield f"read {i % 2 + 1} low /.:/entry-{next(random) % names:04} Attribute\n"


def journals(count: int) -> Iterator[str]:
    yield "house 1 00000000000a\nroot 1\n"
    for i in mixed(100):
        yield f"create 1 1 entry-{i:02}\nadd 1 1 entry-{i:02} Attribute {i:08x}\n"
    random = pseudorandom(count)
    for at in range(1, count + 1):
        x = next(random)
        update = (
            f"{'add' if x & 3 else 'remove'} 1 1 entry-{x >> 4:02} Attribute {x >> 4:08x}"
            if x >> 4 < 100
            else f"put 1 1 entry-{x % 100:02} B {x % 4:02x}"
        )
        if at % 100:
            yield f"{update}\n"
        else:
            yield f"stop 1 {at // 100 % 4 + 1} {('keep', 'drop', 'torn')[at // 400 % 3]} {update}\nstart 1\n"
        if at % 1_000 == 0:
            yield "skulk 1 1\nimage 1\n"


def idle(count: int) -> Iterator[str]:
    yield "house 1 00000000000a\nhouse 2 00000000000b\nroot 1 2\ndeliver 1\n"
    for at, i in enumerate(mixed(100)):
        yield f"create 1 1 entry-{i:02}\nadd 1 1 entry-{i:02} Attribute {i:08x}\n"
        yield f"deliver {2 * at + 2}\ndeliver {2 * at + 3}\n"
    for i in range(count):
        yield (
            f"deliver {i % 200 + 2}\n",
            f"create 1 1 entry-{i % 100:02}\n",
            f"add 2 1 entry-{i % 100:02} Attribute 01\n",
            "clock 1 0\n",
        )[i % 4]


def resumed(count: int) -> Iterator[str]:
    yield "house 1 00000000000a\nroot 1\ncreate 1 1 entry\n"
    for i in range(count):
        yield f"{'remove' if i & 1 else 'add'} 1 1 entry Attribute 01\n"
    for _ in range(100):
        yield "image 1\ncrash 1\nstart 1\n"


def wide(count: int) -> Iterator[str]:
    yield "".join(f"house {house} {house:012x}\n" for house in range(1, 65))
    yield f"root 1 {' '.join(map(str, range(2, 65)))}\n"
    yield from delivered(range(1, 64), 1)
    yield "".join(f"create 1 1 entry-{i:02}\n" for i in range(16))
    serial = 64
    for i in range(16):
        yield from delivered(range(serial, serial + 63), 1)
        serial += 63
    random = pseudorandom(count)
    for _ in range(count):
        x = next(random)
        yield f"{'add' if x & 3 else 'remove'} 1 1 entry-{x >> 2 & 15:02} Attribute {x >> 6 & 7:02x}\n"
        yield from delivered(range(serial, serial + 4), 1)
        yield "".join(f"lose {it}\n" for it in range(serial + 4, serial + 63))
        serial += 63


def deep(count: int) -> Iterator[str]:
    yield "house 1 00000000000a\nroot 1\n"
    yield "".join(f"mkdir 1 {i + 1} d 1\n" for i in range(200))
    yield "create 1 201 entry\nadd 1 201 entry Attribute 01\n"
    yield from (f"read 1 {'high' if i % 2 else 'low'} /.:{'/d' * 200}/entry Attribute\n" for i in range(count))


def linked(count: int) -> Iterator[str]:
    yield "house 1 00000000000a\nroot 1\ncreate 1 1 entry-00\nadd 1 1 entry-00 Attribute 01\n"
    yield "".join(f"link 1 1 entry-{i:02} /.:/entry-{i - 1:02}\n" for i in range(1, 64))
    yield from (f"read 1 {'high' if i % 2 else 'low'} /.:/entry-63 Attribute\n" for i in range(count))


def told(count: int) -> Iterator[str]:
    yield from houses(64)
    yield "create 1 1 entry\n"
    yield from replicate(64)
    serial = 64
    for i in range(count):
        yield f"{'remove' if i & 1 else 'add'} 1 1 entry Attribute 01\n"
        yield from delivered(range(serial, serial + 63), 1)
        serial += 63


def last(count: int) -> Iterator[str]:
    yield "".join(f"house {house} {house:012x}\n" for house in range(1, 256))
    yield "root 255\ncreate 255 1 entry\n"
    yield from (f"{'remove' if i & 1 else 'add'} 255 1 entry Attribute 01\n" for i in range(count))


def epochs(count: int) -> Iterator[str]:
    yield from houses(3)
    yield "".join(f"create 1 1 entry-{i:02}\nadd 1 1 entry-{i:02} Attribute {i:02x}\n" for i in range(16))
    serial = 1
    for _ in range(count):
        yield "epoch 1 1 2 3\n"
        yield from delivered(range(serial, serial + 2), 1)
        serial += 2


def server(name: str, number: int) -> str:
    """The export of a server of one interface."""
    return f"export /.:/{name} {interface(0)}:1.0 ncacn_ip_tcp:10.0.{number >> 8}.{number & 255}[1025] -\n"


def imported(count: int, entry: str) -> Iterator[str]:
    """Imports of that interface from an entry."""
    yield from (
        f"import 1 {'high' if i % 2 else 'low'} /.:/{entry} {interface(0)}:1.0 - ncacn_ip_tcp\n" for i in range(count)
    )


def chained(count: int) -> Iterator[str]:
    yield from houses(1)
    for i in range(200):
        yield server(f"server-{i:03}", i)
        yield f"groupadd /.:/group-{i:03} /.:/server-{i:03}\ngroupadd /.:/group-{i:03} /.:/group-{i + 1:03}\n"
    yield from imported(count, "group-000")


def fanned(count: int) -> Iterator[str]:
    yield from houses(1)
    for i in mixed(2_000):
        yield server(f"server-{i:04}", i)
        yield f"groupadd /.:/group /.:/server-{i:04}\n"
    yield from imported(count, "group")


def profile() -> Iterator[str]:
    """A profile of elements for two interfaces at ten servers."""
    yield from houses(1)
    yield from (server(f"server-{i}", i) for i in range(10))
    for i in mixed(2_000):
        element = f"{interface(i % 2)}:1.{i // 20} /.:/server-{i % 10} {i % 8} note-{i:04}"
        yield f"profadd /.:/profile {element}\n"


def elements_imported(count: int) -> Iterator[str]:
    yield from profile()
    yield from imported(count, "profile")


def elements_listed(count: int) -> Iterator[str]:
    yield from profile()
    yield from ("proflist 1 low /.:/profile all - all -\n" for _ in range(count))


def small(count: int) -> Iterator[str]:
    yield "house 1 00000000000a\n"


def mends(count: int) -> Iterator[str]:
    """House 1 is the master, 2 to 8 are secondary, and 9 to 64 read-only. Joins were lost or wait; houses are down; a
    skulk waits for them."""
    for house in range(1, 65):
        yield f"house {house} {house:012x}\n"
    listed = " ".join([*(f"s{it}" for it in range(2, 9)), *map(str, range(9, 65))])
    yield f"root 1 {listed}\n"
    # The first sixteen Joins come through.
    for serial in range(1, 17):
        yield f"deliver {serial}\n"
    for serial in range(41, 49):
        yield f"lose {serial}\n"
    lines = 64 + 1 + 16 + 8
    yield "create 1 1 entry-00\nepoch 1 1 " + listed + "\nskulk 1 1\n"
    lines += 3
    # Behind the Joins of both epochs and the first update stand the Gathers of the skulk.
    for serial in range(63 * 3 + 1, 63 * 3 + 21):
        yield f"deliver {serial}\n"
    lines += 20
    for house in range(20, 60, 4):
        yield f"crash {house}\n"
    lines += 10
    # Each of the houses that accept updates makes entries and adds values to them.
    for i in range(max(count - lines, 0)):
        entry = f"{i % 8 + 1} 1 entry-{i % 8}-{i // 32:04}"
        yield f"create {entry}\n" if i // 8 % 4 == 0 else f"add {entry} Attribute {i:08x}\n"


def script(count: int) -> Iterator[str]:
    for house in 1, 2, 3:
        yield f"house {house} {house:012x}\n"
    yield "root 1 2 3\n"
    yield from delivered([1, 2], 1)
    serial = 3
    for i in range(16):
        yield f"create 1 1 e{i}\n"
        yield from delivered([serial, serial + 1], 0)
        serial += 2
    x = count
    for i in range(1, count + 1):
        x = (x * 1103515245 + 12345) % 2147483648
        y = x // 256
        entry, value, change, told = y % 16, y // 16 % 256, y // 4096 % 8, y // 32768 % 2
        if change == 7:
            yield f"delete 1 1 e{entry}\ncreate 1 1 e{entry}\n"
        else:
            yield f"{'add' if change < 5 else 'remove'} 1 1 e{entry} A {value:02x}\n"
        posted = 4 if change == 7 else 2
        yield from (f"deliver {serial + j}\n" for j in range(0, posted * told, 2))
        yield from delivered(range(serial, serial + posted), 0)
        serial += posted
        if i % 32 == 0 or i == count:
            yield "skulk 1 1\n"
            yield from delivered(range(serial, serial + 10), 1)
            serial += 10


def coprime(a: int, b: int) -> bool:
    while b:
        a, b = b, a % b
    return a == 1


def floors(count: int) -> Iterator[tuple[tuple[bytes, bytes], ...]]:
    """The floors of towers: an interface, NDR, connections, a TCP port and an address, which differ from tower to
    tower."""
    for i in range(count):
        interface = b"\x0d" + (i * 2654435761 % 2**128).to_bytes(16, "little") + b"\x03\x00"
        port, host = records.number(i % 65536, 2), records.number(i * 40503 % 2**32, 4)
        yield (interface, b"\0\0"), records.identity(records.NDR), (b"\x0b", b"\0\0"), (b"\x07", port), (b"\x09", host)


def towers(count: int) -> Iterator[bytes]:
    for tower in floors(count):
        yield b"\x05\0" + records.floors_of(tower)


def untowers(count: int) -> Iterator[bytes]:
    for tower in floors(count):
        yield (" ".join(f"{left.hex()}:{right.hex()}" for left, right in tower) + "\n").encode()


def stamp(time: int) -> bytes:
    return records.stamp(time, "00000000000a")


def image(layout: int, count: int, all_up_to: bytes = b"", house: int = 1, lacks: int = 0) -> Iterator[bytes]:
    """An entry in each piece, the first one after the head of the image. The house is the only member. The last one
    lacks values."""
    head = records.image_head(layout, house, "00000000000a", 5 * count, 1)
    head += records.directory_head(1, 1, [(house, 1, records.MASTER)], all_up_to, count)
    for i in range(count):
        values, time = 4 - lacks if i + 1 == count else 4, 5 * i + 1
        marks = {records.number(4 * i + j, 4): (1, stamp(time + 1 + j)) for j in range(values)}
        yield (b"" if i else head) + records.entry(
            f"entry-{i:08}".encode(), records.OBJECT, stamp(time), {b"Attribute": marks}
        )


def migrate(count: int) -> Iterator[bytes]:
    return image(1, count)


def audits(count: int, lacks: int = 0) -> Iterator[bytes]:
    """Two images of houses whose AllUpTo is after all that they hold."""
    all_up_to = stamp(5 * count + 1)
    yield from image(1, count, all_up_to, lacks=lacks)
    yield from image(1, count, all_up_to, house=2)


def encoded(texts: Iterable[str]) -> Iterator[bytes]:
    return (text.encode() for text in texts)


KINDS: dict[str, Callable[[int], Iterable[bytes]]] = {
    "comments": lambda count: encoded(comments(count)),
    "adds": lambda count: encoded(adds(count)),
    "values": lambda count: encoded(values(count)),
    "creates": lambda count: encoded(creates(count)),
    "check": lambda count: encoded(check(count)),
    "towers": towers,
    "untowers": untowers,
    "bag": lambda count: encoded(bag(count)),
    "two_masters": lambda count: encoded(two_masters(count)),
    "skulks": lambda count: encoded(skulks(count)),
    "quiet": lambda count: encoded(skulks(count, 3)),
    "crashes": lambda count: encoded(crashes(count)),
    "purges": lambda count: encoded(purges(count)),
    "deaths": lambda count: encoded(deaths(count)),
    "exports": lambda count: encoded(exports(count)),
    "imports": lambda count: encoded(imports(count)),
    "lookups": lambda count: encoded(lookups(count)),
    "inquiries": lambda count: encoded(inquiries(count)),
    "cached": lambda count: encoded(reads(200, count)),
    "crowded": lambda count: encoded(reads(2_000, count)),
    "journals": lambda count: encoded(journals(count)),
    "idle": lambda count: encoded(idle(count)),
    "resumed": lambda count: encoded(resumed(count)),
    "wide": lambda count: encoded(wide(count)),
    "deep": lambda count: encoded(deep(count)),
    "linked": lambda count: encoded(linked(count)),
    "told": lambda count: encoded(told(count)),
    "last": lambda count: encoded(last(count)),
    "epochs": lambda count: encoded(epochs(count)),
    "chained": lambda count: encoded(chained(count)),
    "fanned": lambda count: encoded(fanned(count)),
    "elements": lambda count: encoded(elements_imported(count)),
    "listed": lambda count: encoded(elements_listed(count)),
    "small": lambda count: encoded(small(count)),
    "mends": lambda count: encoded(mends(count)),
    "migrate": migrate,
    "audits": audits,
    "differing": lambda count: audits(count, lacks=1),
    "script": lambda count: encoded(script(count)),
    "loads": lambda count: encoded(script(count)),
}


def write(kind: str, count: int, out: IO[bytes]) -> int:
    """Writes the input, in pieces, and gives the number of its lines, towers or entries."""
    piece, items = [], 0
    for text in KINDS[kind](count):
        piece.append(text)
        if len(piece) == 65536:
            items += items_in(kind, piece)
            out.write(b"".join(piece))
            piece = []
    out.write(b"".join(piece))
    return items + items_in(kind, piece)


def items_in(kind: str, piece: list[bytes]) -> int:
    return (
        len(piece) if kind in ("towers", "migrate", "audits", "differing") else sum(text.count(b"\n") for text in piece)
    )


def main(words: list[str]) -> int:
    """Writes an input, and returns the exit status."""
    parser = tool.Words(__doc__)
    parser.add_argument("kind", choices=KINDS)
    parser.add_argument("count", type=int)
    given = parser.parse_args(words)
    write(given.kind, given.count, sys.stdout.buffer)
    return 0


if __name__ == "__main__":
    tool.run(main)
