#!/usr/bin/env python3
"""A clerk that hears what houses say, and what no house says. It has to come to the end of each command, and it may
not end itself. If it has one command at a time it has to say what its twin says, the plain clerk of bench/:

    tools/doors/trials/nonsense.py SECONDS [--seed N] [--clerk PATH] [--alone]

Without --clerk it is the one that a door has. With --alone it has one command at a time in all rounds. The last line is
the sum of what it was given; the exit status is 1 at the first clerk that ends, or says other lines than its twin.
"""
from __future__ import annotations

import collections
import os
import random
import subprocess
import sys
import time

sys.dont_write_bytecode = True
sys.path.insert(0, os.path.dirname(os.path.dirname(os.path.dirname(os.path.realpath(__file__)))))
from doors import executables
from doors.trials.clients import INTERFACE
from cds import programs, records, tool
from cds.processes import ENDS

NAMES = ["/.:", "/.:/a", "/.:/a/b", "/.:/a/b/c", "/.:/b", "/.:/l", "/.:/" + "x" * 254, "/.:" + "/yy" * 340]
ATTRIBUTES = ["A", "CDS_Towers", "RPC_Group", "RPC_ObjectUUIDs", "RPC_Profile"]
OTHERS = ["CDS_LinkTarget", "CDS_Replicas", "A-", ""]
TOWER = (
    "050013000d000000a000000000000000000000000101000200000013000d045d888aeb1cc9119fe808002b10486002000200000001000b02"
    "0000000100070200040101000904000a00000"
)
# Interfaces of the elements of profiles, some of one UUID, and the words that say which elements match.
INTERFACES = [(INTERFACE, major, minor) for major in (1, 2) for minor in (0, 3)] + [(f"b{INTERFACE[1:]}", 1, 0)]
VERSIONS = ["all", "compatible", "exact", "major_only", "upto", "near"]
# So many questions a command asks at most, of tables as small as these.
MOST_QUESTIONS = 20_000
# A round has so many commands.
COMMANDS = 200
# What a clerk is told in between.
JUNK = ("", "do", "do 1", "say 1 ok", "hear 0 end", "hear 99999999999999999999 ok", "hear 7", "down 0", "down 1 2", "#")


class Ended(Exception):
    """The clerk ended, or comes to no end, or says other lines than its twin."""


class Nonsense:
    """What houses say, or almost, made from a source of chance. With `alone` it is nothing that the twin takes
    otherwise."""

    def __init__(self, chance: random.Random, alone: bool) -> None:
        self.chance, self.alone = chance, alone

    def value(self, attribute: str) -> str:
        chance = self.chance
        of_kind = {
            "CDS_Towers": bytes.fromhex(f"{TOWER}{chance.randrange(16):x}"),
            "RPC_Group": chance.choice(NAMES).encode(),
            "RPC_ObjectUUIDs": bytes([chance.randrange(3)] * 16),
            "RPC_Profile": self.element(),
        }
        octets = of_kind.get(attribute, b"A") if chance.random() < 0.9 else chance.randbytes(chance.randrange(1, 40))
        return octets.hex()

    def element(self) -> bytes:
        """An element of a profile; one of eight is none."""
        chance, member = self.chance, self.chance.choice(NAMES[:6])
        if chance.random() < 0.12:
            return bytes([chance.randrange(9)]) + chance.randbytes(24) + b"/.:/a"
        priority = chance.randrange(9)
        interface = chance.choice(INTERFACES) if priority < 8 else None
        return records.element(priority, interface, member, chance.choice(["", "note"]))

    def selection(self) -> str:
        """Which elements a `proflist` asks for; some combinations are none."""
        chance = self.chance
        kind = chance.choice(["all", "default", "byif", "byif", "bymbr", "byboth", "x"])
        has_interface = (kind in ("byif", "byboth")) != (chance.random() < 0.05)
        has_member = (kind in ("bymbr", "byboth")) != (chance.random() < 0.05)
        interface = records.interface_text(chance.choice(INTERFACES)) if has_interface else "-"
        version = chance.choice(VERSIONS) if has_interface else "all"
        return f"{kind} {interface} {version} {chance.choice(NAMES[:6]) if has_member else '-'}"

    def show(self) -> list[str]:
        chance = self.chance
        child = f"child {chance.randrange(1, 5)} {' '.join(map(str, chance.sample(range(1, 4), chance.randint(1, 3))))}"
        lines = [chance.choice([*["object"] * 6, *[f"link {chance.choice(NAMES)}"] * 2, *[child] * 3])]
        names = ATTRIBUTES if self.alone else [*ATTRIBUTES, *OTHERS]
        for name in sorted(chance.sample(names, chance.randrange(4))):
            lines.append(f"attr {name}")
            lines += [f"value {it}" for it in sorted({self.value(name) for _ in range(chance.randrange(1, 4))})]
        return [*lines, "end"]

    def dump(self) -> list[str]:
        chance = self.chance
        lines = [chance.choice(["dump epoch 1 allupto none members 1:1:m 2:1:r", "dump epoch x members", "dump", ""])]
        for _ in range(chance.randrange(4)):
            name = chance.choice(NAMES)[4:].split("/")[0]
            kind, life = chance.choice(["object", "link", "child", "x"]), chance.choice(["live", "2@a"])
            lines += [f"entry {name} {kind} 1@a {life}", f"attr {chance.choice([*ATTRIBUTES, *OTHERS])} none"]
            marks = [chance.choice(["present", "absent", ""]) for _ in range(chance.randrange(3))]
            lines += [f"value {self.value('A')} {mark} 1@a" for mark in marks]
        return [*lines, "end"]

    def status(self) -> list[str]:
        rest = "allupto none skulk none entries 1 members"
        lists = [f"ok epoch 3 {rest} 1:1:m 2:1:r", f"ok epoch 9 {rest} 2:1:m", f"ok epoch 1 {rest} 1:1:r 2:1:s 3:1:m"]
        return [self.chance.choice(lists)]

    def refusal(self) -> str:
        known = ["NoSuchEntry", "NoReplica", "NotMaster", "StampsSpent", "EntryExists", "WrongKind", "Bogus 1"]
        others = ["refused", "refused Forbidden", "fault BadWord 2", "ok", "ok ok", "end"]
        return self.chance.choice([*(f"refused {word}" for word in known), *others])

    def spoilt(self, lines: list[str]) -> list[str]:
        """An answer to which something happened on its way. It still has a last line."""
        chance, at = self.chance, self.chance.randrange(len(lines))
        match chance.randrange(6):
            case 0:
                lines = lines[:at]
            case 1:
                lines = [*lines[:at], lines[at], *lines[at:]]
            case 2:
                lines = [*lines[:at], lines[at][: chance.randrange(len(lines[at]) + 1)], *lines[at + 1 :]]
            case 3:
                place = chance.randrange(len(lines[at]) + 1)
                spoilt = lines[at][:place] + chance.choice(" 0a:/-~") + lines[at][place + chance.randrange(2) :]
                lines = [*lines[:at], spoilt, *lines[at + 1 :]]
            case 4:
                lines = chance.sample(lines, len(lines))
            case 5:
                other = chance.choice(["bogus", "", "value zz", "attr", "object", "child 1 1"])
                lines = [*lines[:at], other, *lines[at:]]
        ends = [place for place, line in enumerate(lines) if line.split(" ")[0] in ENDS]
        return lines[: ends[0] + 1] if ends else [*lines, "end"]

    def answer(self, question: str) -> list[str]:
        lot = self.chance.random()
        if lot < 0.1:
            return [self.refusal()]
        if lot < 0.12 and not self.alone:
            return ["fault UnknownCommand 1"]
        match question.split(" ")[0]:
            case "status":
                said = self.status()
            case "show":
                said = self.show() if lot < 0.8 else [self.chance.choice(["refused NoSuchEntry", "refused NoReplica"])]
            case "dump":
                said = self.dump()
            case _:
                return [self.chance.choice(["ok 1@00000000000a", "ok 1@00000000000a", self.refusal()])]
        return self.spoilt(said) if self.chance.random() < 0.1 else said

    def command(self) -> str:
        chance = self.chance
        name, other, c = chance.choice(NAMES), chance.choice(NAMES), chance.choice(["low", "high"])
        wanted = f"{INTERFACE}:1.0 - ncacn_ip_tcp"
        asks = [f"read {c} {name} A", f"readlink {c} {name}", f"import {c} {name} {wanted}"]
        most = chance.choice([1, 2, 3, 65535, 0, 65536])
        asks += [f"lookup {c} {name} {wanted} {most}", f"grouplist {c} {name}", f"entrylist {c} {name}"]
        asks += [f"proflist {c} {name} {self.selection()}"]
        plans = [f"export {name} {INTERFACE}:1.0 ncacn_ip_tcp:1.2.3.4[5] -", f"unexport {name} {INTERFACE}:1.0 -"]
        plans += [f"groupadd {name} {other}", f"groupdel {name} {other}", f"profdel {name} default {other}"]
        plans += [f"profadd {name} default {other} 8 -"]
        updates = [f"create {name}", f"delete {name}", f"link {name} {other}", f"add {name} A 01", f"clear {name} A"]
        updates += [f"put {name} A 0102", f"remove {name} A 01"]
        others = ["bogus", "read", f"read {c} x A", f"create {name} x", f"read  {c}  {name}  A ", f"add {name} A 0"]
        others += [f"entrylist {c}", f"grouplist {name} {c}"]
        return chance.choice([*asks, *plans, *updates, *others])


class Talk:
    """A clerk, and the houses that it asks. What a house says is made from a seed, the command, the house and the
    question, so that each clerk hears the same."""

    def __init__(self, program: str, seed: str, alone: bool) -> None:
        self.seed, self.alone, self.asked = seed, alone, 0
        self.chance = random.Random(seed)
        words, pipe = [program, "2", "1", "2", "3"], subprocess.PIPE
        self.child = subprocess.Popen(words, stdin=pipe, stdout=pipe)
        self.rest = b""

    def close(self) -> int:
        assert self.child.stdin and self.child.stdout
        self.child.stdin.close()
        self.child.stdout.close()
        return self.child.wait()

    def write(self, lines: list[str]) -> None:
        assert self.child.stdin
        self.child.stdin.write("".join(f"{line}\n" for line in lines).encode("latin-1"))
        self.child.stdin.flush()

    def read(self) -> list[str]:
        """The lines that it says or asks next: all that are there."""
        assert self.child.stdout
        octets = os.read(self.child.stdout.fileno(), 1 << 16)
        *lines, self.rest = (self.rest + octets).split(b"\n")
        if not octets:
            raise Ended(f"it ended with status {self.child.wait()}")
        return [line.decode("latin-1") for line in lines]

    def answers(self, commands: dict[int, str]) -> dict[int, list[str]]:
        """What it says to commands by their numbers."""
        said: dict[int, list[str]] = {number: [] for number in commands}
        counts, first, left = collections.Counter[str](), self.asked, set(commands)
        self.write([f"do {number} {command}" for number, command in commands.items()])
        while left:
            parts: list[list[str]] = []
            for line in self.read():
                word, number, text = line.split(" ", 2)
                if word == "say":
                    said[int(number)].append(text)
                    left -= {int(number)} if text.split(" ")[0] in ENDS else set()
                else:
                    counts[text] += 1
                    parts.append(self.told(number, text, counts[text]))
            self.asked += len(parts)
            if self.asked - first > MOST_QUESTIONS:
                raise Ended("it asks without end")
            self.write(self.mixed(parts) + self.chance.choices(JUNK, k=self.chance.randrange(10) // 9))
        return said

    def told(self, number: str, question: str, count: int) -> list[str]:
        """What it hears to a question that a command has asked for so many times: the lines of its house."""
        job, house, line = question.split(" ", 2)
        # (of a turn, that nobody knows whether it was done; else the house is down all the time)
        down = f"{question} {count}" if line.split(" ")[0] not in ("show", "status", "dump") else f"{job} {house}"
        if random.Random(f"{self.seed} down {down}").random() < 0.06:
            return [f"down {number}"]
        nonsense = Nonsense(random.Random(f"{self.seed} {question} {count}"), self.alone)
        return [f"hear {number} {text}" for text in nonsense.answer(line)]

    def mixed(self, parts: list[list[str]]) -> list[str]:
        """The lines of answers, of which those of names come through one another."""
        if self.alone and any(line.split(" ")[2:3] == ["ok"] for lines in parts for line in lines):
            return [line for lines in parts for line in lines]
        turns = [place for place, lines in enumerate(parts) for _ in lines]
        self.chance.shuffle(turns)
        ways = [iter(lines) for lines in parts]
        return [next(ways[place]) for place in turns]


def tried_round(talks: list[Talk], seed: str, counts: collections.Counter[str]) -> None:
    """Gives clerks the same commands, one at a time if they are two."""
    chance, alone, number = random.Random(seed), len(talks) > 1, 0
    while number < COMMANDS:
        commands = {}
        for _ in range(1 if alone else chance.randint(1, 3)):
            number += 1
            commands[number] = Nonsense(chance, alone).command()
        said = []
        for talk in talks:
            try:
                said.append(talk.answers(commands))
            except Ended as fault:
                raise Ended(f"round {seed}, {commands}: {fault}") from None
        if said[0] != said[-1]:
            raise Ended(f"round {seed}, {commands}: it says {said[0]}, and its twin {said[-1]}")
        counts["commands"] += len(commands)
        counts["compared"] += alone


def tried(clerk: str, seconds: float, seed: int, alone: bool = False) -> collections.Counter[str]:
    """Rounds of commands for so long, of which each other one is compared with the twin. What there was."""
    twin, counts, until = programs.plain_clerk(), collections.Counter[str](), time.monotonic() + seconds
    while time.monotonic() < until:
        compares = alone or counts["rounds"] % 2 == 0
        name = f"{seed}.{counts['rounds']}"
        talks = [Talk(program, name, compares) for program in ([clerk, twin] if compares else [clerk])]
        try:
            tried_round(talks, name, counts)
        finally:
            statuses = [talk.close() for talk in talks]
        if any(statuses):
            raise Ended(f"round {name}: the statuses are {statuses}")
        counts["rounds"] += 1
        counts["questions"] += talks[0].asked
    return counts


def main(words: list[str]) -> int:
    """Does what these words say, and returns the exit status."""
    parser = tool.Words(__doc__)
    parser.add_argument("seconds", type=float)
    parser.add_argument("--seed", type=int, default=1)
    parser.add_argument("--clerk")
    parser.add_argument("--alone", action="store_true")
    given = parser.parse_args(words)
    try:
        counts = tried(given.clerk or executables.clerk(), given.seconds, given.seed, given.alone)
    except Ended as fault:
        return tool.fail("nonsense.py", fault)
    print(", ".join(f"{count:,} {what}" for what, count in counts.items()))
    return 0


if __name__ == "__main__":
    tool.run(main)
