"""Compares what a live cell answered with its journals: they are explained, and the replay of the script that
explains them has to answer each question that a house was asked as the house did, between the same two entries; and
each `import` and `read` that one house told between two of its entries as a whole. Each export that was answered `ok`
has to be in a journal."""
from __future__ import annotations

import collections
import json
import os
import re
import subprocess
from collections.abc import Iterator
from typing import Any

from doors.trials.clients import Told
from cds import journals
from cds.answers import answers_of
from housing import explaining

# A place in the journals: the house, and the number of the entry before.
Place = tuple[int, int]
# A line that the replay is asked, and what is compared: the kind, and the line and the answer of the live cell.
Due = tuple[str, str, list[str]]
WHOLE = ("import", "read", "readlink")


class Explainer(explaining.Explainer):
    """Explains journals, and asks the replay what the live cell was asked."""

    def __init__(self, houses: dict[int, list[journals.Record]], asked: dict[Place, list[explaining.Asked]]) -> None:
        super().__init__(houses, asked)
        self.dues: dict[int, Due] = {}

    def answer(self, house: int, item: explaining.Asked) -> None:
        words = item.words
        if words[0] in WHOLE:
            # (a clerk knows where the root directory is by a house, the replay by its console)
            epoch, _ = self.console.directories.get(1, (0, {}))
            self.due(f"dump {house} 1", ("root", str(epoch), []))
            self.due(" ".join(words), (f"whole {words[0]}", " ".join(words), item.answer))
        elif words[0] in ("dump", "status"):
            self.due(f"dump {house} {words[1]}", (words[0], " ".join(words), item.answer))
        elif words[0] == "show":
            self.due(f"dump {house} {words[2]}", ("show", f"{house} {' '.join(words)}", item.answer))

    def due(self, line: str, due: Due) -> None:
        self.say(line)
        self.dues[len(self.script)] = due


def status_of(dump: list[str]) -> list[str]:
    """The words of a `status` that a dump has, without the skulk."""
    words = dump[0].split(" ")
    entries = sum(line.startswith("entry ") for line in dump)
    return [*words[1:5], "entries", str(entries), *words[5:]]


def shown(dump: list[str], high: bool, house: str, name: str) -> list[str]:
    """What a `show` answers by a dump, but for its last line."""
    master = next((word.split(":")[0] for word in dump[0].split(" ") if word.endswith(":m")), "")
    if high and master != house:
        return ["refused NotMaster"]
    kind, attribute, found, lead = "", "", [], ""
    is_mine = False
    for words in (line.split(" ") for line in dump[1:-1]):
        if words[0] == "entry":
            is_mine = words[1] == name and words[4] == "live"
            kind = words[2] if is_mine else kind
        elif is_mine and words[0] == "attr":
            attribute = words[1]
        elif is_mine and words[2] == "present":
            found += [f"attr {attribute}"] if f"attr {attribute}" not in found else []
            found.append(f"value {words[1]}")
            lead = words[1] if attribute in ("CDS_Replicas", "CDS_LinkTarget") else lead
    if not kind:
        return ["refused NoSuchEntry"]
    octets = bytes.fromhex(lead)
    where: list[str] = []
    if kind == "child":
        where = [str(int.from_bytes(octets[:4], "big")), *map(str, octets[5:])]
    elif kind == "link":
        where = [octets.decode("latin-1")]
    return [" ".join([kind, *where]), *found]


def differs(due: Due, got: list[str]) -> bool:
    """Whether the replay says otherwise than the live cell did."""
    kind, line, answer = due
    if kind == "dump" or kind.startswith("whole"):
        return got != (["refused NoReplica"] if kind == "dump" and answer == ["refused NoHouse"] else answer)
    if got[-1].startswith("refused"):
        return answer[-1] not in ("refused NoReplica", "refused NoHouse")
    words = line.split(" ")
    if kind == "show":
        told = answer if answer[-1].startswith("refused") else answer[:-1]
        return shown(got, words[2] == "high", words[0], words[4]) != told
    own = answer[-1].split(" ")
    at = own.index("skulk") if "skulk" in own else len(own)
    return ["ok", *status_of(got)] != [*own[:at], *own[at + 2 :]]


class Comparison:
    """`folder` is that of a trial: hN of each house, mN/trace of each door."""

    def __init__(self, folder: str, houses: list[int], plain: str) -> None:
        self.folder, self.plain = folder, plain
        self.counts: collections.Counter[str] = collections.Counter()
        self.differences: list[str] = []
        self.houses = {house: journals.entries(f"{folder}/h{house}") for house in houses}
        # The entry with which each segment begins.
        self.first: dict[tuple[int, int], int] = {}
        for house in houses:
            for segment in journals.segments(f"{folder}/h{house}"):
                self.first[house, segment.number] = segment.records[0].number
        self.asked: dict[Place, list[explaining.Asked]] = collections.defaultdict(list)

    def traces(self) -> Iterator[list[Any]]:
        for name in sorted(os.listdir(self.folder)):
            path = f"{self.folder}/{name}/trace"
            if os.path.exists(path):
                with open(path, encoding="ascii") as file:
                    # (a door that was killed may leave a part of a line)
                    yield from (json.loads(line) for line in file if line.endswith("]\n"))

    def place(self, house: int, segment: int, turns: int) -> Place:
        return house, self.first[house, segment] + turns

    def read(self) -> None:
        for record in self.traces():
            if record[0] == "command":
                self.read_command(record)
            else:
                _, house, segment, turns, line, told = record
                at = self.place(house, segment, turns)
                if line.startswith(("show", "status", "dump")) and at[1] > 0 and not told[-1].startswith("fault"):
                    self.asked[at].append(explaining.Asked(line, told))

    def read_command(self, record: list[Any]) -> None:
        """A command counts as a whole if one house told all that shows, between two of its entries."""
        _, _, _, line, asked, told = record
        words = line.split()
        moments = {tuple(each[:3]) for each in asked if each[3].startswith(("show", "dump"))}
        is_missed = any(text.startswith(("unreached", "refused Unreachable")) for text in told)
        if is_missed or not all(each[1] for each in asked):
            self.counts["commands that did not reach a house"] += 1
        elif words[0] not in WHOLE or len(moments) != 1:
            self.counts["commands of several moments"] += 1
        else:
            house, segment, turns = next(iter(moments))
            at = self.place(house, segment, turns)
            self.asked[at].append(explaining.Asked(f"{words[0]} {at[0]} {' '.join(words[1:])}", told))

    def compare(self) -> None:
        explainer = Explainer(self.houses, self.asked)
        explainer.run()
        text = "".join(f"{line}\n" for line, _ in explainer.script)
        ran = subprocess.run([self.plain, "run"], input=text.encode(), capture_output=True, check=False)
        answers = answers_of(ran.stdout)
        if ran.returncode:
            self.differences.append(f"the replay ends with status {ran.returncode}")
        is_same_root = True
        for number, (line, due) in enumerate(explainer.script, 1):
            got = answers.get(number, [""])
            asked = explainer.dues.get(number)
            if not asked:
                is_other = due is not None and got != due
                self.count("answers of journals", is_other, f"{line}: {got[:3]}, due is {due and due[:3]}")
            elif asked[0] == "root":
                is_same_root = got[0].split(" ")[2:3] == [asked[1]]
            elif asked[0].startswith("whole") and not is_same_root:
                self.counts["commands over an older root"] += 1
            else:
                self.count(asked[0], differs(asked, got), f"{asked[1]}: {asked[2][:4]}, the replay has {got[:4]}")

    def count(self, kind: str, is_other: bool, said: str) -> None:
        self.counts[kind] += 1
        if is_other:
            self.differences.append(f"{kind}: {said[:600]}")

    def compare_exports(self, told: list[Told]) -> None:
        """Each export that was answered `ok` is in a journal, and none that was refused without a doubt."""
        ends = collections.defaultdict(set)
        for words in (entry.line.split(" ") for own in self.houses.values() for entry in own):
            if words[0] == "add":
                ends[words[2]].add(words[4][-len(tower_end("0.0.0.0", 0)) :])
        for each in told:
            found = re.fullmatch(r"export /.:/print/(s\d+) \S+ ncacn_ip_tcp:([\d.]+)\[(\d+)\] -", each.line)
            is_kept = found is not None and tower_end(found[2], int(found[3])) in ends[found[1]]
            if found and each.answer[-1].startswith("ok"):
                self.count("exports that were answered ok", not is_kept, f"{each.line}: it is in no journal")
            elif found and each.answer[-1].startswith("refused") and not each.answer[-1].endswith("doubt"):
                self.count(
                    "exports that were refused", is_kept, f"{each.line}: {each.answer[-1]}, and it is in a journal"
                )


def tower_end(host: str, port: int) -> str:
    """The last octets of a tower, which have its port and its host."""
    return f"0200{port:04x}0100090400{bytes(map(int, host.split('.'))).hex()}"
