"""Tests of the segments of a house: when one is changed for the next one, and what is kept over the change."""

from __future__ import annotations

import collections
import os
import shutil
import signal
import time

from cds import journals
from cds.processes import Process, take_lines
from housing.net import Message
from housing.tests import HouseTest, octets_of

# Once its records have so many octets, and so many times those that it begins with, a segment is changed for the next
# one.
LARGE, TIMES = 4_194_304, 3
# What the file has besides for each record: a gate, and the record's length.
FRAME = 9


def octets_in(path: str) -> int:
    """How many octets the records of a segment have."""
    return sum(map(len, journals.listed(octets_of(path))[0]))


def first_octets(path: str) -> int:
    """The octets of a segment up to the gate after its first record that is no head."""
    found, _ = journals.listed(octets_of(path))
    return sum(len(record) + FRAME for record in found[:2]) + 1


class Skulking:
    """A skulk of house 1 with houses 2 and 3, step by step at its master: it begins, both gather, and both have the
    news."""

    STEPS = 5

    def __init__(self, program: str, room: str) -> None:
        self.folders = [f"{room}/h{house}" for house in (1, 2, 3)]
        for folder in self.folders:
            os.makedirs(folder)
        self.houses = [Process(program, folder) for folder in self.folders]
        self.number = 0
        for number, house in enumerate(self.houses, 1):
            house.answer()
            self.does(house, f"house {number} {number:012x}")
        self.master = self.houses[0]
        self.waiting = self.does(self.master, "root s2 3")
        self.deliver_to_others()
        self.does(self.master, "create 1 lpr")

    def does(self, house: Process, *lines: str) -> list[Message]:
        """The messages that a house posts at these lines."""
        for line in lines:
            house.send([line])
            assert (house.answer() or [""])[-1].startswith("ok"), line
        return house.fetched()

    def deliver_to_others(self) -> None:
        """Delivers what the master posted last. What that posts waits."""
        posts = [self.does(self.houses[to - 1], *take_lines(octets)) for to, octets in self.waiting]
        self.waiting = [post for own in posts for post in own]

    def segment(self) -> str:
        """The last segment of the master."""
        return f"{self.folders[0]}/{journals.numbers(self.folders[0])[-1]}"

    def put(self, size: int) -> int:
        """An update with a value of so many octets, of which nobody is told. How many octets its record has."""
        before = os.path.getsize(self.segment())
        self.does(self.master, f"put 1 lpr A {'00' * size}")
        return os.path.getsize(self.segment()) - before - FRAME

    def fill(self) -> None:
        """Updates, until the next turn fills the segment."""
        left = LARGE - octets_in(self.segment())
        own = self.put(1000)
        while (left := left - own) > own * 3 // 2:
            own = self.put(1000)
        # (a value is in its line, and in a message to each of two houses)
        size = 1000 - (own - left // 2) // 6 - 1
        left -= self.put(size) + self.put(size)
        assert 0 < left < 20, left
        self.number = journals.numbers(self.folders[0])[-1]

    def step(self, number: int) -> None:
        """Takes this step of the skulk."""
        if number == 0:
            self.waiting = self.does(self.master, "skulk 1")
            return
        if number in (1, 3):
            self.deliver_to_others()
        posts = self.does(self.master, *take_lines(self.waiting.pop(0)[1]))
        self.waiting += posts

    def begins_a_segment(self) -> None:
        """Waits for the next segment: a house begins it after its answer."""
        last = time.monotonic() + 60
        while journals.numbers(self.folders[0])[-1] == self.number:
            assert time.monotonic() < last
            time.sleep(0.001)


class OfSegments(HouseTest):
    """A house whose segment becomes large."""

    def test_a_large_segment_is_changed_for_the_next_one(self) -> None:
        """Of a small house at LARGE octets; of one whose image is larger, at TIMES of those that the segment begins
        with."""
        folder = self.made()
        lines = [f"put 1 a A {number:02048x}" for number in range(1100)]
        said, status = self.ran(folder, lines)
        assert (said[-1], status) == ("1100 ok 1101@00000000000a", 0), said[-1]
        assert LARGE <= octets_in(f"{folder}/2") < LARGE + 4_000
        lines = [f"add 1 a B {number:02048x}" for number in range(1400)]
        said, status = self.ran(folder, lines)
        assert (said[-1], status) == ("1400 ok 2501@00000000000a", 0), said[-1]
        said, status = self.ran(folder, [f"put 1 a A {number:02048x}" for number in range(1000)])
        first = first_octets(f"{folder}/6")
        assert first > LARGE / TIMES and TIMES * first <= octets_in(f"{folder}/6") < TIMES * first + 10_000, first
        firsts = [segment.records[0].kind for segment in journals.segments(folder)]
        assert firsts == ["new", "start", "segment", "start", "segment", "start", "segment"], firsts
        assert [record.number for record in journals.entries(folder)] == list(range(1, 3507))
        assert self.last_said(folder) == ([f"0 last put 1 a A {999:02048x}", "0 ok 3501@00000000000a"], 0)

    def test_the_power_is_lost_while_a_segment_is_changed(self) -> None:
        """In each call of a change, and in those around it: what was answered is kept, and the house goes on."""
        folder, found = self.folder("h"), collections.Counter[str]()
        # (of 64 members each turn posts 63 messages, so that some thirty turns fill a segment)
        lines = [
            "root " + " ".join(map(str, range(2, 65))),
            "create 1 a",
            *(f"put 1 a A {number:02048x}" for number in range(40)),
        ]
        assert self.ran(folder, ["house 1 00000000000a"]) == (["0 new", "1 ok"], 0)
        whole = shutil.copytree(folder, f"{self.room}/whole")
        assert self.ran(whole, lines)[1] == 0
        segments = list(journals.segments(whole))
        assert [segment.records[0].kind for segment in segments] == ["new", "start", "segment"]
        before_change = 4 * len(segments[1].records)
        # (a start makes some 17 calls, and the change 15: the next segment has its name after these)
        for call in range(before_change + 10, before_change + 46):
            own = shutil.copytree(folder, f"{self.room}/own")
            said, status = self.ran(own, lines, env=self.on_disk(own, f"{call * 7919} 0 0 0 {call}"))
            assert status == -signal.SIGABRT, (call, status)
            again, status = self.ran(own)
            able = (said[-1].split(" ", 1)[1], f"ok {len(said) - 3}@00000000000a")
            assert status == 0 and again[-1].split(" ", 1)[1] in able, (call, said[-1], again)
            found[[segment.records[0].kind for segment in journals.segments(own)][2]] += 1
            shutil.rmtree(own)
            shutil.rmtree(f"{self.room}/disk")
        assert found["start"] > 5 and found["segment"] > 5, found

    def test_skulks_that_run_where_a_segment_begins(self) -> None:
        """The next segment begins after each step of a skulk; after its last one the master is killed, and does the
        others again."""
        rounds = []
        for filled in range(Skulking.STEPS):
            skulk = Skulking(self.kit.house, f"{self.room}/{filled}")
            for number in range(Skulking.STEPS):
                if number == filled:
                    skulk.fill()
                skulk.step(number)
            skulk.begins_a_segment()
            for house in skulk.houses:
                house.kill()
                house.drained()
            segment = journals.Segment(skulk.segment(), skulk.number + 1)
            rounds.append([" ".join(line.split(" ")[3:]) for line in segment.records[0].running])
            assert len(segment.records) == Skulking.STEPS - filled, (filled, len(segment.records))
            said, status = self.ran(skulk.folders[0])
            assert (said[1], said[-1].split(" ")[:3], status) == ("0 last take", ["0", "ok", "complete"], 0), (
                filled,
                said,
                status,
            )
        assert rounds == [["gather 1"], ["gather 3"], ["spread 1"], ["spread 3"], []], rounds
