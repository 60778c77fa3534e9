"""Tests of the folder of a house: what a house keeps, which folders it does not touch, and disks that fail."""

from __future__ import annotations

import itertools
import os
import re
import shutil
import stat
from collections.abc import Callable

from building.sources import ROOT
from cds import journals
from housing import renewing
from housing.program_tests import CREATED
from housing.tests import MADE, SAID, HouseTest, contents, octets_of, write

# A folder of version 1.
EARLIER = f"{ROOT}/tools/housing/earlier"
# The places of the version, and of the space after it, in a segment.
VERSION = (26, 27)
# What an altered record says otherwise: its number, its clock, and words of its text.
ALTERATIONS: dict[str, Callable[[bytes], bytes]] = {
    "the number": lambda body: body[:7] + bytes([body[7] ^ 1]) + body[8:],
    "the clock": lambda body: body[:8] + (9999).to_bytes(8, "big") + body[16:],
    "the line": lambda body: body.replace(b"lpr", b"lpq").replace(b" x\n", b" w\n"),
    "a space": lambda body: retold(body, body[journals.FIELDS :].replace(b" 1", b"  1", 1)),
    "the answer": lambda body: body.replace(b"@00000000000a", b"@00000000000b"),
    "a message": lambda body: body.replace(b"post 2 02", b"post 2 03"),
    "its receiver": lambda body: body.replace(b"post 2 02", b"post 3 02"),
    "no message": lambda body: retold(body, re.sub(b"post .*\n", b"", body[journals.FIELDS :])),
    "an image": lambda body: body[:16] + b"\1" + body[17:] + bytes(25),
    "a question": lambda body: retold(body, b"look 1 lpr A\nend 0\n"),
    "no line": lambda body: retold(body, b"\n"),
    "no record": lambda body: body[: journals.FIELDS + 1],
}


def retold(body: bytes, text: bytes) -> bytes:
    """The body of a record with another text."""
    return body[:17] + len(text).to_bytes(4, "big") + text


def is_damaged(path: str) -> bool:
    """Whether a reader of segments, which is no house, says so."""
    try:
        journals.Segment(path, 1)
    except journals.Damaged:
        return True
    return False


class OfFolders(HouseTest):
    """A house that starts from a folder."""

    def test_folders_that_are_none(self) -> None:
        assert self.ran(f"{self.room}/none") == ([], 9)
        write(f"{self.room}/file", b"text")
        assert self.ran(f"{self.room}/file") == ([], 9)
        assert contents(self.room) == {"file": b"text"}
        for octets in [b"", b"another file", bytes(100), b"\x01" * 100]:
            folder = self.folder("other")
            write(f"{folder}/1", octets)
            assert self.ran(folder) == ([], 9), octets
            assert contents(folder)["1"] == octets
            shutil.rmtree(folder)

    def test_segments_of_another_number(self) -> None:
        folder = self.made()
        os.rename(f"{folder}/1", f"{folder}/2")
        assert self.ran(folder) == ([], 9)
        os.rename(f"{folder}/2", f"{folder}/01")
        assert self.ran(folder)[0] == ["0 new"]

    def test_what_else_is_in_a_folder(self) -> None:
        """Names that are no number are passed over. What has a number, and is no file, is not read: nobody knows
        whether that would end."""
        folder = self.made()
        for name in [b"0", b"-1", b"+2", b"1 ", b"18446744073709551616", b"lpr", b"\xff\xfe"]:
            write(os.path.join(os.fsencode(folder), name), b"")
        assert self.last_said(folder) == CREATED
        os.mkfifo(f"{folder}/77")
        assert self.ran(folder) == ([], 9)
        os.remove(f"{folder}/77")
        os.makedirs(f"{folder}/77")
        assert self.ran(folder) == ([], 9)
        os.rmdir(f"{folder}/77")
        assert self.last_said(folder) == CREATED

    def test_no_segment_comes_after_the_greatest_number(self) -> None:
        """A start makes the next segment. There is none: status 7."""
        folder = self.made()
        bodies = journals.bodies_of(f"{folder}/1")
        os.remove(f"{folder}/1")
        for number, ending in [(journals.GREATEST, ([], 7)), (journals.GREATEST - 1, CREATED)]:
            write(f"{folder}/{number}", journals.sealed(number, bodies))
            before = contents(folder)
            said, status = self.ran(folder)
            assert (said[1:], status) == ending, (number, said, status)
            assert {name: octets for name, octets in contents(folder).items() if name in before} == before
            os.remove(f"{folder}/{number}")

    def test_files_are_of_their_owner_alone(self) -> None:
        before = os.umask(0)
        try:
            folder = self.made()
        finally:
            os.umask(before)
        assert {name: stat.S_IMODE(os.stat(f"{folder}/{name}").st_mode) for name in os.listdir(folder)} == {
            "1": 0o600,
            "lock": 0o600,
        }

    def test_a_start_syncs_what_it_reads(self) -> None:
        """A process died between opening a gate and its sync; the next one reads the record. Then a loss of power must
        not take it away."""
        folder = self.folder("h")
        variables = self.on_disk(folder, "5 0 0 0")
        assert self.ran(folder, MADE, env=variables) == (SAID, 0)
        octets = contents(folder)["1"]
        records, gate = journals.listed(octets)
        last = gate - len(records[-1]) - 9
        kept = f"{self.room}/disk/{os.stat(f'{folder}/1').st_ino}"
        with open(kept, "r+b") as file:
            assert file.read() == octets
            file.seek(last)
            file.write(b"\0")
        said, status = self.ran(folder, env=variables)
        assert (said[1:], status) == CREATED
        assert octets_of(kept) == octets

    def test_old_segments_are_not_needed(self) -> None:
        folder = self.made()
        self.ran(folder, ["create 1 b"])
        os.remove(f"{folder}/1")
        write(f"{folder}/new", b"\x01" * 100_000)
        assert self.last_said(folder) == (["0 last create 1 b", "0 ok 2@00000000000a"], 0)
        assert sorted(contents(folder)) == ["2", "3", "lock"]
        assert [record.kind for segment in journals.segments(folder) for record in segment.records] == [
            "start",
            "create",
            "start",
        ]

    def test_turns_have_no_image(self) -> None:
        folder = self.made()
        self.ran(folder, ["create 1 b"])
        found = [
            [(record.kind, record.image is not None) for record in segment.records]
            for segment in journals.segments(folder)
        ]
        due = [["new", "house", "root", "create"], ["start", "create"]]
        assert found == [[(kind, kind == "start") for kind in kinds] for kinds in due], found

    def test_disk_fails_or_is_full(self) -> None:
        folder = self.made()
        for words in ["0 1 0", "0 0 900"]:
            variables = self.on_disk(folder, f"5 {words}")
            said, status = self.ran(folder, ["create 1 b"], env=variables)
            assert (said, status) == ([], 8), (words, said, status)
        variables = self.on_disk(folder, "5 0 0 3000")
        said, status = self.ran(folder, [f"create 1 e{number}" for number in range(30)], env=variables)
        assert status == 8 and said[-1].split(" ")[1] == "ok", (said, status)
        assert self.ran(folder, env=variables) == ([], 8)
        done = int(said[-1].split(" ")[0])
        last = (self.last_said(folder))[0]
        assert last[0] in (f"0 last create 1 e{done - 1}", f"0 last create 1 e{done}"), (said, last)

    def test_damage(self) -> None:
        """A change of one octet of the last segment is damage. Of the last record's gate it is as if that had not been
        put; of the version in its head it is a segment of another version."""
        folder = self.made()
        path = f"{folder}/1"
        octets = octets_of(path)
        records, gate = journals.listed(octets)
        last = gate - len(records[-1]) - 9
        for at in range(len(octets)):
            write(path, octets[:at] + bytes([octets[at] ^ 1 << at % 8]) + octets[at + 1 :])
            said, status = self.ran(folder)
            if at in (last, gate) and status == 0:
                assert said[1:] == (CREATED[0] if at == gate else ["0 last root 2", "0 ok"]), (at, said)
                os.remove(f"{folder}/2")
            else:
                assert (said, status) == ([], 11 if at in VERSION else 9), (at, said, status)
            assert (status != 0) == is_damaged(path), at

    def test_an_octet_behind_a_record_that_is_not_put(self) -> None:
        """A crash in the first write of a put may leave all of the record, and any octet at its end. With a record
        behind it that is damage."""
        folder = self.made()
        path = f"{folder}/1"
        octets = octets_of(path)
        records, gate = journals.listed(octets)
        last = gate - len(records[-1]) - 9
        closed = octets[:last] + b"\0" + octets[last + 1 : gate]
        for end in [b"\0", b"\1", b"\2", b"\xff", b"", b"\1" + bytes(9)]:
            write(path, closed + end)
            is_whole = len(end) < 10
            assert self.last_said(folder) == ((["0 last root 2", "0 ok"], 0) if is_whole else ([], 9)), end
            assert is_damaged(path) != is_whole, end
            if is_whole:
                os.remove(f"{folder}/2")

    def test_a_folder_of_the_version_before(self) -> None:
        """A house does not touch it; `tools/houses --renew` writes a folder that it goes on from."""
        folder, renewed = f"{self.room}/h", f"{self.room}/renewed"
        shutil.copytree(EARLIER, folder)
        before = contents(folder)
        assert self.ran(folder) == ([], 11)
        assert contents(folder) == before | {"lock": b""}
        os.remove(f"{folder}/2")
        assert self.ran(folder) == ([], 11)
        assert renewing.renew(EARLIER, renewed) == "2 segments, 6 records, 1,214 octets"
        said, status = self.ran(renewed)
        assert (said, status) == (["0 house 1 00000000000a", "0 last skulk 1", "0 ok 8@00000000000a"], 0), said
        assert [record.number for record in journals.entries(renewed)] == [1, 2, 3, 4, 5, 6]

    def test_a_house_that_would_do_otherwise(self) -> None:
        """A record is another, and its sums are right: the next start does its line again, and ends with status 12."""
        folder, altered, count = self.made(), f"{self.room}/altered", 0
        lines = [
            "clock 500",
            "put 1 a A 01",
            "skulk 1",
            "create 1 lpr",
            "create 1 x",
            "clock 600",
            "delete 1 lpr",
            "create 1 lpr",
        ]
        assert self.ran(folder, lines)[1] == 0
        segment = journals.Segment(f"{folder}/2", 2)
        bodies = journals.bodies_of(segment.path)
        assert journals.sealed(2, bodies, segment.before) == octets_of(segment.path)
        for at, (name, alter) in itertools.product(range(1, len(bodies)), ALTERATIONS.items()):
            body = alter(bodies[at])
            if body == bodies[at]:
                continue
            shutil.copytree(folder, altered)
            write(f"{altered}/2", journals.sealed(2, [*bodies[:at], body, *bodies[at + 1 :]], segment.before))
            before = contents(altered)
            assert self.ran(altered) == ([], 12), (at, name)
            assert contents(altered) == before, (at, name)
            shutil.rmtree(altered)
            count += 1
        assert count > 40, count

    def test_a_fault_of_octets_behind_lines_of_a_disk_that_fails(self) -> None:
        """Nothing is answered that the journal has not."""
        failed = 0
        for seed in range(1, 150):
            folder = self.folder(f"h{seed}")
            variables = self.on_disk(folder, f"{seed * 7919} 0 60 0", f"disk{seed}")
            said, status = self.ran(folder, [*MADE, "create 1 b", "create 1 c", "\x01"], env=variables)
            assert status in (3, 8), (seed, status)
            failed += status == 8
            turns = [turn for segment in journals.segments(folder) for turn in segment.records if turn.kind != "new"]
            assert len([line for line in said if line.split(" ")[1] == "ok"]) <= len(turns), (seed, said)
            assert status == 8 or said[-1] == "6 fault NotAscii 1", (seed, said)
        assert 20 < failed < 130, failed
