"""Tests of the reader of folders: segments that are made here, whole or with one thing altered."""

from __future__ import annotations

import os
import tempfile
import unittest

from cds import journals
from cds.journals import GREATEST, NO_SUM, SUM, Damaged, body, chained, entries, front, listed, numbers, segments, shown

LINES = [["new"], ["house 1 00000000000a", "ok"], ["root 2", "post 2 0207", "ok"]]
MADE = [body(number, 0, lines, None) for number, lines in enumerate(LINES)]


class OfFolders(unittest.TestCase):
    """A folder of two segments, of which the second one begins with a start."""

    def setUp(self) -> None:
        place = tempfile.TemporaryDirectory()
        self.addCleanup(place.cleanup)
        self.folder = place.name
        first = b"".join(chained(1, NO_SUM, MADE))
        self.sum = first[-SUM - 1 : -1]
        self.write(1, first)
        self.second([body(3, 0, ["start", *LINES[2]], b"image"), body(4, 7, ["create 1 a", "ok 7@00000000000a"], None)])

    def second(self, bodies: list[bytes], before: bytes | None = None) -> None:
        """Writes the second segment."""
        self.write(2, b"".join(chained(2, self.sum if before is None else before, bodies)))

    def write(self, number: int, octets: bytes) -> None:
        with open(f"{self.folder}/{number}", "wb") as it:
            it.write(octets)

    def octets(self, number: int) -> bytes:
        with open(f"{self.folder}/{number}", "rb") as it:
            return it.read()

    def fault(self) -> str:
        """What is wrong with the folder, without its path."""
        return str(front(self.folder)[1]).removeprefix(f"{self.folder}/")

    def test_entries(self) -> None:
        found = entries(self.folder)
        self.assertEqual(
            [(it.number, it.clock, it.kind) for it in found],
            [(1, 0, "house"), (2, 0, "root"), (3, 0, "start"), (4, 7, "create")],
        )
        self.assertEqual([it.line for it in found], ["house 1 00000000000a", "root 2", "root 2", "create 1 a"])
        self.assertEqual((found[2].posts, found[2].answer, found[2].image), ([(2, "0207")], "ok", b"image"))

    def test_what_is_shown(self) -> None:
        found = list(shown(self.folder))
        self.assertEqual(found[:3], [f"segment 1 after {'0' * 64}", "0 clock 0 no image", "  new"])
        self.assertIn("3 clock 0 image 5", found)
        self.assertEqual(found[-2:], ["  ok 7@00000000000a", f"sum {self.octets(2)[-SUM - 1 : -1].hex()}"])

    def test_records_end_at_a_gate_that_is_not_open(self) -> None:
        octets = self.octets(1)
        found, gate = listed(octets)
        self.assertEqual(([it[:-SUM] for it in found[1:]], gate), (MADE, len(octets) - 1))
        self.assertEqual(listed(octets[:-1])[0], found[:-1])
        for end in (b"\2", b"\1" + bytes(8), b"\1" + (9).to_bytes(8, "big") + bytes(9)):
            self.assertEqual(listed(octets[:-1] + end), (found, gate))
        self.assertEqual(listed(b""), ([], 0))

    def test_names_that_are_no_numbers(self) -> None:
        for name in ("0", "01", str(GREATEST + 1), "lpr", "lock"):
            with open(f"{self.folder}/{name}", "wb"):
                pass
        self.assertEqual(numbers(self.folder), [1, 2])

    def test_another_octet(self) -> None:
        octets = self.octets(2)
        records, _ = listed(octets)
        place = len(octets) - 2 - SUM
        self.write(2, octets[:place] + b"?" + octets[place + 1 :])
        self.assertEqual(self.fault(), f"2 record {len(records) - 1}: the sum is another")
        self.assertEqual(len(front(self.folder)[0]), 3)

    def test_another_segment_before(self) -> None:
        self.second([body(3, 0, ["start", *LINES[2]], b"image")], before=NO_SUM)
        self.assertEqual(self.fault(), "2: does not follow the segment before")

    def test_a_missing_segment(self) -> None:
        os.rename(f"{self.folder}/2", f"{self.folder}/3")
        self.assertEqual(str(front(self.folder)[1]), f"{self.folder}: segment 2 is missing")

    def test_another_turn_is_repeated(self) -> None:
        self.second([body(3, 0, ["start", *LINES[1]], b"image")])
        self.assertEqual(self.fault(), "2 record 1: repeats another turn than the last one")

    def test_an_entry_is_left_out(self) -> None:
        self.second([body(3, 0, ["start", *LINES[2]], b"image"), body(5, 0, ["create 1 a", "ok 1@00000000000a"], None)])
        self.assertEqual(self.fault(), "2 record 2: entry 5 where 4 is due")

    def test_another_version(self) -> None:
        octets = self.octets(1)
        self.write(1, octets.replace(b"cdshouse journal 2", b"cdshouse journal 1"))
        with self.assertRaisesRegex(Damaged, "of version 1"):
            list(segments(self.folder))

    def test_a_record_that_is_not_whole(self) -> None:
        self.write(2, self.octets(2)[:-1] + b"\1")
        self.assertEqual(self.fault(), "2: record 3 is not whole")
        self.assertEqual(len(front(self.folder)[0]), 4)

    def test_a_gate_that_is_closed(self) -> None:
        octets = self.octets(2)
        records, gate = listed(octets)
        last = gate - len(records[-1]) - 9
        self.write(2, octets[:last] + b"\0" + octets[last + 1 :])
        self.assertEqual(len(entries(self.folder)), 3)
        self.write(2, octets[:last] + b"\0" + octets[last + 1 : -1] + b"\1" + bytes(9))
        self.assertEqual(self.fault(), "2: the gate of record 2 is closed")

    def test_a_segment_in_the_middle_of_a_process(self) -> None:
        running = ["running 1 3@00000000000a gather 2"]
        record = journals.Record("", body(2, 0, ["segment 2", *running, *LINES[2]], b"image"))
        self.assertEqual((record.kind, record.running, record.turn), ("segment", running, LINES[2]))
        self.assertTrue(record.is_first)


if __name__ == "__main__":
    unittest.main()
