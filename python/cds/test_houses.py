"""Tests of a house in Python: `python3 -m unittest cds.test_houses` in the folder above, with CDS_LIBRARY if the
library is elsewhere."""

from __future__ import annotations

import ctypes
import threading
import unittest

import cds
from cds.houses import Handle, house_calls

# The lines of docs/HOUSE.md without a second member, and what is said of each.
LINES = [
    (b"house 1 00000000000a", b"1 ok\n"),
    (b"root", b"2 ok\n"),
    (b"create 1 lpr", b"3 ok 1@00000000000a\n"),
    (b"create 1 lpr", b"4 refused EntryExists\n"),
    (b"crete 1 lpr", b"5 fault UnknownCommand 1\n"),
]
AGAIN = b"0 house 1 00000000000a\n0 last create 1 lpr\n0 ok 1@00000000000a\n"


def keep(reply: cds.Reply, records: list[bytes]) -> bytes:
    """Keeps a record in a list, and gives the text."""
    if reply.record is not None:
        records.append(reply.record)
    return reply.kept()


class Houses(unittest.TestCase):
    """What a house says, and how calls out of order end."""

    def example(self, house: cds.House) -> list[bytes]:
        """The records of the example, whose texts are compared."""
        records: list[bytes] = []
        self.assertEqual(keep(house.start(), records), b"0 new\n")
        for line, text in LINES:
            self.assertEqual(keep(house.line(line), records), text)
        return records

    def test_a_house_goes_on_from_its_records(self) -> None:
        """Opened again it says its last turn; a next segment begins anew."""
        with cds.House() as house:
            records = self.example(house)
        self.assertEqual(len(records), 4)
        with cds.House(records) as house:
            later: list[bytes] = []
            self.assertEqual(keep(house.start(), later), AGAIN)
            last: list[bytes] = []
            self.assertEqual(keep(house.next_segment(), last), b"")
            self.assertEqual(keep(house.line(b"delete 1 lpr"), last), b"1 ok 2@00000000000a\n")
        for kept in (later, last):
            with cds.House(kept) as house:
                self.assertIn(b"0 house 1 00000000000a\n", keep(house.start(), []))

    def test_order(self) -> None:
        """A call out of order is not done, and changes nothing."""
        with cds.House() as house:
            for call in (lambda: house.line(b"root"), house.next_segment, house.text):
                self.assertRaises(cds.NotStarted, call)
            self.assertRaises(cds.NoneWaits, house.kept)
            reply = house.start()
            for call in (lambda: house.line(b"root"), house.next_segment, house.text):
                self.assertRaises(cds.NotKept, call)
            self.assertRaises(cds.Started, house.start)
            self.assertEqual(reply.kept(), b"0 new\n")
            self.assertEqual(reply.kept(), b"0 new\n")
            self.assertRaises(cds.NoneWaits, house.kept)
            self.assertEqual(house.text(), b"0 new\n")

    def test_every_octet(self) -> None:
        """A line of any octet but 20 to 7E is refused, and not counted."""
        with cds.House() as house:
            house.start().kept()
            for octet in range(256):
                if not 0x20 <= octet < 0x7F:
                    self.assertRaises(cds.BadLine, house.line, b"root" + bytes([octet]))
            self.assertRaises(cds.BadLine, house.line, b" " * 4081)
            self.assertEqual(house.line(b" " * 4080).kept(), b"")
            self.assertEqual(house.line(b"root").kept(), b"2 refused NoHouse\n")

    def test_other_records(self) -> None:
        """Octets that are no record, or not the next one."""
        self.assertRaises(cds.NoRecord, cds.House, [b""])
        self.assertRaises(cds.NoRecord, cds.House, [b"no record of a house"])
        with cds.House() as house:
            records = self.example(house)
        self.assertRaises(cds.NoRecord, cds.House, [*records, records[-1]])

    def test_spent(self) -> None:
        """After a record that is not the next one each call is refused."""
        with cds.House() as house:
            records = self.example(house)
        with cds.House(records) as house:
            self.assertRaises(cds.NoRecord, house._call, "redo", b"", 0)  # pylint: disable=protected-access
            for call in (lambda: house.line(b"root"), house.start, house.next_segment, house.text):
                self.assertRaises(cds.Spent, call)

    def test_much(self) -> None:
        """A message of 17 MB is refused by the house, and long texts come whole."""
        with cds.House() as house:
            self.example(house)
            piece = b"more " + b"00" * 2000
            said = [house.line(piece).kept() for _ in range(8389)]
            self.assertTrue(said[8387].endswith(b" ok\n") and said[8388].endswith(b" refused TooLong\n"))
            for at in range(200):
                house.line(b"create 1 e%d" % at).kept()
            self.assertGreater(len(house.line(b"dump 1").kept()), 8192)

    def test_handles(self) -> None:
        """An empty handle, a second house in one handle, and a second free."""
        calls, handle = house_calls(cds.library()), Handle()
        length, out = ctypes.c_size_t(9), ctypes.create_string_buffer(10)
        with_octets = {"open": (b"", 0), "redo": (b"", 0), "line": (b"", 0)}
        with_room = {it: (out, 10, ctypes.byref(length)) for it in ("record", "text")}
        words: dict[str, tuple[object, ...]] = {**with_octets, **with_room}
        for name in ("redo", "start", "line", "next_segment", "record", "kept", "text", "free"):
            code = getattr(calls, f"cds_house_{name}")(ctypes.byref(handle), *words.get(name, ()))
            self.assertEqual((code, handle.state), (16, None))
        self.assertEqual(calls.cds_house_new(ctypes.byref(handle)), 0)
        state = handle.state
        self.assertEqual(calls.cds_house_new(ctypes.byref(handle)), 17)
        self.assertEqual(calls.cds_house_open(ctypes.byref(handle), b"", 0), 17)
        self.assertEqual(handle.state is None, state is None)
        self.assertEqual(calls.cds_house_free(ctypes.byref(handle)), 0)
        self.assertEqual((calls.cds_house_free(ctypes.byref(handle)), handle.state), (16, None))

    def test_room(self) -> None:
        """Room that is too small gets a front, and is told how long all of it is."""
        calls, handle = house_calls(cds.library()), Handle()
        self.assertEqual(calls.cds_house_new(ctypes.byref(handle)) + calls.cds_house_start(ctypes.byref(handle)), 0)
        self.assertEqual(calls.cds_house_kept(ctypes.byref(handle)), 0)
        for room in range(8):
            length, out = ctypes.c_size_t(99), ctypes.create_string_buffer(b"\xaa" * 8, 8)
            code = calls.cds_house_text(ctypes.byref(handle), out, room, ctypes.byref(length))
            self.assertEqual((code, length.value), (5 if room < 6 else 0, 6))
            self.assertEqual(out.raw, b"0 new\n"[:room] + b"\xaa" * (8 - min(room, 6)))
        calls.cds_house_free(ctypes.byref(handle))

    def test_threads(self) -> None:
        """Another thread may not call."""
        failures: list[str] = []

        def ask(house: cds.House) -> None:
            try:
                house.text()
            except RuntimeError as error:
                failures.append(str(error))

        with cds.House() as house:
            thread = threading.Thread(target=ask, args=(house,))
            thread.start()
            thread.join()
        self.assertEqual(len(failures), 1)

    def test_closed(self) -> None:
        """A house that was closed answers nothing, and is closed again."""
        house = cds.House()
        house.close()
        house.close()
        self.assertRaises(cds.Empty, house.start)


if __name__ == "__main__":
    unittest.main()
