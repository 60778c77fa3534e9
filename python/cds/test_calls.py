"""Tests of the calls in Python: `python3 -m unittest cds.test_calls` in the folder above, with CDS_LIBRARY if the
library is elsewhere."""

from __future__ import annotations

import threading
import unittest

import cds

SCRIPT = b"house 1 00000000000a\nroot 1\n"
ANSWERS = b"1 ok\n2 ok\n"


class Calls(unittest.TestCase):
    """What calls answer."""

    def test_answers(self) -> None:
        """All that a form says."""
        self.assertEqual(cds.run("run", SCRIPT), ANSWERS)
        self.assertEqual(cds.run("  check ", SCRIPT), b"ok 2 2\n")

    def test_nothing(self) -> None:
        """Of an empty input there is an empty text."""
        self.assertEqual(cds.run("run", b""), b"")

    def test_no_form(self) -> None:
        """Words that name no form, among them such that are no text, and more than one octet."""
        for words in ("", "walk", "run run", "audit", "audit 0", "clerk 1001", "run\0", "grüße", "r" * 5000):
            with self.assertRaises(cds.Usage) as caught:
                cds.run(words, SCRIPT)
            self.assertEqual((caught.exception.status, caught.exception.text), (2, b""))
        self.assertEqual(cds.library().call(b"\xff\xfe", SCRIPT, 10), (2, 0, b""))

    def test_faults(self) -> None:
        """A line at fault ends the answers, whichever octet is in it."""
        for octet in range(256):
            if not 0x20 <= octet < 0x7F and octet != 0x0A:
                with self.assertRaises(cds.BadInput) as caught:
                    cds.run("run", SCRIPT + bytes([octet]) + b"\n")
                self.assertEqual(caught.exception.text, ANSWERS + b"3 fault NotAscii 1\n")
                self.assertEqual(caught.exception.status, 3)

    def test_room(self) -> None:
        """A room that is too small gets a front of the text, and is told how long all of it is."""
        found = cds.library()
        for room in range(len(ANSWERS)):
            self.assertEqual(found.call(b"run", SCRIPT, room), (5, len(ANSWERS), ANSWERS[:room]))
            self.assertEqual(found.run("run", SCRIPT, room), ANSWERS)
        self.assertEqual(found.call(b"run", SCRIPT, len(ANSWERS)), (0, len(ANSWERS), ANSWERS))

    def test_room_of_a_fault(self) -> None:
        """Room that is too small is told before a fault; with room enough the fault is told."""
        found, text = cds.library(), ANSWERS + b"3 fault NoLineEnd 3\n"
        self.assertEqual(found.call(b"run", SCRIPT + b"ab", 3), (5, len(text), text[:3]))
        self.assertEqual(found.call(b"run", SCRIPT + b"ab", 100), (3, len(text), text))

    def test_much(self) -> None:
        """More octets than the first room has."""
        lines = b"".join(b"# %d\n" % it for it in range(20000))
        self.assertEqual(cds.run("run", lines), b"")
        text = cds.run("run", SCRIPT * 1 + b"house 2 00000000000b\n" + b"read 1 . \n" * 0 + b"root 1\n" * 20000)
        self.assertEqual(text.count(b"\n"), 20003)

    def test_seventeen_million(self) -> None:
        """More octets than a form reads that reads its input whole."""
        with self.assertRaises(cds.BadInput) as caught:
            cds.run("audit 1", bytes(17 << 20))
        self.assertEqual(caught.exception.text, b"1 fault TooLong 16777217\n")

    def test_threads(self) -> None:
        """Threads call at once."""
        texts: list[bytes] = []
        threads = [threading.Thread(target=lambda: texts.append(cds.run("load 50", b""))) for _ in range(8)]
        for it in threads:
            it.start()
        for it in threads:
            it.join()
        self.assertEqual(texts, [cds.run("load 50", b"")] * 8)

    def test_other_number(self) -> None:
        """A library of another number, or none, is refused."""
        with self.assertRaises(OSError):
            cds.Library("/nowhere/libcds.so")


if __name__ == "__main__":
    unittest.main()
