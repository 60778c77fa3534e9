"""Tests of lines over descriptors, and of the loop."""
from __future__ import annotations

import socket
import time
import unittest

from doors.loops import Loop
from doors.streams import Lines


class StreamsTest(unittest.TestCase):
    """Lines come whole, in their order, and not too long."""

    def setUp(self) -> None:
        self.loop = Loop()
        self.other, own = socket.socketpair()
        self.addCleanup(self.other.close)
        self.found: list[str | None] = []
        self.ends = 0
        fd = own.detach()
        self.lines = Lines(self.loop, fd, fd, self.found.append, self.ended, longest=8)

    def tearDown(self) -> None:
        self.lines.close()

    def ended(self) -> None:
        self.ends += 1

    def wait(self, count: int) -> None:
        self.assertTrue(self.loop.run_until(lambda: len(self.found) >= count, 5))

    def test_lines_in_parts(self) -> None:
        self.other.sendall(b"one\ntw")
        self.wait(1)
        self.other.sendall(b"o\n\n")
        self.wait(3)
        self.assertEqual(self.found, ["one", "two", ""])

    def test_a_long_line_is_none_and_the_next_one_is_read(self) -> None:
        self.other.sendall(b"123456789\nshort\n")
        self.wait(2)
        for part in (b"x" * 20, b"y" * 20, b"z\n12345678\n"):
            self.other.sendall(part)
            self.loop.once(0.1)
        self.wait(4)
        self.assertEqual(self.found, [None, "short", None, "12345678"])

    def test_the_end(self) -> None:
        self.other.sendall(b"last\nwithout its end")
        self.other.shutdown(socket.SHUT_WR)
        self.loop.run_until(lambda: self.ends > 0, 5)
        self.assertEqual((self.found, self.ends, self.lines.is_open), (["last"], 1, False))

    def test_what_is_sent_comes_though_nobody_reads_at_first(self) -> None:
        text = "x" * 99 + "\n"
        for _ in range(20_000):
            self.lines.send(text)
        for _ in range(5):
            self.loop.once(0.01)
        taken = 0
        self.other.settimeout(5)
        while taken < 2_000_000:
            taken += len(self.other.recv(1 << 16))
            self.loop.once(0.0)
        self.assertEqual((taken, len(self.lines.given)), (2_000_000, 0))

    def test_a_pause(self) -> None:
        self.lines.pause()
        self.other.sendall(b"a\n")
        self.loop.once(0.05)
        self.assertEqual(self.found, [])
        self.lines.go_on()
        self.wait(1)

    def test_times_come_in_their_order(self) -> None:
        done: list[str] = []
        began = time.monotonic()
        self.loop.after(0.04, lambda: done.append("late"))
        self.loop.after(0.01, lambda: done.append("early"))
        self.assertTrue(self.loop.run_until(lambda: len(done) == 2, 5))
        self.assertEqual(done, ["early", "late"])
        self.assertGreaterEqual(time.monotonic() - began, 0.04)


if __name__ == "__main__":
    unittest.main()
