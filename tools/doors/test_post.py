"""Tests of messages on their way, and of skulks, over houses that this test plays."""
from __future__ import annotations

import collections
import unittest

from doors import post
from doors.played import Played
from doors.skulks import Skulks
from doors.test_lines import MESSAGE

STATE = "ok epoch 1 allupto none skulk none entries 0 members 1:1:m 2:1:r"


class PostTest(unittest.TestCase):
    """A message stays until its house answered it."""

    def setUp(self) -> None:
        self.house = Played(2)
        self.counts: collections.Counter[str] = collections.Counter()
        self.log: list[str] = []
        self.marked: list[str] = []
        self.post = post.Post({2: self.house}, self.counts, self.log.append, self.marked.append)

    def test_one_at_a_time_in_their_order(self) -> None:
        for octets in ("0a", "0b"):
            self.post.post(2, octets)
        self.assertEqual(self.house.answer("ok taken"), "take 0a")
        self.assertEqual((self.house.answer("ok late 2 1"), self.house.asked), ("take 0b", []))
        self.assertEqual((self.counts["ok-taken"], self.counts["ok-late"], self.counts["posted"]), (1, 1, 2))

    def test_a_house_that_is_down_gets_it_later(self) -> None:
        self.house.is_up = False
        self.post.post(2, "0a")
        self.assertEqual(self.house.asked, [])
        self.house.is_up = True
        self.post.deliver_all()
        self.assertEqual(self.house.answer(), "take 0a")
        self.assertEqual((len(self.post.waiting[2]), self.house.asked), (1, []))
        self.post.deliver_all()
        self.assertEqual((self.house.answer("ok taken"), len(self.post.waiting[2])), ("take 0a", 0))

    def test_a_full_queue_drops_the_oldest(self) -> None:
        self.post.post(2, "0a")
        before, post.MOST_WAITING = post.MOST_WAITING, 3
        self.addCleanup(setattr, post, "MOST_WAITING", before)
        for octets in ("0b", "0c", "0d", "0e"):
            self.post.post(2, octets)
        self.assertEqual((list(self.post.waiting[2]), self.counts["dropped"]), (["0c", "0d", "0e"], 2))
        # (the one under way is answered though it was dropped)
        taken = [self.house.answer("ok taken") for _ in range(4)]
        self.assertEqual(taken, ["take 0a", "take 0c", "take 0d", "take 0e"])

    def test_a_refusal_is_in_the_log(self) -> None:
        self.post.post(2, MESSAGE)
        self.house.answer("refused Short")
        self.assertIn("house 2 took no message: refused Short", self.log[0])
        self.post.post(9, MESSAGE)
        self.assertEqual(len(self.post.waiting[9]), 1)


class SkulksTest(unittest.TestCase):
    """A master skulks if something is new."""

    def setUp(self) -> None:
        self.house, self.other = Played(1), Played(2)
        self.other.is_here = False
        self.skulks = Skulks({1: self.house, 2: self.other}, collections.Counter())

    def test_news_are_updates_joins_and_leaves(self) -> None:
        for kind in ("02", "03", "06"):
            self.skulks.mark(f"02{kind}{MESSAGE[4:]}")
        self.assertEqual(self.skulks.changed, set())
        self.skulks.mark(MESSAGE)
        self.assertEqual(self.skulks.changed, {1})

    def test_what_is_no_state_is_none(self) -> None:
        lines = ["", "ok", "ok epoch", "ok epoch x members", "ok epoch 1 skulk", "dump epoch 1 members 1", "ok epoch 1"]
        for line in lines:
            self.skulks.mark(MESSAGE)
            self.skulks.begin_all()
            self.house.answer(line)
            self.assertEqual(self.house.asked, [], line)

    def test_a_master_that_is_here_skulks_once(self) -> None:
        self.skulks.mark(MESSAGE)
        self.skulks.begin_all()
        self.assertEqual((self.house.answer(STATE), self.other.asked), ("status 1", []))
        self.assertEqual((self.house.answer("ok 1@00000000000a"), self.skulks.changed), ("skulk 1", set()))
        self.skulks.begin_all()
        self.assertEqual(self.house.asked, [])

    def test_another_house_does_not(self) -> None:
        self.skulks.mark(MESSAGE)
        self.skulks.begin_all()
        self.house.answer(STATE.replace("1:1:m 2:1:r", "1:1:r 2:1:m"))
        self.assertEqual((self.house.asked, self.skulks.changed), ([], {1}))

    def test_a_young_skulk_is_left_alone_and_a_failed_one_is_begun_again(self) -> None:
        self.skulks.begin(self.house, 1)
        self.house.answer()
        self.assertEqual(self.skulks.changed, {1})
        self.skulks.begin_all()
        self.house.answer(STATE.replace("skulk none", "skulk 5@00000000000a"))
        self.assertEqual(self.house.asked, [])
        self.skulks.began[1] -= 60
        self.skulks.begin_all()
        self.house.answer(STATE.replace("skulk none", "skulk 5@00000000000a"))
        self.assertEqual(self.house.answer("ok 6@00000000000a"), "skulk 1")

    def test_after_a_start_all_that_a_house_holds_may_be_new(self) -> None:
        self.skulks.learn(self.house)
        self.house.answer("directory 1 held 1", "directory 2 gone 3", "directory 5 held 1", "end 3")
        self.assertEqual(self.skulks.changed, {1, 5})


if __name__ == "__main__":
    unittest.main()
