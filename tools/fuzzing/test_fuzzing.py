"""Tests of random inputs and of what is counted: good records are read, and answers are met. No program is run."""

from __future__ import annotations

import random
import unittest

from cds.octets import Image, Load
from fuzzing import mend
from fuzzing.answers import Kinds, Met
from fuzzing.records import Record, damaged, tower
from fuzzing.scripts import Script


class OfRecords(unittest.TestCase):
    """Octets that are made at random."""

    def test_good_messages_are_read(self) -> None:
        kinds = set()
        for seed in range(200):
            octets = bytes(Record(random.Random(seed), breaks=False).message())
            kinds.add(Load(octets).kind)
        self.assertEqual(len(kinds), 8)

    def test_good_images_are_read(self) -> None:
        held = 0
        for seed in range(200):
            octets = bytes(Record(random.Random(seed), breaks=False).image())
            found = Image(octets) if octets[0] == 2 else None
            held += sum(it.is_held() for it in found.replicas.values()) if found else 0
        self.assertGreater(held, 20)

    def test_two_records_begin_alike(self) -> None:
        one = Record(random.Random(7), breaks=False, is_full=True).image()
        two = Record(random.Random(7), breaks=False, same=20, is_full=True).image()
        self.assertNotEqual(one, two)
        self.assertEqual(one[:30], two[:30])

    def test_some_records_break_their_rules(self) -> None:
        for seed in range(50):
            whole = bytes(Record(random.Random(seed), breaks=False).message())
            if whole != bytes(Record(random.Random(seed)).message()):
                return
        self.fail("no record breaks its rules")

    def test_damage_is_other_octets(self) -> None:
        octets = bytes(range(100))
        self.assertGreater(sum(damaged(random.Random(seed), octets) != octets for seed in range(50)), 30)

    def test_a_tower_says_how_many_floors_it_has(self) -> None:
        counts = {int.from_bytes(tower(random.Random(seed))[:2], "little") for seed in range(300)}
        self.assertTrue({0, 5} <= counts <= set(range(7)), counts)


class OfScripts(unittest.TestCase):
    """Scripts, and what is learned of answers."""

    def test_commands_are_those_of_the_form(self) -> None:
        for form, own in (("journal", "stop"), ("inquire", "lookup"), ("run", "dump")):
            script = Script(random.Random(1), form)
            script.begin()
            words = {script.command().split()[0] for _ in range(2000)}
            self.assertIn(own, words)
            self.assertEqual(words <= {*script.makers()}, True)

    def test_answers_say_what_there_is(self) -> None:
        script = Script(random.Random(1), "run")
        script.lines = ["root 2 s3", "create 2 1 a", "epoch 1 3 2", "octets msg 1"]
        script.learn("1 ok posted 1\n2 ok 1@00000000000a posted 2\n3 ok 2 posted 3\n4 ok 2 0207\n")
        self.assertEqual((script.messages, script.octets), ([1, 2, 3], ["0207"]))
        self.assertEqual((script.masters, script.secondaries, script.members_of), ({1: 3}, {1: []}, {1: [2, 3]}))
        self.assertEqual(script.receivers, {1: 3, 2: 3, 3: 2})

    def test_kinds_of_messages(self) -> None:
        kinds = Kinds()
        kinds.learn(["root", "1", "2"], "posted 1")
        kinds.learn(["skulk", "1", "1"], "7@00000000000a posted 2")
        kinds.learn(["deliver", "2"], "taken posted 3")
        kinds.learn(["deliver", "3"], "taken posted 4")
        self.assertEqual([kinds.kind(str(it)) for it in range(1, 6)], ["Join", "Gather", "Gathered", "Spread", ""])

    def test_answers_are_counted(self) -> None:
        met = Met()
        script = b"root 1 2\ndeliver 1\ncreate 1 1 a\ndump 1 1\nx\n"
        answers = b"1 ok posted 1\n2 ok taken\n3 refused Down\n4 dump epoch 1\n4 end\n5 fault UnknownCommand 1\n"
        met.see(["run"], script, 3, answers)
        found = {(command, answer) for command, counts in met.counts.items() for answer in counts}
        due = {
            ("root", "ok"),
            ("deliver Join", "taken"),
            ("create", "Down"),
            ("dump", "dump"),
            ("run", "UnknownCommand"),
        }
        self.assertEqual(found, due)
        self.assertEqual(met.unknown(), [])
        lacking = met.lacking(["run"])
        self.assertIn("create: ok", lacking)
        self.assertNotIn("create: Down", lacking)
        self.assertNotIn("image: ok", lacking)


class OfMending(unittest.TestCase):
    """A directory in trouble, as the console knows it."""

    def setUp(self) -> None:
        first = mend.Directory(1, ["1", "s2", "3"])
        self.directory = mend.Directory(2, ["1", "s2", "4"], first.members)

    def test_its_members(self) -> None:
        self.assertEqual(self.directory.words(), [(1, "1"), (2, "s2"), (4, "4")])
        self.assertEqual(self.directory.words([1]), [(2, "s2"), (4, "4")])
        self.assertEqual({house: since for house, (since, _) in self.directory.members.items()}, {1: 1, 2: 1, 4: 2})

    def test_its_master_without_houses(self) -> None:
        self.assertEqual(mend.master_without(self.directory, {}, [2]), 1)
        self.assertEqual(mend.master_without(self.directory, {2: 1, 4: 1}, [1]), 2)
        self.assertEqual(mend.master_without(self.directory, {2: 1, 4: 2}, [1]), 4)
        self.assertIsNone(mend.master_without(self.directory, {2: 0, 4: 1}, [1]))


if __name__ == "__main__":
    unittest.main()
