"""Tests of the classes of lines, of what is allowed, and of cell files."""
from __future__ import annotations

import os
import tempfile
import unittest

from doors import allows, cellfile, lines
from doors.allows import Allow, Who

MESSAGE = "0201000000010100000000000000010000000000000001036c707201000000000000000100000000000a000000000000000000"


class LinesTest(unittest.TestCase):
    """Lines have faults, classes and senders."""

    def test_faults_of_octets(self) -> None:
        self.assertIsNone(lines.fault_of("read low /.:/a A"))
        self.assertEqual(lines.fault_of("read\tlow"), "fault NotAscii 5")
        self.assertEqual(lines.fault_of("caf\xe9"), "fault NotAscii 4")
        self.assertEqual(lines.fault_of(None), "fault LineTooLong 4097")
        self.assertIsNone(lines.fault_of("x" * 4096))
        self.assertEqual(lines.fault_of("x" * 4097), "fault LineTooLong 4097")

    def test_each_command_has_a_class(self) -> None:
        for word, kind in {"import": "questions", "show": "questions", "export": "updates", "add": "updates",
                           "take": "messages", "more": "messages", "epoch": "operation", "clock": "operation",
                           "image": "operation", "whatever": "operation"}.items():  # fmt: skip
            self.assertEqual(lines.class_of([word, "1"]), kind)

    def test_turns_are_counted(self) -> None:
        self.assertTrue(lines.is_turn("create 1 a", ["ok 1@00000000000a"]))
        self.assertTrue(lines.is_turn("take 00", ["ok taken"]))
        self.assertFalse(lines.is_turn("take 00", ["ok late 2 1"]))
        self.assertFalse(lines.is_turn("create 1 a", ["refused EntryExists"]))
        self.assertFalse(lines.is_turn("dump 1", ["dump", "end"]))

    def test_senders_and_directories_of_messages(self) -> None:
        self.assertEqual((lines.sender_of(MESSAGE), lines.directory_of(MESSAGE)), (1, 1))
        for digits in ("", "02", "0201000000 1", "02010000000 zz"):
            self.assertEqual(lines.sender_of(digits), 0)


class AllowTest(unittest.TestCase):
    """What is not allowed is not sent."""

    def test_without_a_table_all_but_messages_and_numbers_is_allowed(self) -> None:
        who = Allow().of_user(os.getuid())
        self.assertTrue(who.may(["export", "/.:/a"]) and who.may(["epoch", "1", "1"]) and who.may_house(["skulk", "1"]))
        for words in (["take", MESSAGE], ["more", "00"], ["mkdir", "1", "a", "2"], ["root"], ["epoch", "1"], ["house"]):
            self.assertFalse(who.may_house(words), words)

    def test_classes_by_user(self) -> None:
        allow = Allow({"questions": [allows.ALL], "updates": ["4711"], "operation": []})
        self.assertTrue(allow.of_user(4711).may(["add", "/.:/a", "A", "00"]))
        self.assertFalse(allow.of_user(4712).may(["add", "/.:/a", "A", "00"]))
        self.assertTrue(allow.of_user(4712).may(["import", "low"]))
        self.assertFalse(allow.of_user(4711).may(["skulk"]))
        self.assertEqual(allow.of_user(4712).name, "user 4712")

    def test_updates_by_directory(self) -> None:
        who = Allow({"updates": [allows.ALL]}, {2: ["4711"]}).of_user(4712)
        self.assertTrue(who.may(["add", "1", "a", "A", "00"]))
        self.assertFalse(who.may(["add", "2", "a", "A", "00"]))
        self.assertFalse(who.may_house(["create", "2", "a"]))

    def test_a_door_brings_messages_of_its_own_houses_alone(self) -> None:
        classes = frozenset(allows.OF_DOORS)
        one = Who("one", classes, frozenset({1}), is_door=True)
        two = Who("two", classes, frozenset({2, 3}), is_door=True)
        self.assertTrue(one.may_house(["take", MESSAGE]))
        self.assertFalse(two.may_house(["take", MESSAGE]))
        self.assertFalse(one.may_house(["take"]) or one.may_house(["more", "00"]) or one.may_house(["clock", "1"]))
        self.assertFalse(one.may_house(["epoch", "1", "2", "1:1:m"]))
        console = Who("console", classes | {"operation"}, frozenset({1}), is_door=True)
        self.assertTrue(console.may_house(["epoch", "1", "2", "1:1:m"]))


class CellFileTest(unittest.TestCase):
    """A cell file is read, or its fault is said."""

    def faulty(self, text: str) -> str:
        with tempfile.TemporaryDirectory() as room:
            with open(f"{room}/cell.toml", "w", encoding="utf-8") as file:
                file.write(text)
            with self.assertRaises(cellfile.Faulty) as found:
                cellfile.read(f"{room}/cell.toml")
        return str(found.exception).partition("cell.toml: ")[2]

    def test_a_file(self) -> None:
        table = {"house": {"1": {"folder": "h1"}, "2": {"via": "ssh b door-peer"}}, "peer": {"2": {"socket": "peer2"}}}
        cell = cellfile.CellFile("/base", {**table, "console": 1})
        self.assertEqual((cell.here, cell.there, cell.near), ({1: "/base/h1"}, {2: "ssh b door-peer"}, 1))
        self.assertEqual((cell.socket, cell.ledger, cell.console), ("/base/door", "/base/console", 1))
        self.assertEqual(cell.peers[0].houses, frozenset({2}))
        self.assertNotIn("operation", cell.peers[0].classes)

    def test_the_console_of_one_machine_is_its_door(self) -> None:
        alone = cellfile.CellFile("/base", {"house": {"3": {"folder": "h3"}}})
        self.assertEqual(alone.console, 3)
        others = {"house": {"3": {"folder": "h3"}, "1": {"via": "ssh a door-peer"}}}
        self.assertEqual(cellfile.CellFile("/base", others).console, 0)

    def test_faults(self) -> None:
        self.assertIn("no word of a cell file", self.faulty("nere = 1"))
        self.assertIn("[house.0]", self.faulty('[house.0]\nfolder = "h"'))
        self.assertIn("[house.2] has either", self.faulty("[house.2]"))
        self.assertIn("[house.2] has either", self.faulty('[house.2]\nfolder = "h"\nvia = "ssh"'))
        self.assertIn("there is no [house.4]", self.faulty('near = 4\n[house.2]\nfolder = "h"'))
        self.assertIn("no class of lines", self.faulty("[allow]\nreading = []"))
        self.assertIn("[peer.2]", self.faulty('[house.1]\nfolder = "h"\n[peer.2]\nsocket = "p"'))
        self.assertIn("at most 107", self.faulty(f'socket = "{"x" * 120}"'))
        self.assertIn("seconds", self.faulty("skulk_every = true"))
        self.assertNotEqual(self.faulty("near ="), "")


if __name__ == "__main__":
    unittest.main()
