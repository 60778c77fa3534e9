"""Tests of the octets of records: what is written is read again, and is what docs/FORMATS.md says."""

from __future__ import annotations

import unittest

from cds import records
from cds.octets import Image, Load

NODE = "00000000000a"
BIRTH, ADDED = records.stamp(5, NODE), records.stamp(6, NODE)
ENTRIES: records.Entries = {
    b"lpr": (records.OBJECT, BIRTH, {b"CDS_Class": {b"\x50\x72": (1, ADDED), b"\x01": (0, ADDED)}}),
    b"a": (records.LINK, BIRTH, {}),
}
FACTS = {
    "a": f"link 5@{NODE} live",
    "lpr": f"object 5@{NODE} live",
    "lpr\tCDS_Class": "none",
    "lpr\tCDS_Class\t01": f"absent 6@{NODE}",
    "lpr\tCDS_Class\t5072": f"present 6@{NODE}",
}


class OfRecords(unittest.TestCase):
    """Records that are written, and read."""

    def test_an_image(self) -> None:
        members = [(1, 1, records.MASTER), (2, 3, records.SECONDARY), (7, 1, records.READ_ONLY)]
        held = [records.directory(2, it, it, members, BIRTH if it == 1 else b"", ENTRIES) for it in (1, 9)]
        octets = records.image(2, 1, NODE, 77, held)
        found = Image(octets)
        self.assertEqual((found.size, found.floor, list(found.replicas)), (len(octets), 77, [1, 9]))
        self.assertEqual(found.replicas[1].head(), f"epoch 1 allupto 5@{NODE} members 1:1:m 2:3:s 7:1:r")
        self.assertEqual(found.replicas[9].head(), "epoch 9 allupto none members 1:1:m 2:3:s 7:1:r")
        self.assertEqual([*found.replicas[9].facts.items()], [*FACTS.items()])

    def test_the_octets_of_an_image(self) -> None:
        octets = records.image(2, 1, NODE, 6, [records.directory(2, 1, 1, [(1, 1, 1)], b"", {b"a": (1, BIRTH, {})})])
        head = "0209 01 00000000000a 0000000000000006 0000000000000001"
        replica = "00000001 01 0000000000000001 01 01 0000000000000001 01 00 0000000000000001"
        entry = "01 61 01 0000000000000005 00000000000a 00 0000000000000000 0000000000000001"
        self.assertEqual(octets, bytes.fromhex(head + replica + entry))

    def test_an_update(self) -> None:
        found = Load(records.update(1, 2, 3, 77, b"a", *ENTRIES[b"a"]))
        self.assertEqual((found.kind, found.floor, found.facts), ("Update", 77, {"a": FACTS["a"]}))

    def test_a_tower(self) -> None:
        octets = records.tower(("a0000000-0000-0000-0000-000000000001", 1, 2), "ncacn_ip_tcp", 1025, (10, 0, 0, 3))
        self.assertEqual(len(octets), 75)
        self.assertEqual(octets[:5], bytes.fromhex("0500 1300 0d"))
        self.assertEqual(octets[-16:], bytes.fromhex("0100 07 0200 0401 0100 09 0400 0a000003"))

    def test_an_element(self) -> None:
        octets = records.element(8, None, "/.:/a", "note")
        self.assertEqual(octets, b"\x08" + bytes(20) + b"\x00\x05/.:/anote")
        self.assertEqual(records.element_text(8, None, "/.:/a", ""), "element 8 default /.:/a -")


if __name__ == "__main__":
    unittest.main()
