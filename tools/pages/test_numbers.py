"""Tests of the numbers of rules."""
from __future__ import annotations

import unittest

from pages import numbers


class Numbers(unittest.TestCase):
    def test_words_of_a_rule_name_numbers(self) -> None:
        rule = "a line has at most 4,096 octets, 1 to 9 `4097`, each from 21 to 7E, up to 2^40; of 64 links"
        said = numbers.said_in(rule)
        self.assertEqual(said, {"4,096": {4096}, "21": {21, 33}, "2^40": {2**40}, "64": {64, 100}})

    def test_sources_write_numbers(self) -> None:
        self.assertEqual(numbers.written_in("a < 4_096, b ≡ 0x21, 2 ^ 40, 1 << 20, x1"), {4096, 33, 2**40, 2**20})

    def test_a_constant_is_what_it_is(self) -> None:
        self.assertIn(16_777_216, numbers.written_in(numbers.with_constants("octets.len() > MOST_WHOLE")))

    def test_a_number_of_a_rule_is_in_its_definition(self) -> None:
        definitions = [("cds_stamps", "Names.IsSimpleName"), ("cds_stamps", "Names.is_name_octet")]
        self.assertEqual(numbers.lost("a simple name has 1 to 254 octets, each above 20", definitions, ""), [])
        self.assertEqual(numbers.lost("a simple name has 1 to 255 octets", definitions, ""), ["255"])

    def test_a_rule_without_numbers_lacks_none(self) -> None:
        self.assertEqual(numbers.lost("a death stays, and the 9 first", [], ""), [])


if __name__ == "__main__":
    unittest.main()
