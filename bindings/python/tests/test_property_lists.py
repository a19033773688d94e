"""Property lists: their bytes, back again, and what is no such list."""
from __future__ import annotations

import unittest

from samples import CHOSEN, JUNE, PROPERTY_LIST
from rafttwine import BrokenBytes, Held, Refused, derive, property_list, question, read_property_list

RELATION = "$VARCOND = 'A' IF SPECIFIED TOP"
LATIN_1 = "only the printable characters of Latin-1 are allowed"
LEAST, MOST = -1 << 63, (1 << 63) - 1


class PropertyListsTest(unittest.TestCase):
    def test_bytes(self) -> None:
        self.assertEqual(PROPERTY_LIST, b"\x03\x03top\x01\x03OAK\x05Width\x02\0\0\0\0\0\0\x03\x84\x06FINISH\0")
        self.assertEqual(property_list({}), b"\0")
        self.assertEqual(property_list([Held("A", -1), Held("B", "")]), b"\x02\x01A\x02" + b"\xff" * 8 + b"\x01B\x01\0")

    def test_each_form_is_the_same_list(self) -> None:
        held = [Held("top", "OAK"), Held("Width", 900), Held("FINISH")]
        self.assertEqual(property_list(held), PROPERTY_LIST)
        self.assertEqual(property_list(tuple(held)), PROPERTY_LIST)
        self.assertEqual(list(read_property_list(memoryview(PROPERTY_LIST))), held)

    def test_what_is_read_is_packed_again(self) -> None:
        longest = [Held("N" * 255, "\xff" * 255), Held("L", LEAST), Held("M", MOST)] + [Held(f"P{place}") for place in range(61)]
        for values in ({}, CHOSEN, longest):
            listed = property_list(values)
            self.assertEqual(property_list(read_property_list(listed)), listed)
            self.assertEqual(derive(question("A1", JUNE), listed, RELATION).granted, ("A",) if values is CHOSEN else ())

    def test_what_is_no_list(self) -> None:
        """The library refuses it too."""
        for data, record, byte, wrong in (
            (b"", None, 0, "property_list.count: 1 byte should follow, and only 0 bytes can"),
            (b"\x41", None, 0, "property_list.count: 65 is out of range, 0 to 64 is allowed"),
            (b"\x01", 1, 1, "Held.name: 1 byte should follow, and only 0 bytes can"),
            (b"\x01\x03TO", 1, 1, "Held.name: 3 bytes should follow, and only 2 bytes can"),
            (b"\x01\x01\x7f\0", 1, 1, f"Held.name: character 1 is '\\x7f' (U+007F), and {LATIN_1}"),
            (b"\x01\x01A", 1, 3, "Held.value: 1 byte should follow, and only 0 bytes can"),
            (b"\x01\x01A\x03", 1, 3, "Held.value: the byte 3 is none of 0 for no value, 1 for a text and 2 for a number"),
            (b"\x01\x01A\x01\x02O", 1, 3, "Held.value: 2 bytes should follow, and only 1 byte can"),
            (b"\x02\x01A\0\x01B\x02\0\0\0\0\0\0\0", 2, 6, "Held.value: 8 bytes should follow, and only 7 bytes can"),
            (b"\x01\x01A\0\0", 1, 4, "property_list: 1 byte too many behind its last field"),
        ):
            with self.subTest(wrong):
                with self.assertRaises(BrokenBytes) as caught:
                    read_property_list(data)
                broken = caught.exception
                self.assertEqual((broken.record, broken.byte, broken.wrong), (record, byte, wrong))
                with self.assertRaises(Refused) as refused:
                    derive(question("A1", JUNE), data, RELATION)
                self.assertEqual(refused.exception.refusal, 2)
