"""Where Python finds a relation wrong and where the library does is the same byte: tried on many that were good before a few bytes
were changed. So every refused relation is told with what may stand there, and the demonstration may look for faults before it has the
library."""
from __future__ import annotations

import random
import unittest

from samples import JUNE, RELATION
from rafttwine import BadRelation, Refusal, derive, question
from rafttwine.relation_texts import fault, line_and_column

ASKED = question("A1", JUNE)
SEEDS = (
    RELATION, b"$VARCOND='A',$VARCOND='B'IF'A'='B'AND(NOT 1=-2 OR X IN('A', 2 ,\t-3))", b" $varcond\r\n=\r\n'A'\r\nif a ge b_2 ",
    b"$VARCOND='A' IF " + b"(" * 16 + b"A=1" + b")" * 16,
    b"$VARCOND='' IF A=123456789012345678 OR A<=-123456789012345678 OR SPECIFIED IFS",
    b"$VARCOND='X' IF A LT 1 AND A LE 2 OR A EQ 3 AND A NE 4 OR A GE 5 AND A GT 6 OR NOT NOT A<>7 AND 8=>A OR A>=9 AND A>B",
)
BYTES = b"''((), \n\t=<>-_$$ANDORNOTIFINSPECIFIEDGELTEQ0123456789axz\xfc\x00\xa0.\"#"
CHANGED = 20_000


def bent(choice: random.Random) -> bytes:
    """A relation with up to three changes: a byte set, put in, taken out, a part doubled, or the end cut off."""
    text = bytearray(choice.choice(SEEDS))
    for _ in range(choice.randint(0, 3)):
        at, byte = choice.randrange(len(text) + 1), choice.choice(BYTES)
        way = choice.randrange(12)
        end = at if way < 4 else at + 1 if way < 6 else at + choice.randrange(4) if way < 11 else len(text)
        text[at:end] = bytes([byte]) if way < 6 else b"" if way in (6, 7, 11) else text[at:end] * 2
    return bytes(text)


class RelationTextsTest(unittest.TestCase):
    def test_the_same_bytes_are_wrong(self) -> None:
        choice = random.Random(5)
        seen: dict[int, int] = {}
        for _ in range(CHANGED):
            text = bent(choice)
            found = fault(text)
            number, place = found[:2] if found else (0, 0)
            self.assertEqual((number, place), self.refused(text), text)
            seen[number] = seen.get(number, 0) + 1
        self.assertTrue(seen[0] > CHANGED // 20 and seen[14] > CHANGED // 4 and seen[15] > CHANGED // 1000, seen)

    def refused(self, text: bytes) -> tuple[int, int]:
        try:
            derive(ASKED, {}, text)
        except BadRelation as bad:
            self.assertTrue(bad.wrong, text)
            return (0, 0) if bad.refusal is Refusal.UNFIT_NAME else (int(bad.refusal), bad.place)
        return 0, 0

    def test_lines_and_columns(self) -> None:
        for place, due in {1: (1, 1), 2: (1, 2), 3: (1, 3), 4: (2, 1), 5: (3, 1), 6: (3, 2), 7: (3, 3)}.items():
            self.assertEqual(line_and_column(b"A\r\n\nB\r", place), due)
