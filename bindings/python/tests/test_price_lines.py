"""What Python finds wrong with a line of a price file and what the library refuses are the same lines: tried on many that were good
before a few bytes were changed. So every refused file is told with its reason, and the demonstration may look for faults before it
has the library."""
from __future__ import annotations

import random
import unittest
import warnings

from rafttwine import BadLine, RowWarning, read_prices
from rafttwine.price_lines import fault, numbered_lines

SEEDS = (
    b"A1;;S;B;1;table;100.00;1;EUR;20240101;20241231;0;", b'"A;""1"  ;OAK;P;X;2;oak;-12.5;0;USD;;;4294967295;',
    b'"#1";"";"S";"D";"1";"";".50";"1";"EUR";"";"20241231";"1";""', b"A1;;S;B;1;;1000000.00;1;EUR;00000000;99999999;07;",
    b"A1;;S;X;1;;-1000;0;EUR;;;0;", b"# a remark;", b" \t ",
)
BYTES = b'";;"" \t#\r\x00\x7f\x85\xa0\xffSPBXD012959.,-+eE'
CHANGED = 20_000


def bent(choice: random.Random) -> bytes:
    """A line with up to three changes: a byte set, put in, taken out, or a part doubled."""
    line = bytearray(choice.choice(SEEDS))
    for _ in range(choice.randint(0, 3)):
        at, byte = choice.randrange(len(line) + 1), choice.choice(BYTES)
        way = choice.randrange(4)
        end = at if way == 0 else at + 1 if way == 1 else at + choice.randrange(4)
        line[at:end] = bytes([byte]) if way < 2 else b"" if way == 2 else line[at:end] * 2
    return bytes(line).replace(b"\n", b"")


class PriceLinesTest(unittest.TestCase):
    def test_the_same_lines_are_bad(self) -> None:
        choice = random.Random(2_16)
        seen = {True: 0, False: 0}
        with warnings.catch_warnings():
            warnings.simplefilter("ignore", RowWarning)
            for _ in range(CHANGED):
                line = bent(choice)
                found = [fault(text) for _, text in numbered_lines(line)]
                self.assertEqual(any(found), self.refused(line), line)
                seen[any(found)] += 1
        self.assertTrue(all(count > CHANGED // 20 for count in seen.values()), seen)

    def refused(self, line: bytes) -> bool:
        try:
            read_prices(line)
        except BadLine as bad:
            self.assertTrue(bad.wrong, line)
            return True
        return False
