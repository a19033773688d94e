"""The program that lists a book:  python3 -m rafttwine BOOK"""
from __future__ import annotations

import os
import pathlib
import subprocess
import sys
import tempfile
import unittest
from datetime import date

from rafttwine import Article, Cents, Level, NoDay, PackagingRow, Percent, PriceRow, Rounding, Scheme, Way, book

BOOK = book(
    Article("T1", "S"),
    PriceRow("T1", Level.BASE, Cents(12_345), first=date(2026, 1, 1), last=NoDay(0), text=7),
    PriceRow("T1", Level.DISCOUNT, Percent("-3.5"), condition="NIGHT BLUE"),
    Rounding(1, Way.UP, 10),
    PackagingRow("*", "OAK", net=0, weight_unit="KGM"),
    Scheme("S", between_values="/", trim=True),
)
LISTED = """\
     1  byte       5  Article number='T1' scheme='S'
     2  byte      13  PriceRow article='T1' level=BASE value=123.45 currency='EUR' first=2026-01-01 last=0 (no day) text=7
     3  byte      49  PriceRow article='T1' level=DISCOUNT value=-3.50 % condition='NIGHT BLUE' currency='EUR'
     4  byte      95  Rounding number=1 way=UP step=10
     5  byte     113  PackagingRow article='*' condition='OAK' net=0 weight_unit='KGM'
     6  byte     164  Scheme id='S' between_values='/' trim=True
"""


class ListingTest(unittest.TestCase):
    maxDiff = None

    def setUp(self) -> None:
        made = tempfile.TemporaryDirectory()
        self.addCleanup(made.cleanup)
        self.file = pathlib.Path(made.name) / "desk.book"
        self.file.write_bytes(BOOK)

    def listed(self, *words: str, **environment: str) -> tuple[int, str, str]:
        done = subprocess.run([sys.executable, "-B", "-m", "rafttwine", *words], capture_output=True, text=True,
                              env={**os.environ, **environment}, timeout=60)
        return done.returncode, done.stdout, done.stderr

    def test_records_with_what_they_say(self) -> None:
        self.assertEqual(self.listed(str(self.file)), (0, LISTED, ""))

    def test_broken_book(self) -> None:
        self.file.write_bytes(BOOK.replace(b"T1\0SB", b"T1\0SC"))
        first = LISTED[:LISTED.index("\n") + 1]
        wrong = "record 2, byte 21, PriceRow.level: the byte 67 stands for none of BASE, SURCHARGE, DISCOUNT"
        self.assertEqual(self.listed(str(self.file)), (1, first, f"{self.file}: no price book: {wrong}\n"))

    def test_no_file_and_a_folder(self) -> None:
        self.assertEqual(self.listed("/none"), (1, "", "/none: No such file or directory\n"))
        self.assertEqual(self.listed("/"), (1, "", "/: Is a directory\n"))

    def test_a_file_without_an_end(self) -> None:
        wrong = "byte 0, book.length: 0 bytes are said, and 4,194,305 are there"
        self.assertEqual(self.listed("/dev/zero"), (1, "", f"/dev/zero: no price book: {wrong}\n"))

    def test_a_terminal_without_umlauts(self) -> None:
        self.file.write_bytes(book(Article("T\xfcr")))
        shown = "     1  byte       5  Article number='T\\xfcr'\n"
        self.assertEqual(self.listed(str(self.file), PYTHONIOENCODING="ascii"), (0, shown, ""))

    def test_usage(self) -> None:
        for word in ("-h", "--help"):
            self.assertEqual(self.listed(word)[::2], (0, ""))
            self.assertIn("usage: python3 -m rafttwine BOOK\n", self.listed(word)[1])
        for words in ((), ("a", "b")):
            self.assertEqual(self.listed(*words), (2, "", "usage: python3 -m rafttwine BOOK\n"))

    def test_a_reader_that_has_seen_enough(self) -> None:
        self.file.write_bytes(book(*[Article("N" * 40)] * 5000))
        done = subprocess.Popen([sys.executable, "-B", "-m", "rafttwine", str(self.file)], stdout=subprocess.PIPE,
                                stderr=subprocess.PIPE)
        done.stdout.readline()
        done.stdout.close()
        self.assertEqual((done.stderr.read(), done.wait()), (b"", 0))
        done.stderr.close()
