"""The call that writes a price file: its lines, the way back, and price rows that no line can say."""
from __future__ import annotations

import copy
import pickle
import unittest
from datetime import date

from samples import BOOK
from rafttwine import (Article, BadRecord, Cents, Level, NoDay, Percent, PriceRow, Refusal, Refused, Rounding, Rule, Sort, Way,
                       book, read_book, read_prices, write_prices)

JUNE, JULY = date(2024, 6, 30), date(2024, 7, 1)
ROWS = (
    PriceRow("A1", Level.BASE, Cents(123_456), text=1, first=JUNE, last=JULY),
    PriceRow("#1", Level.SURCHARGE, Percent("-0.05"), condition='OAK;"ASH"', rule=Rule.OF_TOTAL_SO_FAR, sort=Sort.PURCHASE,
             text=2),
    PriceRow('"', Level.DISCOUNT, Cents(-100_000_000), condition='#"B\xdcRO', currency="USD", text=1),
)
FILE = ("A1;;S;B;1;1;1234.56;1;EUR;20240630;20240701;0;\n"
        '"#1";"OAK;""ASH""";P;X;2;2;-0.05;0;EUR;00010101;99991231;0;\n'
        '"""";#"B\xdcRO;S;D;1;1;-1000000.00;1;USD;00010101;99991231;0;\n').encode("latin-1")


class WritePricesTest(unittest.TestCase):
    def test_lines(self) -> None:
        made = book(Article("A1"), *ROWS, Rounding(1, Way.UP, 5))
        for lent in (made, bytearray(made), memoryview(made)):
            self.assertEqual(write_prices(lent), FILE)
        self.assertEqual(write_prices(book(Article("A1"))), b"")

    def test_read_again(self) -> None:
        self.assertEqual(read_prices(FILE), ROWS)
        fewer = book(*(row for row in read_book(BOOK) if isinstance(row, PriceRow) and not row.rounding))
        again = book(*read_prices(write_prices(fewer)))
        self.assertEqual(write_prices(again), write_prices(book(*read_prices(write_prices(again)))))
        self.assertEqual([row.article for row in read_book(again)], [row.article for row in read_book(fewer)])

    def test_rows_without_days_and_for_few_pieces(self) -> None:
        row = PriceRow("A1", Level.BASE, Cents(5), first=NoDay(0), last=NoDay(99_999_999), up_to=4_294_967_295, text=4_294_967_295)
        self.assertEqual(write_prices(book(row)), b"A1;;S;B;1;4294967295;0.05;1;EUR;;99999999;4294967295;\n")

    def test_the_longest_line_has_room(self) -> None:
        row = PriceRow('"' * 40, Level.BASE, Cents(-100_000_000), condition='"' * 20, text=4_294_967_295, up_to=4_294_967_295)
        self.assertEqual(len(write_prices(book(*[row] * 100))), 100 * 191)


class BadRecordsTest(unittest.TestCase):
    def bad(self, *rows: PriceRow) -> BadRecord:
        with self.assertRaises(BadRecord) as caught:
            write_prices(book(Article("A1"), *rows))
        return caught.exception

    def test_a_row_with_a_rounding(self) -> None:
        plain, rounded = (PriceRow("A1", Level.BASE, Cents(1), rounding=number) for number in (0, 7))
        bad = self.bad(plain, rounded, rounded)
        self.assertEqual((bad.place, bad.record, bad.field), (5 + 7 + 36 + 1, 3, "PriceRow.rounding"))
        self.assertEqual(str(bad), "record 3, PriceRow.rounding: 7, and a line of a price file can name no rounding")

    def test_a_day_of_nine_digits(self) -> None:
        for field in ("first", "last"):
            bad = self.bad(PriceRow("A1", Level.BASE, Cents(1), **{field: NoDay(100_000_000)}))
            self.assertEqual((bad.place, bad.record), (13, 2))
            self.assertEqual(str(bad), f"record 2, PriceRow.{field}: 100000000 (no day), and a line of a price file has eight "
                             "digits for a date")

    def test_it_is_a_refusal_that_can_be_copied(self) -> None:
        bad = self.bad(PriceRow("A1", Level.BASE, Cents(1), rounding=1))
        for again in (bad, copy.deepcopy(bad), pickle.loads(pickle.dumps(bad))):
            self.assertIsInstance(again, Refused)
            self.assertEqual((again.refusal, again.place, str(again)), (Refusal.BAD_ROW, 13, str(bad)))

    def test_a_broken_book(self) -> None:
        for broken in (b"", BOOK[:-1]):
            with self.assertRaises(Refused) as caught:
                write_prices(broken)
            self.assertIs(caught.exception.refusal, Refusal.BROKEN_BOOK)
