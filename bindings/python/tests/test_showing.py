"""Answers in words: amounts, stretches, and a price as the table that a salesperson reads."""
from __future__ import annotations

import unittest
from datetime import date

from samples import ASKED, BOOK, DISCOUNT, FALLBACK, OAK, QUESTIONS, TABLE
from checks import STRETCHES
from rafttwine import (Article, Asked, Basket, Cents, DayPrice, Level, Percent, Price, PriceRow, Refusal, basket, book, price,
                       question, text_book)

NUMBERS = """\
base       text 100       100.00 EUR
surcharge  text 200  oak   12.50 EUR
discount   text 300        -3.75 EUR
------------------------------------
One piece                 108.75 EUR
3 pieces                  326.25 EUR
No price line for ash"""

BASKET = """\
A1     3 pieces  108.75  326.25 EUR
A1     1 piece   no price: the article has no base price on that day, in that quantity
NONE   1 piece   the book does not have the article
A1     1 piece    96.67   96.67 EUR
MIXED  1 piece   no price: a fixed amount is in another currency than the first base line
-----------------------------------
Together                 422.92 EUR
Without a price: 3 of 5"""

WORDS = """\
base       table           100.00 EUR
surcharge  Top, Eiche oak   12.50 EUR
discount   Nachlass         -3.75 EUR"""


def words(table: str) -> list[list[str]]:
    """The words of each line, however wide the columns are."""
    return [line.split() for line in table.splitlines()]


FACTORS = """\
base       text 100            100.00 EUR
surcharge  text 200 x 2.5  oak   31.25 EUR
discount   text 300             -4.37 EUR
------------------------------------------
One piece                      126.88 EUR
No price line for ash"""


class ShowingTest(unittest.TestCase):
    maxDiff = None

    def setUp(self) -> None:
        self.price = price(BOOK, QUESTIONS["june_oak"])

    def test_amounts_and_stretches(self) -> None:
        for amount, shown in ((51_386, "513.86 EUR"), (0, "0.00 EUR"), (-5, "-0.05 EUR"), (123_456_700, "1,234,567.00 EUR")):
            self.assertEqual(str(DayPrice(amount, "EUR")), shown)
        self.assertEqual([str(stretch) for stretch in STRETCHES], [
            "2024-06-29 to 2024-06-30: 108.75 EUR",
            "2024-07-01 to 2024-12-31: 114.20 EUR",
            "2025-01-01 to 2025-01-02: no price: the article has no base price on that day, in that quantity",
        ])
        self.assertEqual(f"{STRETCHES[2].outcome}", "no price: the article has no base price on that day, in that quantity")

    def test_one_day(self) -> None:
        stretch = type(STRETCHES[0])(date(2024, 6, 30), date(2024, 6, 30), DayPrice(100, "EUR"))
        self.assertEqual(str(stretch), "2024-06-30: 1.00 EUR")

    def test_without_text_books(self) -> None:
        self.assertEqual(str(self.price), NUMBERS)
        self.assertEqual(self.price.table(), NUMBERS)

    def test_a_factor_stands_behind_the_text(self) -> None:
        shown = price(BOOK, QUESTIONS["june_factors"])
        self.assertEqual(words(str(shown)), words(FACTORS))
        self.assertEqual(words(shown.table(text_book({OAK: b"Edge, per metre"})))[1][:6],
                         ["surcharge", "Edge,", "per", "metre", "x", "2.5"])

    def test_with_text_books(self) -> None:
        asked = text_book({TABLE: b"table", OAK: b"Top,\nEiche"})
        self.assertEqual(words(self.price.table(asked, FALLBACK))[:3], words(WORDS))
        self.assertEqual(words(self.price.table(asked))[2][:3], ["discount", "text", "300"])

    def test_a_missing_text_shows_its_number(self) -> None:
        shown = words(self.price.table(ASKED, ASKED))
        self.assertEqual((shown[0][:2], shown[2][:3]), (["base", "table"], ["discount", "text", "300"]))

    def test_a_broken_text_book_does_not_hide_the_price(self) -> None:
        *shown, last = self.price.table(ASKED, b"broken").splitlines()
        self.assertEqual("\n".join(shown), NUMBERS)
        self.assertEqual(last, "No texts: the price book, or one of the text books, is not laid out as such a book (refusal 1)")

    def test_texts_in_another_encoding(self) -> None:
        asked = text_book({TABLE: "Tisch gr\xfcn \N{EURO SIGN}".encode(), OAK: b"\xff", DISCOUNT: b""})
        shown = words(self.price.table(asked, encoding="utf-8"))
        self.assertEqual(shown[0][1:4], ["Tisch", "gr\xfcn", "\N{EURO SIGN}"])
        self.assertEqual(shown[1][1], "\N{REPLACEMENT CHARACTER}")

    def test_a_wrong_type_is_still_an_error(self) -> None:
        with self.assertRaisesRegex(TypeError, "^text.asked: bytes are wanted"):
            self.price.table("asked")

    def test_every_row_ends_in_one_column(self) -> None:
        rows = (Article("A1"), PriceRow("A1", Level.BASE, Cents(100_000_000)),
                PriceRow("A1", Level.DISCOUNT, Percent(-1), condition="PROJECT"))
        answer = price(book(*rows), question("A1", date.max, 100_000, granted=["project"] + [f"c{n}" for n in range(31)]))
        *lines, = str(answer).splitlines()
        self.assertEqual(len({len(line) for line in lines[:5]}), 1)
        self.assertEqual(lines[4].split(), ["100,000", "pieces", "99,000,000,000.00", "EUR"])
        self.assertEqual(lines[5:], [f"No price line for c{n}" for n in range(31)])

    def test_a_price_made_by_hand(self) -> None:
        self.assertEqual(str(Price(100, 100, "EUR", (), ())), "-" * 19 + "\nOne piece  1.00 EUR")

    def test_a_basket(self) -> None:
        asked = [QUESTIONS[name] for name in ("june_oak", "next_year", "missing", "june", "mixed")]
        self.assertEqual(str(basket(BOOK, asked)), BASKET)

    def test_a_basket_with_and_without_prices(self) -> None:
        june = Asked("A1", 1)
        one = Price(100, 100, "EUR", (), ())
        self.assertEqual(str(Basket((), ())), "")
        self.assertEqual(str(Basket((one,), (june,))).splitlines(),
                         ["A1  1 piece  1.00  1.00 EUR", "---------------------------", "Together           1.00 EUR"])
        self.assertEqual(str(Basket((Refusal.NO_ARTICLE,), (june,))),
                         "A1  1 piece  the book does not have the article\nWithout a price: 1 of 1")

    def test_a_basket_in_two_currencies(self) -> None:
        prices = Price(100, 100_000, "EUR", (), (), 1000), Price(-5, -5, "USD", (), ()), Price(20, 40, "EUR", (), (), 2)
        shown = str(Basket(prices, (Asked("A1", 1000), Asked("B2", 1), Asked("LAMP", 2)))).splitlines()
        self.assertEqual(shown, [
            "A1    1,000 pieces   1.00  1,000.00 EUR",
            "B2    1 piece       -0.05     -0.05 USD",
            "LAMP  2 pieces       0.20      0.40 EUR",
            "---------------------------------------",
            "Together                   1,000.40 EUR",
            "Together                      -0.05 USD",
        ])
