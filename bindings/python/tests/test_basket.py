"""The basket call."""
from __future__ import annotations

from typing import Union

from checks import CallTest
from samples import BOOK, JUNE, QUESTIONS
from rafttwine import Article, Asked, Cents, Level, Price, PriceRow, Refusal, Refused, basket, book, price, question

NAMES = ("june_oak", "missing", "june_factors", "july_oak", "next_year", "mixed", "fives", "huge", "june")


def alone(name: str) -> Union[Price, Refusal]:
    try:
        return price(BOOK, QUESTIONS[name])
    except Refused as refused:
        return refused.refusal


class BasketTest(CallTest):
    def test_each_entry_is_what_its_question_gets_alone(self) -> None:
        found = basket(BOOK, [QUESTIONS[name] for name in NAMES])
        self.assertEqual(list(found), [alone(name) for name in NAMES])
        self.assertEqual([one.unit if isinstance(one, Price) else one.value for one in found],
                         [10_875, 3, 12_688, 11_420, 4, 5, 11_815, 6, 9_667])
        self.assertEqual(found.totals, {"EUR": 3 * 10_875 + 12_688 + 11_420 + 11_815 + 9_667})

    def test_it_is_a_sequence(self) -> None:
        found = basket(BOOK, (QUESTIONS["missing"], QUESTIONS["june_oak"], QUESTIONS["next_year"]))
        self.assertEqual((len(found), found[0], found[-1]), (3, Refusal.NO_ARTICLE, Refusal.NO_BASE_LINE))
        self.assertEqual(found[:1], (Refusal.NO_ARTICLE,))
        self.assertIn(Refusal.NO_BASE_LINE, found)
        self.assertEqual(found.asked, (Asked("NONE", 1), Asked("A1", 3), Asked("A1", 1)))
        self.assertEqual(found, basket(BOOK, [QUESTIONS["missing"], QUESTIONS["june_oak"], QUESTIONS["next_year"]]))

    def test_no_questions(self) -> None:
        found = basket(BOOK, [])
        self.assertEqual((len(found), list(found), found.totals, str(found)), (0, [], {}, ""))

    def test_the_fullest_basket_has_room(self) -> None:
        names = [f"N{place}" for place in range(1, 33)]
        rows = [PriceRow("A1", level, Cents(-1), condition=name) for level in Level for name in ("", *names)]
        asked = question("A1", JUNE, granted=names)
        found = basket(book(Article("A1"), *rows), [asked] * 200)
        self.assertEqual(set(found), {price(book(Article("A1"), *rows), asked)})
        self.assertEqual((len(found), {len(one.lines) for one in found if isinstance(one, Price)}), (200, {99}))

    def test_refusals(self) -> None:
        no_day = QUESTIONS["june"].replace((20240630).to_bytes(4, "big"), (20240631).to_bytes(4, "big"))
        self.refuses(basket, (
            (Refusal.BROKEN_BOOK, (b"", [QUESTIONS["june"]])),
            (Refusal.BROKEN_BOOK, (BOOK[:-1], [])),
            (Refusal.BROKEN_BOOK, (b"", [no_day])),
            (Refusal.BROKEN_QUESTION, (BOOK, [QUESTIONS["june"], no_day, QUESTIONS["june"]])),
            (Refusal.BROKEN_QUESTION, (BOOK, [b"\0\0\0\4"])),
        ))
