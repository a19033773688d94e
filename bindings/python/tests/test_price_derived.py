"""The call that prices with derived conditions."""
from __future__ import annotations

from checks import CallTest
from samples import BOOK, CHOSEN, DISCOUNT, JUNE, OAK, PROPERTY_LIST, QUESTIONS, RELATION, TABLE
from rafttwine import BadRelation, Level, Line, Refusal, derive, price, price_derived, question

WRONG = "$VARCOND = 'oak' IF\nTOP"


class PriceDerivedTest(CallTest):
    def test_lines_with_the_names_that_were_derived(self) -> None:
        answer = price_derived(BOOK, question("A1", JUNE, 3), CHOSEN, RELATION)
        self.assertEqual(answer.lines, (
            Line(TABLE, Level.BASE, 0, 10_000),
            Line(OAK, Level.SURCHARGE, 1, 1_250, "oak"),
            Line(DISCOUNT, Level.DISCOUNT, 0, -375),
        ))
        self.assertEqual((answer.unit, answer.total, answer.currency, answer.quantity), (10_875, 3 * 10_875, "EUR", 3))
        self.assertEqual((answer.unused, answer.unused_names), ((2,), ("ash",)))

    def test_it_is_the_price_of_the_derived_question(self) -> None:
        for name in ("june", "june_version_2", "fives"):
            asked = derive(QUESTIONS[name], CHOSEN, RELATION).packed()
            self.assertEqual(price_derived(BOOK, QUESTIONS[name], PROPERTY_LIST, RELATION), price(BOOK, asked))

    def test_nothing_derived(self) -> None:
        answer = price_derived(memoryview(BOOK), QUESTIONS["june"], {}, "$VARCOND = 'oak' IF TOP = 'oak'")
        self.assertEqual((answer.unit, answer.unused), (9_667, ()))

    def test_a_bad_relation(self) -> None:
        with self.assertRaises(BadRelation) as caught:
            price_derived(BOOK, QUESTIONS["missing"], CHOSEN, WRONG, "desk.relation")
        self.assertEqual(str(caught.exception), "desk.relation, line 2, column 4: a sign, as = or <>, or IN is wanted, not the end")
        self.assertEqual((caught.exception.refusal, caught.exception.place), (Refusal.BAD_RELATION, 24))

    def test_refusals(self) -> None:
        self.refuses(price_derived, (
            (Refusal.BROKEN_BOOK, (b"", b"", b"", WRONG)),
            (Refusal.BROKEN_QUESTION, (BOOK, b"", CHOSEN, WRONG)),
            (Refusal.BROKEN_QUESTION, (BOOK, QUESTIONS["june_oak"], CHOSEN, WRONG)),
            (Refusal.BROKEN_QUESTION, (BOOK, QUESTIONS["june"], b"", WRONG)),
            (Refusal.BAD_RELATION, (BOOK, QUESTIONS["missing"], CHOSEN, WRONG)),
            (Refusal.DEEP_RELATION, (BOOK, QUESTIONS["missing"], CHOSEN, f"$VARCOND='' IF {'(' * 17}")),
            (Refusal.UNFIT_NAME, (BOOK, QUESTIONS["missing"], CHOSEN, "$VARCOND=''")),
            (Refusal.NO_ARTICLE, (BOOK, QUESTIONS["missing"], CHOSEN, RELATION)),
            (Refusal.NO_BASE_LINE, (BOOK, QUESTIONS["next_year"], CHOSEN, RELATION)),
            (Refusal.MIXED_CURRENCIES, (BOOK, QUESTIONS["mixed"], CHOSEN, RELATION)),
            (Refusal.TOTAL_OUT_OF_RANGE, (BOOK, QUESTIONS["huge"], CHOSEN, RELATION)),
        ))
