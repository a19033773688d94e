"""The price call."""
from checks import CallTest
from samples import BOOK, DISCOUNT, OAK, QUESTIONS, TABLE
from rafttwine import Factor, Level, Line, Refusal, price


class PriceTest(CallTest):
    def test_lines_total_and_unused_names(self) -> None:
        answer = price(BOOK, QUESTIONS["june_oak"])
        self.assertEqual(answer.lines, (
            Line(TABLE, Level.BASE, 0, 10_000),
            Line(OAK, Level.SURCHARGE, 1, 1_250, "oak"),
            Line(DISCOUNT, Level.DISCOUNT, 0, -375),
        ))
        self.assertEqual((answer.unit, answer.total, answer.currency, answer.quantity), (10_875, 3 * 10_875, "EUR", 3))
        self.assertEqual((answer.unused, answer.unused_names), ((2,), ("ash",)))

    def test_lines_with_factors(self) -> None:
        """2.5 times oak are 3125; 3.33 % of 13125 are 437.0625."""
        answer = price(BOOK, QUESTIONS["june_factors"])
        self.assertEqual(answer.lines, (
            Line(TABLE, Level.BASE, 0, 10_000, factor=Factor(1)),
            Line(OAK, Level.SURCHARGE, 2, 3_125, "oak", Factor("2.5")),
            Line(DISCOUNT, Level.DISCOUNT, 0, -437),
        ))
        self.assertEqual((answer.unit, answer.unused, answer.unused_names), (12_688, (1,), ("ash",)))

    def test_other_sums_worked_by_hand(self) -> None:
        for name, amounts in {
            "july_oak": [10_500, 1_313, -393],
            "june": [10_000, -333],
            "fives": [10_500, 1_315],
            "euros": [10_500, 1_400],
        }.items():
            with self.subTest(name):
                answer = price(BOOK, QUESTIONS[name])
                self.assertEqual([line.amount for line in answer.lines], amounts)
                self.assertEqual((answer.unit, answer.unused), (sum(amounts), ()))

    def test_refusals(self) -> None:
        self.refuses(price, (
            (Refusal.BROKEN_BOOK, (BOOK[:-1], QUESTIONS["june"])),
            (Refusal.BROKEN_BOOK, (b"", QUESTIONS["june"])),
            (Refusal.BROKEN_QUESTION, (BOOK, b"")),
            (Refusal.BROKEN_QUESTION, (BOOK, QUESTIONS["june_factors"].replace(b"oak\x09\xc4", b"oak\x27\x11"))),
            (Refusal.NO_ARTICLE, (BOOK, QUESTIONS["missing"])),
            (Refusal.NO_BASE_LINE, (BOOK, QUESTIONS["next_year"])),
            (Refusal.MIXED_CURRENCIES, (BOOK, QUESTIONS["mixed"])),
            (Refusal.TOTAL_OUT_OF_RANGE, (BOOK, QUESTIONS["huge"])),
        ))
