"""What the tests of the calls share."""
from __future__ import annotations

import unittest
from datetime import date
from typing import Any, Callable, Sequence

from samples import BOOK, DECEMBER, JULY, JUNE, QUESTIONS, YEAR_END
from rafttwine import DayPrice, Refusal, Refused, Stretch


class CallTest(unittest.TestCase):
    """A test of one call."""

    def refuses(self, call: Callable[..., object], cases: Sequence[tuple[Refusal, tuple[Any, ...]]]) -> None:
        for refusal, words in cases:
            with self.subTest(refusal, words=words):
                with self.assertRaises(Refused) as caught:
                    call(*words)
                self.assertIs(caught.exception.refusal, refusal)


# The calendar worked by hand, which is asked for in two ways.
CALENDAR = (BOOK, QUESTIONS["calendar"], YEAR_END)
STRETCHES = (
    Stretch(date(2024, 6, 29), JUNE, DayPrice(10_875, "EUR")),
    Stretch(JULY, DECEMBER, DayPrice(11_420, "EUR")),
    Stretch(date(2025, 1, 1), YEAR_END, Refusal.NO_BASE_LINE),
)
# With 2.5 times oak: in July 3281.25 on top of 10500, and 3.33 % of 13781 are 458.9073.
CALENDAR_FACTORS = (BOOK, QUESTIONS["calendar_factors"], YEAR_END)
STRETCHES_FACTORS = (
    Stretch(date(2024, 6, 29), JUNE, DayPrice(12_688, "EUR")),
    Stretch(JULY, DECEMBER, DayPrice(13_322, "EUR")),
    Stretch(date(2025, 1, 1), YEAR_END, Refusal.NO_BASE_LINE),
)
REFUSED_CALENDARS = (
    (Refusal.BROKEN_BOOK, (b"", QUESTIONS["calendar"], YEAR_END)),
    (Refusal.BROKEN_QUESTION, (BOOK, b"", YEAR_END)),
    (Refusal.BAD_PERIOD, (BOOK, QUESTIONS["calendar"], date(2024, 6, 28))),
    (Refusal.NO_ARTICLE, (BOOK, QUESTIONS["missing"], YEAR_END)),
)
