"""Why a call has no answer."""
from __future__ import annotations

from enum import IntEnum
from typing import Any, Optional, Union

MOST_NUMBER = 255


class Refusal(IntEnum):
    """The numbers that a call refuses with. A later library may have more of them: `Refusal(99)` is then a refusal too, with 99 as
    its value, though it is not listed here and its reason is not known."""

    BROKEN_BOOK = 1
    BROKEN_QUESTION = 2
    NO_ARTICLE = 3
    NO_BASE_LINE = 4
    MIXED_CURRENCIES = 5
    TOTAL_OUT_OF_RANGE = 6
    SHORT_OUTPUT = 7
    NO_PACKAGING = 8
    BAD_PERIOD = 9
    MANY_STRETCHES = 10  # unused: no call gives it
    UNFIT_PACKAGING = 11
    NO_TEXT = 12
    BAD_ROW = 13
    BAD_RELATION = 14
    DEEP_RELATION = 15
    UNFIT_NAME = 16

    @classmethod
    def _missing_(cls, value: object) -> Optional[Refusal]:
        if not isinstance(value, int) or not 1 <= value <= MOST_NUMBER:
            return None
        later = int.__new__(cls, value)
        later._name_, later._value_ = f"REFUSAL_{value}", value
        return _LATER.setdefault(value, later)

    def __reduce_ex__(self, protocol: Any) -> Any:
        """By its value in every version of Python; some would look for its name, which a later one does not have."""
        return Refusal, (self.value,)

    @property
    def reason(self) -> str:
        """The refusal in words."""
        return _REASONS.get(self) or f"the reason {self.value} of a later library, which this package does not know"

    def __str__(self) -> str:
        return f"no price: {self.reason}" if self in _NO_PRICE else self.reason

    def __format__(self, form: str) -> str:
        return format(str(self), form)


# Refusals with a number that this package does not know, so that there is one of each.
_LATER: dict[int, Refusal] = {}

# What a day in a calendar can have in the place of a price.
_NO_PRICE = (Refusal.NO_BASE_LINE, Refusal.MIXED_CURRENCIES, Refusal.TOTAL_OUT_OF_RANGE)

_REASONS = {
    Refusal.BROKEN_BOOK: "the price book, or one of the text books, is not laid out as such a book",
    Refusal.BROKEN_QUESTION: "a question or its property list is not laid out as such, its day is not in the calendar, there are "
                             "too many questions, or it grants names beside a relation",
    Refusal.NO_ARTICLE: "the book does not have the article",
    Refusal.NO_BASE_LINE: "the article has no base price on that day, in that quantity",
    Refusal.MIXED_CURRENCIES: "a fixed amount is in another currency than the first base line",
    Refusal.TOTAL_OUT_OF_RANGE: "the total went beyond a thousand million cents",
    Refusal.SHORT_OUTPUT: "the lent output is too short",
    Refusal.NO_PACKAGING: "the book has no packaging data for the plain article",
    Refusal.BAD_PERIOD: "the period's end is no day, or before its start, or too late",
    Refusal.MANY_STRETCHES: "no call gives this number, which is kept unused",
    Refusal.UNFIT_PACKAGING: "packaging data are in different units, or sum up to less than zero",
    Refusal.NO_TEXT: "neither text book has the number",
    Refusal.BAD_ROW: "a line of the price file makes no price record, or a price record of the book makes no line",
    Refusal.BAD_RELATION: "the relation has something that no relation has at that place, or it ends too early",
    Refusal.DEEP_RELATION: "a condition of the relation has parentheses that are over sixteen deep",
    Refusal.UNFIT_NAME: "the relation derives a name that no question can grant, or over 32 names",
}


class Refused(Exception):
    """A call that was refused; `refusal` says why."""

    def __init__(self, refusal: Union[Refusal, int]) -> None:
        self.refusal = Refusal(refusal)
        # The refusal and not the sentence, so that a copy, or one that comes from another process, is made of it again.
        super().__init__(self.refusal)

    def __str__(self) -> str:
        return f"{self.refusal.reason} (refusal {self.refusal.value})"
