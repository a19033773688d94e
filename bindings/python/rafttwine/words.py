"""The words that books, questions and answers share."""
from __future__ import annotations

import re
from dataclasses import dataclass
from datetime import date
from decimal import Decimal
from enum import Enum, IntEnum
from functools import lru_cache
from typing import Union

from .checks import TOP_32, whole_number
from .decimals import Decimals

MOST_CENTS = 100_000_000
MOST_HUNDREDTHS = 100_000
MOST_FACTOR = 10_000

_PERCENT = Decimals("Percent.share", "percentage", "12.50", -MOST_HUNDREDTHS // 100, MOST_HUNDREDTHS // 100, 2)
_FACTOR = Decimals("Factor.times", "factor", "2.5", 0, MOST_FACTOR // 1000, 3)


class Sort(Enum):
    """Whose price: what a customer pays, or what the maker is paid."""

    SALE = b"S"
    PURCHASE = b"P"


class Level(Enum):
    """In which part of a price a line stands; the parts come in this order."""

    BASE = b"B"
    SURCHARGE = b"X"
    DISCOUNT = b"D"


class Rule(IntEnum):
    """What a percentage is of."""

    OF_BASE = 1
    OF_TOTAL_SO_FAR = 2


class Way(IntEnum):
    """To which multiple of its step an amount is rounded: not above it, not below it, or the nearest (halves away from zero)."""

    DOWN = 0
    UP = 1
    COMMERCIAL = 2


class RowWarning(UserWarning):
    """A row, or a granted condition, that is right by its layout and does what hardly anybody wants."""


@dataclass(frozen=True)
class Cents:
    """A fixed amount, at most 100,000,000 either side of zero."""

    amount: int

    def __post_init__(self) -> None:
        whole_number("Cents.amount", self.amount, -MOST_CENTS, MOST_CENTS)

    def __str__(self) -> str:
        return money(self.amount)


@dataclass(frozen=True, repr=False)
class Percent:
    """A percentage with at most two decimals, as "12.50" or -3, at most 1,000 either side of zero. `share` is kept as a Decimal
    with two decimals, whatever it was made of."""

    share: Union[str, int, Decimal]

    def __post_init__(self) -> None:
        object.__setattr__(self, "share", _PERCENT.kept(self.share))

    @classmethod
    def of_hundredths(cls, hundredths: int) -> Percent:
        """The percentage of so many hundredths of a percent."""
        whole_number("Percent.hundredths", hundredths, -MOST_HUNDREDTHS, MOST_HUNDREDTHS)
        return cls(money(hundredths, ""))

    def hundredths(self) -> int:
        return _PERCENT.counted(Decimal(self.share))

    def __repr__(self) -> str:
        return f"Percent('{self.share}')"

    def __str__(self) -> str:
        return f"{self.share} %"


Value = Union[Cents, Percent]


@dataclass(frozen=True, repr=False)
class Factor:
    """How many times a granted condition counts, as "2.5" or 3, from 0 to 10 with at most three decimals. `times` is kept as a
    Decimal with three decimals, whatever it was made of."""

    times: Union[str, int, Decimal]

    def __post_init__(self) -> None:
        object.__setattr__(self, "times", _FACTOR.kept(self.times).copy_abs())  # of zero too, which has a sign here

    @classmethod
    def of_thousandths(cls, thousandths: int) -> Factor:
        """The factor of so many thousandths: 2500 is two and a half times."""
        whole_number("Factor.thousandths", thousandths, 0, MOST_FACTOR)
        return _factor(thousandths)

    def thousandths(self) -> int:
        return _FACTOR.counted(Decimal(self.times))

    def __repr__(self) -> str:
        return f"Factor('{self}')"

    def __str__(self) -> str:
        """Without decimals that say nothing: 2.5, 3."""
        return str(self.times).rstrip("0").rstrip(".")


@lru_cache(maxsize=None)
def _factor(thousandths: int) -> Factor:
    return Factor(f"{thousandths // 1000}.{thousandths % 1000:03}")


# What a condition has that is granted by its name alone.
ONCE = _factor(1000)


@dataclass(frozen=True)
class NoDay:
    """A number that stands where a row's day should, and is none. Such a row is in its book and is never chosen."""

    number: int

    def __post_init__(self) -> None:
        whole_number("NoDay.number", self.number, 0, TOP_32)
        try:
            day = day_of(self.number)
        except (ValueError, OverflowError):
            return
        raise ValueError(f"NoDay.number: {self.number} is a day, which is given as {day!r}")

    def __str__(self) -> str:
        return f"{self.number} (no day)"


def day_number(day: date) -> int:
    """The number yyyymmdd."""
    return day.year * 10_000 + day.month * 100 + day.day


def day_of(number: int) -> date:
    """The day of a number yyyymmdd."""
    return date(number // 10_000, number // 100 % 100, number % 100)


@lru_cache(maxsize=4096)
def day_or_number(number: int) -> Union[date, NoDay]:
    """The day of a number yyyymmdd, or the number if it is that of no day."""
    try:
        return day_of(number)
    except (ValueError, OverflowError):
        return NoDay(number)


def raised(name: str) -> str:
    """A granted name as the library compares it: with capitals for the small letters that have one in Latin-1, which ß and ÿ lack.
    Names in rows stand as they are."""
    return re.sub("[a-zà-öø-þ]", lambda letter: letter[0].upper(), name)


def money(hundredths: int, between: str = ",") -> str:
    """An amount of cents in whole units with two decimals, as 1,234.50."""
    whole, cents = divmod(abs(hundredths), 100)
    return f"{'-' if hundredths < 0 else ''}{whole:{between}}.{cents:02}"
