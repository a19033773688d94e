"""The records of a price book, but for cartons: articles, price rows, roundings, schemes. Each is checked when it is made."""
from __future__ import annotations

from dataclasses import dataclass
from datetime import date
from typing import ClassVar, Optional, Union

from .checks import unfit
from .fields import Character, Flag, Letters, Name, Number, RowDay, Signed, Word
from .laid import Clash, Laid, Layout
from .packing import Cursor, signed, unsigned
from .words import Cents, Level, NoDay, Percent, Rule, Sort, Value, Way, raised

ARTICLE, CONDITION, SCHEME = Name(1, 40), Name(0, 20), Name(0, 20)
CURRENCY = "a currency of three capitals"


@dataclass(frozen=True)
class Article(Laid):
    """An article that can be priced, and the scheme of its final number, if it has one."""

    number: str
    scheme: str = ""

    KIND: ClassVar[int] = 1
    LAYOUT: ClassVar[Layout] = (("number", ARTICLE), ("scheme", SCHEME))


class Amount:
    """Cents or a percentage: a byte says which, then the number."""

    def check(self, where: str, value: object) -> None:
        if not isinstance(value, (Cents, Percent)):
            raise unfit(where, "Cents or Percent is wanted", value)

    def packed(self, value: Value) -> bytes:
        if isinstance(value, Cents):
            return unsigned(1, 1) + signed(value.amount, 4)
        return unsigned(0, 1) + signed(value.hundredths(), 4)

    def read(self, where: str, cursor: Cursor) -> Value:
        fixed = Flag().read(where, cursor)
        number = cursor.signed(4)
        return Cents(number) if fixed else Percent.of_hundredths(number)


@dataclass(frozen=True)
class PriceRow(Laid):
    """A price row. It holds from `first` to `last`, both included, up to the quantity `up_to` (0: any), and where `condition` is
    granted (empty: always). `text` is the number of its line's text, `rounding` that of a rounding in the same book (0: none).

    Granted names are raised to capitals, and `condition` stands as it is: in small letters it is never granted. Values are added
    with their sign: a discount with a positive value raises the price. A RowWarning tells of either."""

    article: str
    level: Level
    value: Value
    condition: str = ""
    rule: Rule = Rule.OF_BASE
    sort: Sort = Sort.SALE
    currency: str = "EUR"
    first: Union[date, NoDay] = date.min
    last: Union[date, NoDay] = date.max
    up_to: int = 0
    rounding: int = 0
    text: int = 0

    KIND: ClassVar[int] = 2
    LAYOUT: ClassVar[Layout] = (
        ("article", ARTICLE), ("condition", CONDITION), ("sort", Word(Sort)), ("level", Word(Level)), ("rule", Word(Rule)),
        ("text", Number(4)), ("value", Amount()), ("currency", Letters(CURRENCY, needed=True)), ("first", RowDay()),
        ("last", RowDay()), ("up_to", Number(4)), ("rounding", Number(2)),
    )

    def doubts(self) -> list[tuple[str, str]]:
        found = never_granted(self.condition)
        above_zero = self.value.amount > 0 if isinstance(self.value, Cents) else self.value.hundredths() > 0
        if self.level is Level.DISCOUNT and above_zero:
            found.append(("value", f"a discount of {self.value} raises the price; what lowers it is below zero"))
        if self.level is Level.BASE and isinstance(self.value, Percent):
            found.append(("value", "a base price in percent never counts; a base price is an amount"))
        if isinstance(self.first, date) and isinstance(self.last, date) and self.last < self.first:
            found.append(("last", f"{self.last} is before {self.first}, the first day, so the row never holds"))
        return found


def never_granted(condition: str) -> list[tuple[str, str]]:
    """What is doubtful about a row's condition."""
    if condition == raised(condition):
        return []
    return [("condition", f"{condition!r} is never granted: granted names are raised to capitals, so write {raised(condition)!r}")]


@dataclass(frozen=True)
class Rounding(Laid):
    """How an amount is rounded: `before` is added, a multiple of `step` is taken, `after` is added; all in cents."""

    number: int
    way: Way
    step: int
    before: int = 0
    after: int = 0

    KIND: ClassVar[int] = 3
    LAYOUT: ClassVar[Layout] = (
        ("number", Number(2, 1)), ("way", Word(Way)), ("step", Number(4, 1, 1_000_000)), ("before", Signed(1_000_000)),
        ("after", Signed(1_000_000)),
    )


@dataclass(frozen=True)
class Scheme(Laid):
    """How the final article number is put together: the base number, `before_values` (empty: one space), and the values joined by
    `between_values`. `hidden` and `unselected` are single characters, None for the usual `-` and `X`. With `trim` values are not
    filled up to their width; then `between_values` is not empty, nor just the hidden or the unselected character."""

    id: str
    before_values: str = ""
    between_values: str = ""
    hidden_shown: bool = False
    hidden: Optional[str] = None
    unselected: Optional[str] = None
    trim: bool = False

    KIND: ClassVar[int] = 5
    LAYOUT: ClassVar[Layout] = (
        ("id", Name(1, 20)), ("before_values", Name(0, 8)), ("between_values", Name(0, 8)), ("hidden_shown", Flag()),
        ("hidden", Character()), ("unselected", Character()), ("trim", Flag()),
    )

    def clash(self) -> Clash:
        if not self.trim:
            return None
        if not self.between_values:
            return "between_values", "it is empty, and with trim values need something between them"
        for what, character in (("hidden", self.hidden or "-"), ("unselected", self.unselected or "X")):
            if self.between_values == character:
                return "between_values", f"with trim it may not be {character!r}, the character for {what} properties"
        return None
