"""What the calls answer, and how it reads. All amounts are in cents."""
from __future__ import annotations

from dataclasses import dataclass
from datetime import date
from enum import IntEnum
from typing import Iterator, Optional, Sequence, Union, overload

from .lending import Lent
from .refusals import Refusal
from .words import ONCE, Factor, Level, money


@dataclass(frozen=True)
class Line:
    """A line of a price. `text` is the number of its text; `place` that of the granted condition that brought it, 0 for none, and
    `granted` that condition's name as it was asked. `factor` is that condition's, and in the amount already."""

    text: int
    level: Level
    place: int
    amount: int
    granted: str = ""
    factor: Factor = ONCE


@dataclass(frozen=True)
class Price:
    """An itemised price, of one piece and of the quantity asked for. `unused` has the places of granted names without a line, from
    1, and `unused_names` those names. Printed, it is the table that a salesperson reads."""

    unit: int
    total: int
    currency: str
    lines: tuple[Line, ...]
    unused: tuple[int, ...]
    quantity: int = 1
    unused_names: tuple[str, ...] = ()

    def __str__(self) -> str:
        return self.table()

    def table(self, asked: Optional[Lent] = None, fallback: Optional[Lent] = None, encoding: str = "latin-1") -> str:
        """The lines with their texts from the asked text book, or else from the fallback, if there is one. A text that is in
        neither shows as its number, and so do all if a text book is broken, which the last line then says."""
        from .showing import price_table  # here, since it asks the library, whose calls make prices
        return price_table(self, asked, fallback, encoding)


Entry = Union[Price, Refusal]


@dataclass(frozen=True)
class Asked:
    """What a position of a basket asks for."""

    article: str
    quantity: int


@dataclass(frozen=True)
class Basket(Sequence[Entry]):
    """The prices of many questions, in their order: a sequence of prices, with the refusal in the place of one that there is not.
    `asked` has what each asks for. Printed, it is a table with what all pieces of each cost."""

    entries: tuple[Entry, ...]
    asked: tuple[Asked, ...]

    @overload
    def __getitem__(self, place: int) -> Entry: ...

    @overload
    def __getitem__(self, place: slice) -> tuple[Entry, ...]: ...

    def __getitem__(self, place: Union[int, slice]) -> Union[Entry, tuple[Entry, ...]]:
        return self.entries[place]

    def __len__(self) -> int:
        return len(self.entries)

    def __iter__(self) -> Iterator[Entry]:
        return iter(self.entries)

    @property
    def totals(self) -> dict[str, int]:
        """What everything costs that has a price, by currency: amounts in different currencies make no sum."""
        found: dict[str, int] = {}
        for one in self.entries:
            if isinstance(one, Price):
                found[one.currency] = found.get(one.currency, 0) + one.total
        return found

    def __str__(self) -> str:
        from .showing import basket_table  # here, as for a price
        return basket_table(self)


@dataclass(frozen=True)
class DayPrice:
    """What one piece costs on each day of a stretch."""

    unit: int
    currency: str

    def __str__(self) -> str:
        return f"{money(self.unit)} {self.currency}"


@dataclass(frozen=True)
class Stretch:
    """Days in a row with one outcome, from `first` to `last`: a price, or the reason why there is none."""

    first: date
    last: date
    outcome: Union[DayPrice, Refusal]

    def __str__(self) -> str:
        days = str(self.first) if self.first == self.last else f"{self.first} to {self.last}"
        return f"{days}: {self.outcome}"


@dataclass(frozen=True)
class Packaging:
    """Packaging data of the article as planned; None where it is not known. Sizes and weights are in thousandths of their unit."""

    width: Optional[int]
    height: Optional[int]
    depth: Optional[int]
    volume: Optional[int]
    tare: Optional[int]
    net: Optional[int]
    items: Optional[int]
    packs: Optional[int]
    gross: Optional[int]
    length_unit: Optional[str]
    volume_unit: Optional[str]
    weight_unit: Optional[str]


class Source(IntEnum):
    """Which text book has a text."""

    ASKED = 1
    FALLBACK = 2


@dataclass(frozen=True)
class Text:
    """A text: in which book it stands, where, and the part of that very book, which is not copied."""

    source: Source
    place: int
    part: memoryview
