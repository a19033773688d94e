"""Answers as tables. A price: a row for each of its lines, what one piece and all pieces cost, and which granted names brought
nothing. A basket: a row for each of its positions, and what they cost together."""
from __future__ import annotations

from typing import Iterable, Optional

from .answers import Basket, Line, Price
from .calls import text
from .lending import Lent
from .refusals import Refusal, Refused
from .words import ONCE, Level, money

LEVELS = {Level.BASE: "base", Level.SURCHARGE: "surcharge", Level.DISCOUNT: "discount"}


def price_table(price: Price, asked: Optional[Lent], fallback: Optional[Lent], encoding: str) -> str:
    texts = Texts(asked, fallback, encoding)
    names = aligned([(LEVELS[line.level], texts.of(line), line.granted) for line in price.lines])
    totals = [("One piece", price.unit)]
    if price.quantity != 1:
        totals.append((pieces(price.quantity), price.total))
    rows = [*zip(names, (line.amount for line in price.lines)), *totals]
    shown = with_amounts(rows, price.currency)
    rule = "-" * len(shown[0])
    unused = [f"No price line for {name}" for name in price.unused_names]
    return "\n".join([*shown[:len(names)], rule, *shown[len(names):], *unused, *texts.trouble])


def basket_table(basket: Basket) -> str:
    heads = aligned([(asked.article, pieces(asked.quantity)) for asked in basket.asked])
    left = max(map(len, heads), default=0)
    sums = [f"{money(total)} {currency}" for currency, total in basket.totals.items()]
    units = below([money(one.unit) if isinstance(one, Price) else "" for one in basket])
    totals = below([*(f"{money(one.total)} {one.currency}" if isinstance(one, Price) else "" for one in basket), *sums])
    shown = [f"{head:{left}}  {f'{unit}  {total}' if isinstance(one, Price) else one}"
             for head, one, unit, total in zip(heads, basket, units, totals)]
    wide = max((len(row) for row, one in zip(shown, basket) if isinstance(one, Price)), default=0)
    together = [f"{'Together':{wide - len(total)}}{total}" for total in totals[len(basket):]]
    lacking = sum(isinstance(one, Refusal) for one in basket)
    rest = [f"Without a price: {lacking} of {len(basket)}"] if lacking else []
    return "\n".join([*shown, *(["-" * wide] if together else []), *together, *rest])


def pieces(quantity: int) -> str:
    return "1 piece" if quantity == 1 else f"{quantity:,} pieces"


def below(cells: list[str]) -> list[str]:
    """The cells of a column, which end below each other."""
    width = max(map(len, cells), default=0)
    return [f"{cell:>{width}}" for cell in cells]


def aligned(rows: list[tuple[str, ...]]) -> list[str]:
    """The columns below each other, two spaces between them."""
    widths = [max(map(len, column)) for column in zip(*rows)]
    return ["  ".join(f"{cell:{width}}" for cell, width in zip(row, widths)).rstrip() for row in rows]


def with_amounts(rows: Iterable[tuple[str, int]], currency: str) -> list[str]:
    """What stands on the left, and behind the longest of it the amounts, which end below each other."""
    names, amounts = zip(*((name, money(amount)) for name, amount in rows))
    left, right = max(map(len, names)), max(map(len, amounts))
    return [f"{name:{left}}  {amount:>{right}} {currency}" for name, amount in zip(names, amounts)]


class Texts:
    """The texts of lines. What goes wrong with a text is shown beside the price, never in its place."""

    def __init__(self, asked: Optional[Lent], fallback: Optional[Lent], encoding: str) -> None:
        given = [book for book in (asked, fallback) if book is not None]
        self.books = (given[0], given[-1]) if given else None
        self.encoding = encoding
        self.trouble: list[str] = []

    def of(self, line: Line) -> str:
        """A line's text, and behind it the factor that its condition has, unless that is 1."""
        return self._words(line.text) + (f" x {line.factor}" if line.factor != ONCE else "")

    def _words(self, number: int) -> str:
        found = self._found(number)
        if found is None:
            return f"text {number}" if number else "no text"
        return "".join(character if character.isprintable() else " " for character in found)

    def _found(self, number: int) -> Optional[str]:
        if self.books is None:
            return None
        try:
            return bytes(text(*self.books, number).part).decode(self.encoding, "replace")
        except Refused as refused:
            if refused.refusal is not Refusal.NO_TEXT:
                self.trouble = [f"No texts: {refused}"]
            return None
