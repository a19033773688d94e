"""Shows what the library answers to the questions of a sheet of rows:  show.py [--check] LANGUAGE SHEET

With --check it says only what is wrong with the sheet or the language, and needs no library for that."""
from __future__ import annotations

import os
import sys
from datetime import date
from decimal import Decimal
from typing import Callable, Iterable, Optional, Union

from desk import Desk
from rafttwine import (Factor, Granted, Held, Line, Packaging, Price, Refusal, Refused, Stretch, basket, calendar, final_number,
                       packaging, price, text)
from relations import Relation
from rows import Sheet, Wrong
from sections import Offered

UNIT_NAMES = {"CMT": "cm", "FOT": "ft", "INH": "in", "MMT": "mm", "MTR": "m", "INQ": "cubic in", "LTR": "l", "MTQ": "cubic m",
              "KGM": "kg", "LBR": "lb", "MGM": "mg"}
# What stands on the left, an amount or a measure, and its currency or unit.
Shown = tuple[str, str, str]
RULE: Shown = ("", "", "")
CURRENCY_WIDTH = 3
ONCE = Factor(1)

# Refusals that a right sheet can meet. Every other one is a fault of the sheet that nothing here found.
WHY_NOT = {
    Refusal.NO_BASE_LINE: "There is no price for this day.",
    Refusal.MIXED_CURRENCIES: "There is no price for this day: its amounts are in different currencies.",
    Refusal.TOTAL_OUT_OF_RANGE: "There is no price for this day: the amounts add up to more than 10,000,000.00.",
    Refusal.NO_PACKAGING: "Nothing is known about the cartons of this article.",
    Refusal.UNFIT_PACKAGING: "The data about the cartons are in different units, or add up to less than nothing.",
}
WHY_NO_STRETCH = {Refusal.MIXED_CURRENCIES: "(different currencies)", Refusal.TOTAL_OUT_OF_RANGE: "(too large)"}


def main(arguments: list[str]) -> int:
    checking = arguments[:1] == ["--check"]
    language, file = arguments[checking:]
    try:
        desk = Desk(Sheet(file), language)
        if not checking:
            desk.read_price_files()
            print(*desk.warnings, sep="\n", end="\n" if desk.warnings else "", file=sys.stderr)
            show(desk)
        return 0
    except Wrong as wrong:
        print(wrong, file=sys.stderr)
        return wrong.status


def show(desk: Desk) -> None:
    asked = desk.asked
    some_day = desk.question(asked.days[0])
    sections = {
        **{f"Price on {long(day)}": answered(desk, lambda: itemised(desk, day)) for day in asked.days},
        **{f"Price by relation on {long(one.related.day)}": derived(desk, one) for one in desk.relations},
        **({"Offer": answered(desk, lambda: offer(desk))} if desk.offer else {}),
        "Calendar of the price of one piece": answered(desk, lambda: stretches(desk)),
        "Order number": answered(desk, lambda: [(final_number(desk.book, some_day), "", "")]),
        "Cartons of one piece": answered(desk, lambda: measures(packaging(desk.book, some_day))),
    }
    print(", ".join([asked.article, pieces(asked.quantity), *([f"with {', '.join(map(wish, asked.granted))}"] if asked.granted else [])]))
    print_aligned(sections)


def answered(desk: Desk, rows: Callable[[], list[Shown]]) -> list[Shown]:
    try:
        return rows()
    except Refused as refused:
        if refused.refusal not in WHY_NOT:
            raise Wrong([f"{desk.file}: the library does not take what the sheet says: {refused}"]) from None
        return [(WHY_NOT[refused.refusal], "", "")]


def print_aligned(sections: dict[str, list[Shown]]) -> None:
    """Each section below its title; the columns are as wide in one as in the others."""
    with_amounts = [row for rows in sections.values() for row in rows if row[1]]
    left, middle = (max((len(row[column]) for row in with_amounts), default=0) for column in range(2))
    for title, rows in sections.items():
        print(f"\n{title}")
        for row in rows:
            rule = "-" * (left + 2 + middle + 1 + CURRENCY_WIDTH)
            print(f"  {rule if row is RULE else f'{row[0]:{left}}  {row[1]:>{middle}} {row[2]}'}".rstrip())


def itemised(desk: Desk, day: date) -> list[Shown]:
    return lines_of(desk, price(desk.book, desk.question(day)))


def derived(desk: Desk, relation: Relation) -> list[Shown]:
    """What was chosen, what the relation grants for it, and what that costs."""
    chosen, names = ", ".join(map(choice, desk.chosen)), ", ".join(relation.names(desk.chosen))
    told = [f"Chosen: {chosen or 'nothing'}", f"Granted by {relation.related.name}: {names or 'nothing'}"]
    price_lines = answered(desk, lambda: lines_of(desk, relation.price(desk.book, desk.chosen)))
    return [*((sentence, "", "") for sentence in told), *price_lines]


def choice(one: Held) -> str:
    value = f"'{one.value}'" if isinstance(one.value, str) else "none" if one.value is None else one.value
    return f"{one.name} {value}"


def lines_of(desk: Desk, answer: Price) -> list[Shown]:
    """The lines with their texts, what one piece costs and what all cost, and which wishes are in no line."""
    lines = [(line_text(desk, line), line.amount) for line in answer.lines]
    totals = [("One piece", answer.unit), *([(pieces(answer.quantity), answer.total)] if answer.quantity > 1 else [])]
    listed, summed = ([(name, amount(cents), answer.currency) for name, cents in rows] for rows in (lines, totals))
    return [*listed, RULE, *summed, *((f"No price line for {name}", "", "") for name in answer.unused_names)]


def offer(desk: Desk) -> list[Shown]:
    """What each position costs, or why there is no price, and what those together cost that have one."""
    prices = basket(desk.book, desk.offered())
    rows = [row for one, found in zip(desk.offer, prices) for row in position(desk, one, found)]
    sums = [("Together", amount(cents), currency) for currency, cents in prices.totals.items()]
    lacking = sum(isinstance(one, Refusal) for one in prices)
    note = [(f"Not in the sum: {lacking} without a price", "", "")] if sums and lacking else []
    return [*rows, *([RULE, *sums] if sums else []), *note]


def position(desk: Desk, one: Offered, found: Union[Price, Refusal]) -> list[Shown]:
    """Called by the text of its first line, or else by its article, and by the wishes that are in the price."""
    if isinstance(found, Refusal):
        if found not in WHY_NOT:
            raise Refused(found)
        why = WHY_NO_STRETCH.get(found, f"on {one.day.day} {one.day:%b %Y}")
        return [(f"{one.quantity} x {one.article}", "no price", why)]
    name = text_of(desk, found.lines[0].text) or one.article
    wishes = [wish(one.granted[place - 1]) for place in sorted({line.place for line in found.lines} - {0})]
    unused = [(f"No price line for {wish}", "", "") for wish in found.unused_names]
    return [(", ".join([f"{one.quantity} x {name}", *wishes]), amount(found.total), found.currency), *unused]


def wish(granted: Granted) -> str:
    return granted.name + times(granted.factor)


def times(factor: Factor) -> str:
    """How many times, where that is not once."""
    return "" if factor == ONCE else f" x {factor}"


def line_text(desk: Desk, line: Line) -> str:
    """The text of a line, and how many times it counts. A text that is nowhere is no reason to keep the price back."""
    found = text_of(desk, line.text)
    return (found if found is not None else f"text {line.text}" if line.text else "no text number") + times(line.factor)


def text_of(desk: Desk, number: int) -> Optional[str]:
    """None for a text that is nowhere."""
    if not number:
        return None
    try:
        return bytes(text(*desk.texts, number).part).decode("latin-1")
    except Refused as refused:
        if refused.refusal is not Refusal.NO_TEXT:
            raise
        return None


def stretches(desk: Desk) -> list[Shown]:
    return [stretch_row(one) for one in calendar(desk.book, desk.question(desk.asked.first_day), desk.asked.last_day)]


def stretch_row(stretch: Stretch) -> Shown:
    days = f"{short(stretch.first)} to {short(stretch.last)}"
    if isinstance(stretch.outcome, Refusal):
        return (days, "no price", WHY_NO_STRETCH.get(stretch.outcome, ""))
    return (days, amount(stretch.outcome.unit), stretch.outcome.currency)


def measures(carton: Packaging) -> list[Shown]:
    return [
        *counted(("Cartons", carton.packs), ("Pieces in a carton", carton.items)),
        *measured(carton.length_unit, ("Width", carton.width), ("Height", carton.height), ("Depth", carton.depth)),
        *measured(carton.volume_unit, ("Volume", carton.volume)),
        *measured(carton.weight_unit, ("Net weight of a piece", carton.net), ("Tare", carton.tare), ("Gross weight", carton.gross)),
    ]


def counted(*values: tuple[str, Optional[int]]) -> Iterable[Shown]:
    return ((name, str(value), "") for name, value in values if value is not None)


def measured(unit: Optional[str], *values: tuple[str, Optional[int]]) -> Iterable[Shown]:
    return ((name, f"{Decimal(value) / 1000:,.3f}", UNIT_NAMES[unit or ""]) for name, value in values if value is not None)


def pieces(quantity: int) -> str:
    return "1 piece" if quantity == 1 else f"{quantity} pieces"


def amount(cents: int) -> str:
    return f"{Decimal(cents) / 100:,.2f}"


def long(day: date) -> str:
    return f"{day:%A} {day.day} {day:%B %Y}"


def short(day: date) -> str:
    return f"{day.day:2} {day:%b %Y}"


def to_the_end(command: Callable[[], int]) -> int:
    """A reader who has seen enough (`demo/run | head`) is no fault; a letter that the terminal lacks becomes a question mark."""
    sys.stdout.reconfigure(errors="replace")
    try:
        status = command()
        sys.stdout.flush()
        return status
    except BrokenPipeError:
        os.dup2(os.open(os.devnull, os.O_WRONLY), sys.stdout.fileno())
        return 0
    except (ImportError, OSError) as error:
        print(f"the library can't be used: {error}", file=sys.stderr)
        return 1


if __name__ == "__main__":
    sys.exit(to_the_end(lambda: main(sys.argv[1:])))
