"""What a cell can hold. Each kind of cell has a reader, which gives the value or raises `Unfit` with what is allowed."""
from __future__ import annotations

import re
from datetime import date
from typing import Any, Callable, Mapping, Optional, Union

from rafttwine import Cents, Factor, Percent
from rafttwine.relation_texts import RESERVED, WORD

Reader = Callable[[str], Any]

# The most that a price row can hold, either side of zero.
MOST_CENTS = 100_000_000
MOST_HUNDREDTHS = 100_000
MOST_FACTOR = 10_000
# A number with more digits is beyond every bound of a book, however it goes on.
MOST_DIGITS = 12
BEYOND = 10 ** 18


class Unfit(ValueError):
    """The cell holds something else; the sentence says what is allowed."""


def word_of(words: Mapping[str, Any]) -> Reader:
    """One of these words, which stand for values; the empty word for an empty cell."""
    *others, last = [word or "empty" for word in words]

    def read(cell: str) -> Any:
        if cell not in words:
            raise Unfit(f"{', '.join(others)} or {last}")
        return words[cell]
    return read


yes_or_no = word_of({"yes": True, "no": False, "": False})


def name_of(least: int, most: int) -> Reader:
    """So many letters, each one that a book can hold."""
    def read(cell: str) -> str:
        if len(cell) < least:
            raise Unfit("must not be empty")
        for letter in cell:
            if ord(letter) > 255:
                raise Unfit(f'Latin-1, the letters of a book, lacks "{letter}"')
            if ord(letter) < 32 or 126 < ord(letter) < 160:
                raise Unfit(f"a sign without a shape, number {ord(letter)}, can't be in a book")
        if len(cell) > most:
            raise Unfit(f"{len(cell)} letters, and at most {most} are allowed")
        return cell
    return read


def file_of(example: str) -> Reader:
    def read(cell: str) -> str:
        if not cell:
            raise Unfit(f"the name of a file beside this sheet, as {example}")
        return cell
    return read


def property_of(cell: str) -> str:
    """The name of a property as relations see it, in capitals."""
    if not re.fullmatch(WORD, cell) or cell.upper() in RESERVED:
        raise Unfit("a name that a relation can have: letters, digits and _, and no reserved word")
    return name_of(1, 255)(cell.upper())


def chosen_of(cell: str) -> Union[str, int, None]:
    """What was chosen for a property: a text in quotes, a whole number, or nothing."""
    text, number = re.fullmatch("'([^']*)'", cell), re.fullmatch("-?[0-9]{1,18}", cell)
    if not (text or number or not cell):
        raise Unfit("a text in quotes, as 'oak', a whole number of up to 18 digits, or empty")
    return name_of(0, 255)(text[1]) if text else int(cell) if number else None


def currency_of(cell: str) -> str:
    if not re.fullmatch("[A-Z]{3}", cell):
        raise Unfit("three capitals, as EUR")
    return cell


def day_of(cell: str) -> date:
    if not re.fullmatch("[0-9]{4}-[0-9]{2}-[0-9]{2}", cell):
        raise Unfit("a day as 2026-06-30")
    try:
        return date.fromisoformat(cell)
    except ValueError:
        raise Unfit("a day of the calendar, as 2026-06-30; there is no such day") from None


def several(read_one: Reader, least: int, most: int, wanted: str) -> Reader:
    """A list in one cell, with commas between; an empty cell for none."""
    def read(cell: str) -> list[Any]:
        words = [word.strip() for word in cell.split(",")] if cell else []
        if len(words) < least or "" in words:
            raise Unfit(f"{wanted}, with commas between")
        if len(words) > most:
            raise Unfit(f"{len(words)} with commas between, and at most {most} are allowed")
        return [read_one(word) for word in words]
    return read


def condition_of(cell: str) -> tuple[str, Factor]:
    """A granted name, which may have a factor behind it, as `edge x 4.8`."""
    found = re.fullmatch(r"(?:(.*\S) )?x ([-.0-9]\S*)", cell)
    if not found:
        return name_of(1, 20)(cell), Factor(1)
    try:
        return name_of(1, 20)(found[1] or ""), Factor.of_thousandths(parts_of(3, 0, MOST_FACTOR)(found[2]))
    except Unfit as unfit:
        raise Unfit(f'in "{cell}": {unfit}') from None


def whole_of(least: int, most: int, empty: Optional[int] = None) -> Reader:
    """A whole number within bounds. Where an empty cell is allowed, `empty` is the number that it stands for."""
    allowed = f"a whole number from {least} to {most}" + ("" if empty is None else ", or empty")

    def read(cell: str) -> int:
        if not cell and empty is not None:
            return empty
        number = _parts(cell, 0)
        if number is None or not least <= number <= most:
            raise Unfit(allowed)
        return number
    return read


def parts_of(decimals: int, least: int, most: int) -> Reader:
    """A number with at most so many decimals, counted in its smallest parts: 12.5 with three decimals is 12500."""
    one = 10 ** decimals
    allowed = f"a number from {least / one:.{decimals}f} to {most / one:.{decimals}f}, with a point and at most {decimals} decimals"

    def read(cell: str) -> int:
        number = _parts(cell, decimals)
        if number is None or not least <= number <= most:
            raise Unfit(allowed)
        return number
    return read


def if_given(read_one: Reader) -> Reader:
    """None for an empty cell."""
    return lambda cell: read_one(cell) if cell else None


def value_of(cell: str) -> Any:
    """The value of a price row: an amount, or a percentage with its sign behind it."""
    share = cell.endswith("%")
    number = _parts(cell[:-1].rstrip() if share else cell, 2)
    if number is None:
        raise Unfit("an amount as 459.00 or a percentage as 12.50 %, with a point and at most two decimals")
    most = MOST_HUNDREDTHS if share else MOST_CENTS
    if abs(number) > most:
        raise Unfit(f"at most {most / 100:.2f}{' %' if share else ''} either side of zero")
    return Percent(cell[:-1].rstrip()) if share else Cents(number)


def _parts(cell: str, decimals: int) -> Optional[int]:
    """The number in its smallest parts; None if it is not written as a number with at most so many decimals."""
    found = re.fullmatch(rf"(-?[0-9]+)(?:\.([0-9]{{1,{decimals}}}))?" if decimals else "(-?[0-9]+)()", cell)
    if not found:
        return None
    return BEYOND if len(found[1]) > MOST_DIGITS else int(found[1] + (found[2] or "").ljust(decimals, "0"))
