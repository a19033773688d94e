"""What is said of wrong values: `Class.field: a sentence`. A wrong type is a TypeError, a wrong value a ValueError."""
from __future__ import annotations

import re
from datetime import date, datetime
from decimal import Decimal
from enum import Enum
from typing import Iterable

TOP_32 = (1 << 32) - 1

# What a name may not hold: all but the printable characters of Latin-1.
NOT_IN_NAMES = re.compile("[^ -~\xa0-\xff]")
_MOST_SHOWN = 40


def unfit(where: str, wanted: str, value: object) -> TypeError:
    """The error for a value of a wrong type, as `unfit("text.number", "a whole number is wanted", "7")`."""
    return TypeError(f"{where}: {wanted}, not {told(value)}")


def told(value: object) -> str:
    """What a value is, for the end of a sentence; never long, whatever the value."""
    if value is None or isinstance(value, bool):
        return str(value)
    if isinstance(value, Enum):
        return f"{type(value).__name__}.{value.name}"
    if isinstance(value, (int, float, Decimal)):
        return f"the number {_short(value)}"
    if isinstance(value, str):
        return f"the text {value!r}" if len(value) <= _MOST_SHOWN else f"a text of {len(value):,} characters"
    if isinstance(value, date):
        return f"the {'moment' if isinstance(value, datetime) else 'day'} {value}"
    if isinstance(value, type):
        return f"the class {value.__name__}"
    kind = type(value).__name__
    return kind if kind == "bytes" else f"{'an' if kind[0] in 'AEIOUaeiou' else 'a'} {kind}"


def listed(words: Iterable[str]) -> str:
    """`one`, `one or two`, `one, two or three`."""
    *front, last = words
    return f"{', '.join(front)} or {last}" if front else last


def whole_number(where: str, value: object, least: int, most: int) -> None:
    if isinstance(value, bool) or not isinstance(value, int):
        raise unfit(where, "a whole number is wanted", value)
    if not least <= value <= most:
        raise ValueError(f"{where}: {_short(value, ',')} is out of range, {least:,} to {most:,} is allowed")


def truth(where: str, value: object) -> None:
    if not isinstance(value, bool):
        raise unfit(where, "True or False is wanted", value)


def day(where: str, value: object) -> None:
    if isinstance(value, datetime) or not isinstance(value, date):
        raise unfit(where, "a day is wanted, as datetime.date has it", value)


def name(where: str, value: object, least: int, most: int) -> None:
    if not isinstance(value, str):
        raise unfit(where, "a text is wanted", value)
    found = NOT_IN_NAMES.search(value)
    if found:
        raise ValueError(f"{where}: {character(found)}, and only the printable characters of Latin-1 are allowed")
    size(where, len(value), least, most)


def character(found: re.Match[str]) -> str:
    """Which character was found, and where."""
    return f"character {found.start() + 1} is {found[0]!r} (U+{ord(found[0]):04X})"


def counted(count: int) -> str:
    return f"{count:,} byte{'' if count == 1 else 's'}"


def size(where: str, length: int, least: int, most: int) -> None:
    if length < least:
        raise ValueError(f"{where}: it is empty, and {least} to {most} bytes are allowed")
    if length > most:
        raise ValueError(f"{where}: {length:,} bytes, and at most {most:,} are allowed")


def _short(value: object, form: str = "") -> str:
    """A number, unless it is so long that nobody reads it; Python refuses to print the longest ones."""
    if isinstance(value, int) and abs(value) >= 10 ** _MOST_SHOWN:
        return f"a number of over {_MOST_SHOWN} digits"
    shown = format(int(value) if isinstance(value, int) else value, form)
    return shown if len(shown) <= 2 * _MOST_SHOWN else f"a number of {len(shown)} characters"
