"""What is wrong with a line of a price file: found in Python for the message alone. Whether a line is bad the library decides."""
from __future__ import annotations

import re
from typing import Callable, Iterator, NamedTuple

from . import checks
from .words import MOST_CENTS, MOST_HUNDREDTHS, money

FIELDS = ("ArticleID", "Variantcondition", "Type", "Level", "Rule", "TextID", "PriceValue", "FixValue", "Currency", "DateFrom",
          "DateTo", "ScaleQuantity", "RoundingID")
TEXT, VALUE, FIXED = FIELDS.index("TextID"), FIELDS.index("PriceValue"), FIELDS.index("FixValue")

_QUOTED = re.compile(r'"((?:[^"]|"")*)" *(?=;|\Z)')
_UNQUOTED = re.compile(r"[^;]*")
_NUMBER = re.compile(r"-?([0-9]*)\.?([0-9]*)")
_MOST_SHOWN = 40
_MOST_DIGITS = len(str(checks.TOP_32))


class Unfit(ValueError):
    """What is wrong with a field, without its name."""


class Fault(NamedTuple):
    """A field of a line, and what is wrong with it; the field is empty where it is the line as a whole."""

    field: str
    wrong: str


def numbered_lines(file: bytes) -> Iterator[tuple[int, str]]:
    """The lines of a file that say something, each with its number."""
    for number, line in enumerate(file.decode("latin-1").split("\n"), 1):
        if not line.startswith("#") and line.strip(" \t"):
            yield number, line


def looks_like_utf_8(data: bytes) -> bool:
    """Letters beyond ASCII that are well-formed in UTF-8 are hardly ever meant as Latin-1."""
    try:
        return not data.isascii() and bool(data.decode("utf-8"))
    except UnicodeDecodeError:
        return False


def fault(line: str) -> Fault | None:
    """The first fault of a line, or None where it has none that is known here."""
    found = _fault(line)
    if found and looks_like_utf_8(line.encode("latin-1")):
        return Fault(found.field, f"{found.wrong}; it looks like UTF-8, and is to be in Latin-1")
    return found


def _fault(line: str) -> Fault | None:
    if line.endswith("\r"):
        return Fault("", "it ends in CR and LF; save the file with LF alone at the ends of lines")
    try:
        found = fields_of(line)
    except Unfit as unfit:
        return Fault("", str(unfit))
    for name, text in zip(FIELDS, found):
        try:
            _CHECKS[name](name, text)
        except ValueError as error:
            return Fault(name, str(error).removeprefix(f"{name}: "))
    return _out_of_bounds(found)


def fields_of(line: str) -> list[str]:
    """The fields of a line without their quotes: as many as there are to be."""
    found, at = [], 0
    while True:
        part = (_QUOTED if line.startswith('"', at) else _UNQUOTED).match(line, at)
        if part is None:
            place = FIELDS[len(found)] if len(found) < len(FIELDS) else f"field {len(found) + 1}"
            raise Unfit(f"the quotes of {place} do not close before a semicolon or the line's end")
        found.append(part[1].replace('""', '"') if line.startswith('"', at) else part[0])
        at = part.end() + 1
        if at > len(line):
            break
    if len(found) != len(FIELDS):
        counted = "1 field" if len(found) == 1 else f"{len(found)} fields"
        raise Unfit(f"{counted}, and {len(FIELDS)} are needed, with a semicolon between two")
    return found


def _no(what: str, wanted: str, text: str) -> Unfit:
    if not text:
        return Unfit(f"it is empty, and {what} is needed: {wanted}")
    shown = repr(text) if len(text) <= _MOST_SHOWN else f"a text of {len(text):,} characters"
    return Unfit(f"{shown} is no {what.split(' ', 1)[1]}: {wanted}")


def _name(least: int, most: int) -> Callable[[str, str], None]:
    return lambda where, text: checks.name(where, text, least, most)


def _one_of(what: str, words: str, meaning: str) -> Callable[[str, str], None]:
    def check(where: str, text: str) -> None:
        if len(text) != 1 or text not in words:
            raise _no(what, meaning, text)
    return check


def _matches(what: str, wanted: str, pattern: str) -> Callable[[str, str], None]:
    def check(where: str, text: str) -> None:
        if not re.fullmatch(pattern, text):
            raise _no(what, wanted, text)
    return check


def _value(where: str, text: str) -> None:
    number = _NUMBER.fullmatch(text)
    if not number or not number[1] + number[2]:
        raise _no("an amount", "digits with a point, at most two decimals", text)
    if number[2][2:].strip("0"):
        raise _no("an amount", "at most two decimals", text)


def _quantity(where: str, text: str) -> None:
    if not re.fullmatch("[0-9]+", text):
        raise _no("a quantity", "digits alone", text)
    digits = text.lstrip("0")
    if len(digits) > _MOST_DIGITS or int(digits or "0") > checks.TOP_32:
        raise Unfit(f"at most {checks.TOP_32:,} is allowed")


def _blank(where: str, text: str) -> None:
    if text:
        raise Unfit("a rounding can't be named here: the field has to be empty")


def _out_of_bounds(found: list[str]) -> Fault | None:
    """Amount or percentage decides how great the value may be."""
    fixed = found[FIXED] == "1"
    most = MOST_CENTS if fixed else MOST_HUNDREDTHS
    whole, decimals = _NUMBER.fullmatch(found[VALUE]).groups()
    digits = (whole + f"{decimals}00"[:2]).lstrip("0")
    if len(digits) <= len(str(most)) and int(digits or "0") <= most:
        return None
    return Fault(FIELDS[VALUE], f"at most {money(most)}{'' if fixed else ' %'} either side of zero is allowed")


_DAY = _matches("a date", "eight digits, as 20240630, or nothing", "[0-9]{8}|")
_CHECKS: dict[str, Callable[[str, str], None]] = {
    "ArticleID": _name(1, 40), "Variantcondition": _name(0, 20),
    "Type": _one_of("a type", "SP", "S for sale or P for purchase"),
    "Level": _one_of("a level", "BXD", "B for base, X for surcharge or D for discount"),
    "Rule": _one_of("a rule", "12", "1 of the base price or 2 of the total so far"),
    "TextID": lambda where, text: checks.name(where, text, 0, len(text)),
    "PriceValue": _value,
    "FixValue": _one_of("a yes or no", "01", "1 for an amount or 0 for a percentage"),
    "Currency": _matches("a currency", "three capitals, as EUR", "[A-Z]{3}"),
    "DateFrom": _DAY, "DateTo": _DAY, "ScaleQuantity": _quantity, "RoundingID": _blank,
}
