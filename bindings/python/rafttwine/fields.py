"""The kinds of field that books and questions share."""
from __future__ import annotations

import re
from dataclasses import dataclass
from datetime import date
from enum import Enum
from typing import Optional, Sequence, Union

from . import checks, packing
from .packing import Cursor
from .words import NoDay, day_number, day_or_number

_THREE_CAPITALS = re.compile("[A-Z]{3}")


class Number:
    """A number without a sign, as great as its bytes allow or at most as great as said."""

    def __init__(self, width: int, least: int = 0, most: Optional[int] = None) -> None:
        self.width, self.least = width, least
        self.most = (1 << 8 * width) - 1 if most is None else most

    def check(self, where: str, value: object) -> None:
        checks.whole_number(where, value, self.least, self.most)

    def packed(self, value: int) -> bytes:
        return packing.unsigned(value, self.width)

    def read(self, where: str, cursor: Cursor) -> int:
        return cursor.unsigned(self.width)


@dataclass(frozen=True)
class Signed:
    """A number of 4 bytes with a sign, at most so far from zero."""

    most: int

    def check(self, where: str, value: object) -> None:
        checks.whole_number(where, value, -self.most, self.most)

    def packed(self, value: int) -> bytes:
        return packing.signed(value, 4)

    def read(self, where: str, cursor: Cursor) -> int:
        return cursor.signed(4)


@dataclass(frozen=True)
class Name:
    """A name in Latin-1, with a byte for its length."""

    least: int
    most: int

    def check(self, where: str, value: object) -> None:
        checks.name(where, value, self.least, self.most)

    def packed(self, value: str) -> bytes:
        return packing.name(value)

    def read(self, where: str, cursor: Cursor) -> str:
        return cursor.take(cursor.unsigned(1)).decode("latin-1")


class Word:
    """One of a few words, in a byte."""

    def __init__(self, kind: type[Enum]) -> None:
        self.kind = kind
        self.bytes = {one: one.value if isinstance(one.value, bytes) else packing.unsigned(one.value, 1) for one in kind}
        self.words = {byte: one for one, byte in self.bytes.items()}

    def check(self, where: str, value: object) -> None:
        if not isinstance(value, self.kind):
            raise checks.unfit(where, f"{checks.listed(map(checks.told, self.kind))} is wanted", value)

    def packed(self, value: Enum) -> bytes:
        return self.bytes[value]

    def read(self, where: str, cursor: Cursor) -> Enum:
        byte = cursor.take(1)
        if byte not in self.words:
            raise ValueError(f"the byte {byte[0]} stands for none of {', '.join(one.name for one in self.kind)}")
        return self.words[byte]


class Flag:
    """True or False, in a byte."""

    def check(self, where: str, value: object) -> None:
        checks.truth(where, value)

    def packed(self, value: bool) -> bytes:
        return packing.unsigned(value, 1)

    def read(self, where: str, cursor: Cursor) -> bool:
        byte = cursor.unsigned(1)
        if byte > 1:
            raise ValueError(f"the byte {byte} is neither 0 nor 1")
        return byte == 1


class Character:
    """A character of a name, in a byte; None for the usual one."""

    def check(self, where: str, value: object) -> None:
        if value is not None:
            checks.name(where, value, 1, 1)

    def packed(self, value: Optional[str]) -> bytes:
        return b"\0" if value is None else packing.latin_1(value)

    def read(self, where: str, cursor: Cursor) -> Optional[str]:
        byte = cursor.take(1)
        return None if byte == b"\0" else byte.decode("latin-1")


class Letters:
    """Three letters: some that are listed, or else any capitals. None, where it is allowed, is three zeros."""

    def __init__(self, wanted: str, listed: Sequence[str] = (), needed: bool = False) -> None:
        self.wanted, self.listed, self.needed = f"{wanted} is wanted", listed, needed

    def check(self, where: str, value: object) -> None:
        if value is None and not self.needed:
            return
        if not isinstance(value, str):
            raise checks.unfit(where, self.wanted, value)
        if not (value in self.listed if self.listed else _THREE_CAPITALS.fullmatch(value)):
            raise ValueError(f"{where}: {self.wanted}, not {checks.told(value)}")

    def packed(self, value: Optional[str]) -> bytes:
        return bytes(3) if value is None else packing.latin_1(value)

    def read(self, where: str, cursor: Cursor) -> Optional[str]:
        letters = cursor.take(3)
        return letters.decode("latin-1") if any(letters) or self.needed else None


class Day:
    """A day."""

    def check(self, where: str, value: object) -> None:
        checks.day(where, value)

    def packed(self, value: date) -> bytes:
        return packing.unsigned(day_number(value), 4)

    def read(self, where: str, cursor: Cursor) -> date:
        day = day_or_number(cursor.unsigned(4))
        if isinstance(day, NoDay):
            raise ValueError(f"{day.number} is no day")
        return day


class RowDay:
    """A day of a row, or a number that is none."""

    def check(self, where: str, value: object) -> None:
        if not isinstance(value, NoDay):
            checks.day(where, value)

    def packed(self, value: Union[date, NoDay]) -> bytes:
        return packing.unsigned(value.number if isinstance(value, NoDay) else day_number(value), 4)

    def read(self, where: str, cursor: Cursor) -> Union[date, NoDay]:
        return day_or_number(cursor.unsigned(4))
