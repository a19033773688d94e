"""Conditions that a question grants, by their names alone or with a factor."""
from __future__ import annotations

from dataclasses import dataclass
from typing import ClassVar, Union

from .checks import unfit
from .fields import Name
from .laid import Laid, Layout
from .packing import Cursor, unsigned
from .words import MOST_FACTOR, ONCE, Factor

NAME = Name(1, 20)
FACTOR_BYTES = 2


class Times:
    """A factor, in two bytes of thousandths."""

    def check(self, where: str, value: object) -> None:
        if not isinstance(value, Factor):
            raise unfit(where, "Factor is wanted", value)

    def packed(self, value: Factor) -> bytes:
        return unsigned(value.thousandths(), FACTOR_BYTES)

    def read(self, where: str, cursor: Cursor) -> Factor:
        thousandths = cursor.unsigned(FACTOR_BYTES)
        if thousandths > MOST_FACTOR:
            raise ValueError(f"{thousandths:,} thousandths, and at most {MOST_FACTOR:,} are allowed")
        return Factor.of_thousandths(thousandths)


@dataclass(frozen=True)
class Granted(Laid):
    """A granted condition that counts `factor` times, as a surcharge by the metre does: the amount of each line that it brings is
    multiplied before it is rounded. With the factor 0 there is a line all the same; a RowWarning tells of it."""

    name: str
    factor: Factor = ONCE

    LAYOUT: ClassVar[Layout] = (("name", NAME), ("factor", Times()))

    def doubts(self) -> list[tuple[str, str]]:
        if self.factor.thousandths():
            return []
        return [("factor", "with 0 its lines are there, and of nothing; what is not to count is not granted")]


class Condition:
    """A granted condition as it stands in a question: a name in version 1, and a name with its factor in version 2."""

    def check(self, where: str, value: object) -> None:
        if isinstance(value, Granted):
            return  # it was checked when it was made
        if not isinstance(value, str):
            raise unfit(where, "a text or Granted is wanted", value)
        NAME.check(where, value)

    def packed(self, value: Union[str, Granted]) -> bytes:
        return value.body() if isinstance(value, Granted) else NAME.packed(value)

    def read(self, where: str, cursor: Cursor) -> Union[str, Granted]:
        if cursor.version == 1:
            return NAME.read(where, cursor)
        found: Granted = Granted.read(cursor)
        return found
