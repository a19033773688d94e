"""Numbers with a few decimals, kept exact whatever they were made of."""
from __future__ import annotations

import re
from dataclasses import dataclass
from decimal import Context, Decimal

from .checks import told, unfit

_WRITTEN = re.compile(r"[+-]?[0-9]+(\.[0-9]+)?")
# Of its own, so that a program's decimal context changes nothing here.
EXACT = Context(prec=28)
_COUNTS = {2: "two", 3: "three"}


@dataclass(frozen=True)
class Decimals:
    """A kind of number: what errors call its field and itself, an example, its bounds, and how many decimals it may have."""

    where: str
    kind: str
    example: str
    least: int
    most: int
    places: int

    def kept(self, given: object) -> Decimal:
        """The number that is meant, with all its decimals."""
        number = self._exact(given)
        if not self.least <= number <= self.most:
            raise ValueError(f"{self.where}: {told(given)} is out of range, {self.least:,} to {self.most:,} is allowed")
        kept = number.quantize(Decimal(1).scaleb(-self.places, EXACT), context=EXACT)
        if kept != number:
            raise ValueError(f"{self.where}: {told(given)} has more than {_COUNTS[self.places]} decimals")
        return kept

    def counted(self, kept: Decimal) -> int:
        """As a whole number of its last decimals."""
        return int(kept.scaleb(self.places, EXACT))

    def _exact(self, given: object) -> Decimal:
        if isinstance(given, bool) or not isinstance(given, (str, int, Decimal)):
            raise unfit(self.where, f"a whole number, a Decimal, or a text as '{self.example}' is wanted", given)
        if isinstance(given, str) and not _WRITTEN.fullmatch(given):
            raise ValueError(f"{self.where}: {told(given)} is no {self.kind}; digits are wanted, with a point before the decimals")
        if isinstance(given, Decimal) and not given.is_finite():
            raise ValueError(f"{self.where}: {given} is no number")
        return Decimal(given)
