"""The packaging records of a price book."""
from __future__ import annotations

from dataclasses import dataclass
from typing import Any, ClassVar, Optional

from .checks import listed, whole_number
from .fields import Letters, Number
from .laid import Clash, Laid, Layout
from .packing import Cursor, signed
from .records import ARTICLE, CONDITION, never_granted

ANY_ARTICLE = "*"
MOST_THOUSANDTHS, MOST_COUNT = 10_000_000, 10_000
# Each value and the most that it can be either side of zero, in the order of their presence bits.
VALUES = {**dict.fromkeys(("width", "height", "depth", "volume", "tare", "net"), MOST_THOUSANDTHS),
          **dict.fromkeys(("items", "packs"), MOST_COUNT)}
# Each unit: which there are, and the values that need it.
UNITS = {
    "length_unit": (("CMT", "FOT", "INH", "MMT", "MTR"), ("width", "height", "depth")),
    "volume_unit": (("INQ", "LTR", "MTQ"), ("volume",)),
    "weight_unit": (("KGM", "LBR", "MGM"), ("tare", "net")),
}


class Measure:
    """A number that may be unknown: None, which is packed as 0."""

    def __init__(self, most: int) -> None:
        self.most = most

    def check(self, where: str, value: object) -> None:
        if value is not None:
            whole_number(where, value, -self.most, self.most)

    def packed(self, value: Optional[int]) -> bytes:
        return signed(value or 0, 4)

    def read(self, where: str, cursor: Cursor) -> int:
        return cursor.signed(4)


@dataclass(frozen=True)
class PackagingRow(Laid):
    """Packaging data of an article, or what a granted condition adds to it; the article `*` stands for every article, and needs a
    condition. Sizes and weights are in thousandths of their unit, and need it. None: not known.

    Granted names are raised to capitals, and `condition` stands as it is: in small letters it is never granted. A RowWarning tells
    of it."""

    article: str
    condition: str = ""
    width: Optional[int] = None
    height: Optional[int] = None
    depth: Optional[int] = None
    volume: Optional[int] = None
    tare: Optional[int] = None
    net: Optional[int] = None
    items: Optional[int] = None
    packs: Optional[int] = None
    length_unit: Optional[str] = None
    volume_unit: Optional[str] = None
    weight_unit: Optional[str] = None

    KIND: ClassVar[int] = 4
    LAYOUT: ClassVar[Layout] = (
        ("article", ARTICLE), ("condition", CONDITION), ("presence", Number(1)),
        *((name, Measure(most)) for name, most in VALUES.items()),
        *((name, Letters(listed(units), units)) for name, (units, _) in UNITS.items()),
    )

    @property
    def presence(self) -> int:
        """A bit for each value that is known, the lowest for the width."""
        return sum(1 << bit for bit, name in enumerate(VALUES) if getattr(self, name) is not None)

    def clash(self) -> Clash:
        if self.article == ANY_ARTICLE and not self.condition:
            return "condition", f"it is empty, and the article {ANY_ARTICLE!r} needs one"
        for unit, (_, values) in UNITS.items():
            given = [name for name in values if getattr(self, name) is not None]
            if given and getattr(self, unit) is None:
                return unit, f"it is missing, and {given[0]} is given"
        return None

    def doubts(self) -> list[tuple[str, str]]:
        return never_granted(self.condition)

    @classmethod
    def settle(cls, values: dict[str, Any]) -> Clash:
        presence = values.pop("presence")
        for bit, name in enumerate(VALUES):
            if not presence >> bit & 1:
                if values[name]:
                    return name, f"{values[name]:,} stands there, and by its presence bit it is not known"
                values[name] = None
        return None
