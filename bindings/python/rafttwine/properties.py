"""The properties of a planned piece, which make its final article number."""
from __future__ import annotations

import re
from dataclasses import dataclass
from typing import Any, ClassVar, Optional

from . import packing
from .checks import character, told
from .fields import Flag, Name, Number
from .laid import Clash, Laid, Layout

VALUED, HIDDEN, UNSELECTED = 0, 1, 2
MOST_WIDTH = 30
# What a name may hold and a value may not: both spaces, and the backslash.
NOT_IN_VALUES = re.compile(r"[ \xa0\\]")


class PropertyValue(Name):
    """A value, or None, which is packed as an empty one."""

    def check(self, where: str, value: object) -> None:
        if value is not None:
            super().check(where, value)

    def packed(self, value: Optional[str]) -> bytes:
        return packing.name(value or "")


@dataclass(frozen=True)
class Property(Laid):
    """A property of the planned piece, `width` characters wide in the final article number. Without a value it is hidden, or
    nothing is selected. A value has no spaces and no backslashes, and is no longer than the width."""

    width: int
    value: Optional[str] = None
    hidden: bool = False

    LAYOUT: ClassVar[Layout] = (
        ("width", Number(1, 1, MOST_WIDTH)), ("state", Number(1, VALUED, UNSELECTED)), ("value", PropertyValue(0, MOST_WIDTH)),
    )

    def __post_init__(self) -> None:
        Flag().check("Property.hidden", self.hidden)
        super().__post_init__()

    @property
    def state(self) -> int:
        return HIDDEN if self.hidden else UNSELECTED if self.value is None else VALUED

    def clash(self) -> Clash:
        if self.value is None:
            return None
        if self.hidden:
            return "value", f"a hidden property has none, and {told(self.value)} is given"
        found = NOT_IN_VALUES.search(self.value)
        if found:
            return "value", f"{character(found)}, and a value has no spaces and no backslashes"
        if not self.value:
            return "value", "it is empty, and None is for no value"
        if len(self.value) > self.width:
            return "value", f"{len(self.value)} bytes, and its width is {self.width}"
        return None

    @classmethod
    def settle(cls, values: dict[str, Any]) -> Clash:
        state = values.pop("state")
        values["hidden"] = state == HIDDEN
        if state != VALUED:
            if values["value"]:
                return "value", f"{told(values['value'])} stands there, and by its state the property has none"
            values["value"] = None
        return None
