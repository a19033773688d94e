"""Properties by their names and values, which stand beside a question for a relation to look at."""
from __future__ import annotations

import re
from dataclasses import dataclass
from typing import ClassVar, Mapping, Sequence, Union

from .checks import unfit, whole_number
from .fields import Name, Number
from .laid import Laid, Layout, warn
from .lending import Lent, whole_bytes
from .packing import Cursor, signed, unsigned
from .relation_texts import RESERVED, WORD
from .words import raised

NONE, TEXT, NUMBER = 0, 1, 2
NUMBER_BYTES = 8
TOP_63 = (1 << 63) - 1
MOST_HELD = 64
NAME, COUNT = Name(0, 255), Number(1, 0, MOST_HELD)

# What a property can have: a text, a whole number, or nothing.
Value = Union[str, int, None]


class HeldValue:
    """A value, with a byte in front that says of which kind it is."""

    def check(self, where: str, value: object) -> None:
        if isinstance(value, str):
            NAME.check(where, value)
        elif isinstance(value, int) and not isinstance(value, bool):
            whole_number(where, value, -TOP_63 - 1, TOP_63)
        elif value is not None:
            raise unfit(where, "a text, a whole number or None is wanted", value)

    def packed(self, value: Value) -> bytes:
        if value is None:
            return unsigned(NONE, 1)
        if isinstance(value, str):
            return unsigned(TEXT, 1) + NAME.packed(value)
        return unsigned(NUMBER, 1) + signed(value, NUMBER_BYTES)

    def read(self, where: str, cursor: Cursor) -> Value:
        kind = cursor.unsigned(1)
        if kind > NUMBER:
            raise ValueError(f"the byte {kind} is none of 0 for no value, 1 for a text and 2 for a number")
        return None if kind == NONE else NAME.read(where, cursor) if kind == TEXT else cursor.signed(NUMBER_BYTES)


@dataclass(frozen=True)
class Held(Laid):
    """A property of the planned piece by the name that relations have for it, and its value: a text, a whole number, or None for
    none. Small letters count as capitals. Of a name that no relation can have a RowWarning tells."""

    name: str
    value: Value = None

    LAYOUT: ClassVar[Layout] = (("name", NAME), ("value", HeldValue()))

    def doubts(self) -> list[tuple[str, str]]:
        if re.fullmatch(WORD, self.name) and self.name.upper() not in RESERVED:
            return []
        return [("name", f"no relation can name {self.name!r}: a name has letters, digits and _, and is no reserved word")]


# A dictionary of names and values, or a list of Held; a call takes the packed list too.
Values = Union[Mapping[str, Value], Sequence[Held]]
Properties = Union[Values, Lent]


def property_list(values: Values) -> bytes:
    """The properties beside a question: of a dictionary of names and values, or of a list of Held, in which the first with a name
    counts."""
    if not isinstance(values, (Mapping, list, tuple)):
        raise unfit("property_list.values", "a dictionary of names and values, or a list of Held is wanted", values)
    return _packed("property_list.values", values)


def read_property_list(data: Lent) -> tuple[Held, ...]:
    """The properties of a list, as objects; `property_list` packs them to the same bytes again. What is no such list is
    BrokenBytes."""
    cursor = Cursor(whole_bytes("read_property_list.data", data))
    found: list[Held] = []
    for place in range(1, cursor.field("property_list.count", COUNT) + 1):
        cursor.record = place
        found.append(Held.read(cursor))
    cursor.filled("property_list")
    return tuple(found)


def lent_properties(where: str, properties: Properties) -> bytes:
    """Properties in any form, as the library reads them."""
    if isinstance(properties, (Mapping, list, tuple)):
        return _packed(where, properties)
    return whole_bytes(where, properties)


def _packed(where: str, values: Values) -> bytes:
    if len(values) > MOST_HELD:
        raise ValueError(f"{where}: {len(values):,} properties, and at most {MOST_HELD} are allowed")
    held = [_of_pair(where, *pair) for pair in values.items()] if isinstance(values, Mapping) else _checked(where, values)
    first: dict[str, int] = {}
    for place, one in enumerate(held, 1):
        there = first.setdefault(raised(one.name), place)
        if there != place:
            warn(f"{where}: property {place}: {one.name!r} repeats property {there}, whose value counts")
    return COUNT.packed(len(held)) + b"".join(one.body() for one in held)


def _of_pair(where: str, name: str, value: Value) -> Held:
    """The caller never saw a Held, so errors name the argument."""
    NAME.check(where, name)
    HeldValue().check(f"{where}: {name!r}", value)
    return Held(name, value)


def _checked(where: str, values: Sequence[Held]) -> Sequence[Held]:
    for place, one in enumerate(values, 1):
        if not isinstance(one, Held):
            raise unfit(f"{where}: property {place}", "Held is wanted", one)
    return values
