"""What records, properties, texts and questions have in common."""
from __future__ import annotations

import sys
import warnings
from typing import Any, ClassVar, Optional

from .packing import Cursor, Field
from .words import RowWarning

Layout = tuple[tuple[str, Field], ...]
# A field, and what is wrong with it beside the others.
Clash = Optional[tuple[str, str]]


class Laid:
    """Made of values, it checks them; read from bytes, it says which byte is wrong. A subclass is a dataclass, and LAYOUT has its
    fields in the order of their bytes."""

    LAYOUT: ClassVar[Layout]
    # The fields with what errors call them, put together once.
    FIELDS: ClassVar[tuple[tuple[str, str, Field], ...]]

    def __init_subclass__(cls) -> None:
        cls.FIELDS = tuple((name, f"{cls.called()}.{name}", field) for name, field in cls.LAYOUT)

    def __post_init__(self) -> None:
        for name, where, field in self.FIELDS:
            field.check(where, getattr(self, name))
        clash = self.clash()
        if clash:
            raise ValueError(f"{self.called()}.{clash[0]}: {clash[1]}")
        for name, sentence in self.doubts():
            warn(f"{self.called()}.{name}: {sentence}")

    @classmethod
    def called(cls) -> str:
        """What stands in front of the field's name in an error."""
        return cls.__name__

    def clash(self) -> Clash:
        """What does not go together, though each field by itself is right."""
        return None

    def doubts(self) -> list[tuple[str, str]]:
        """What is right and hardly meant so: fields, and a sentence for each."""
        return []

    def body(self) -> bytes:
        """The bytes of the fields."""
        return b"".join(field.packed(getattr(self, name)) for name, field in self.LAYOUT)

    @classmethod
    def read(cls, cursor: Cursor) -> Any:
        """One of these from its bytes, without a warning."""
        values: dict[str, Any] = {}
        places: dict[str, int] = {}
        for name, where, field in cls.FIELDS:
            places[name] = cursor.at
            values[name] = cursor.field(where, field)
        made = object.__new__(cls)
        clash = cls.settle(values)
        if not clash:
            for name, value in values.items():
                object.__setattr__(made, name, value)
            clash = made.clash()
        if clash:
            raise cursor.broken(places[clash[0]], f"{cls.called()}.{clash[0]}: {clash[1]}")
        return made

    @classmethod
    def settle(cls, values: dict[str, Any]) -> Clash:
        """Makes of what stands in the bytes what the object holds, where the two differ."""
        return None


def warn(sentence: str) -> None:
    """Warns at the line of the program that made the row."""
    level, frame = 1, sys._getframe()
    while frame.f_back and _is_ours(frame.f_globals.get("__name__", "")):
        level, frame = level + 1, frame.f_back
    warnings.warn(sentence, RowWarning, stacklevel=level)


def _is_ours(module: str) -> bool:
    """A row may be made by the package itself, or by dataclasses.replace."""
    return module == "dataclasses" or module == __package__ or module.startswith(f"{__package__}.")
