"""A maker's relation beside a sheet: its fault, found without the library, and what it derives, for which the library is asked."""
from __future__ import annotations

from dataclasses import dataclass
from datetime import date
from typing import Iterator

import rafttwine
from rafttwine.price_lines import looks_like_utf_8
from rafttwine.relation_texts import fault, line_and_column
from rows import Fault, Wrong


@dataclass(frozen=True)
class Related:
    """A relation, and what is priced by it."""

    name: str
    article: str
    quantity: int
    day: date


@dataclass(frozen=True)
class Relation:
    """What stands in such a file, wherever it was found."""

    path: str
    content: bytes
    related: Related

    def faults(self) -> Iterator[Fault]:
        """The first byte that is wrong; what stands behind it is not looked at."""
        found = fault(self.content)
        if found:
            line, column = line_and_column(self.content, found.place)
            yield Fault(line, found.wrong, column=f"column {column}")

    def warnings(self) -> list[str]:
        letters = "it looks like UTF-8 and is read as Latin-1, so that letters beyond ASCII become others; save it in Latin-1"
        return [f"warning: {self.path}: {letters}"] if looks_like_utf_8(self.content) else []

    def names(self, chosen: list[rafttwine.Held]) -> list[str]:
        """The names that are derived from what was chosen. One that can't be granted is a fault of the file."""
        try:
            return list(rafttwine.derive(self._asked(), chosen, self._text()).granted)
        except rafttwine.BadRelation as bad:
            raise Wrong([Fault(bad.line, bad.wrong, column=f"column {bad.column}").told(self.path)]) from None

    def price(self, book: bytes, chosen: list[rafttwine.Held]) -> rafttwine.Price:
        """With these names granted."""
        return rafttwine.price_derived(book, self._asked(), chosen, self._text())

    def _asked(self) -> bytes:
        return rafttwine.question(self.related.article, self.related.day, self.related.quantity)

    def _text(self) -> str:
        return self.content.decode("latin-1")
