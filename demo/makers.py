"""A maker's own price file beside a sheet: its faults, found without the library, and its rows, which the library reads."""
from __future__ import annotations

import warnings
from dataclasses import dataclass, replace
from typing import Iterator, Optional

import rafttwine
from rafttwine.price_lines import FIELDS, fault, fields_of, numbered_lines
from rows import Fault, Wrong

ARTICLE = "ArticleID"


@dataclass(frozen=True)
class MakersFile:
    """A price file, and the number in [text] of the first text that it names; 0 if its texts are not shown."""

    name: str
    first_text: int


@dataclass(frozen=True)
class PriceFile:
    """What stands in such a file, wherever it was found."""

    path: str
    content: bytes
    first_text: int

    def faults(self, articles: Optional[set[str]]) -> Iterator[Fault]:
        """What is wrong in each line. An article that is not among those of the sheet, if they are known, is wrong too: its price
        would be left out without a word."""
        for number, line in numbered_lines(self.content):
            found = fault(line)
            if found:
                yield Fault(number, found.wrong, column=found.field)
                continue
            article = fields_of(line)[FIELDS.index(ARTICLE)]
            if articles is not None and article not in articles:
                yield Fault(number, "not in [article]", column=ARTICLE, cell=article)

    def read(self) -> tuple[list[rafttwine.PriceRow], list[str]]:
        """The rows, with the sheet's numbers for their texts, and what is to be said of them."""
        with warnings.catch_warnings(record=True) as caught:
            warnings.simplefilter("always", rafttwine.RowWarning)
            try:
                rows = rafttwine.read_prices(self.content, self.path)
            except rafttwine.BadLine as bad:
                raise Wrong([str(bad)]) from None
            told = [f"warning: {one.message}" for one in caught]
            return [replace(row, text=self._text(row.text)) for row in rows], told

    def _text(self, number: int) -> int:
        return self.first_text + number - 1 if self.first_text and number else 0
