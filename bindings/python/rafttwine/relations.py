"""Relations: the conditions that follow from the properties of a planned piece, granted to a question or priced at once."""
from __future__ import annotations

from ctypes import c_uint8
from typing import Any, Union

from .answers import Price
from .calls import LINE_BYTES, LinesRoom, priced
from .checks import unfit
from .laid import warn
from .lending import Lent, whole_bytes
from .library import call
from .price_lines import looks_like_utf_8
from .property_lists import Properties, lent_properties
from .questions import Question, read_question
from .refusals import Refusal, Refused
from .relation_texts import Fault, fault, line_and_column, unfit_name

# More than the names that a relation can derive, with their lengths and factors.
MOST_NAMES_BYTES = 32 * 23
PLACED = (Refusal.BAD_RELATION, Refusal.DEEP_RELATION, Refusal.UNFIT_NAME)

# In Latin-1, be it as text or as bytes.
Relation = Union[str, Lent]


class BadRelation(Refused):
    """A relation that can't be read, or derives a name that can't be granted: its name, the place of the byte, its line and its
    column, all from 1, and what is wrong there."""

    def __init__(self, refusal: Union[Refusal, int], name: str, place: int, line: int, column: int, wrong: str = "") -> None:
        super().__init__(refusal)
        self.args = self.refusal, name, place, line, column, wrong
        self.name, self.place, self.line, self.column, self.wrong = name, place, line, column, wrong

    def __str__(self) -> str:
        return f"{self.name}, line {self.line}, column {self.column}: {self.wrong or self.refusal.reason}"


def derive(question: Lent, properties: Properties, relation: Relation, name: str = "relation") -> Question:
    """The question with the conditions granted that a relation derives from the properties, in order: `granted` has their names,
    and `packed` gives it for any other call. The question grants none itself. A relation that is wrong is raised as BadRelation,
    under its `name`."""
    return read_question(_derived("derive", question, *_lent("derive", properties, relation, name), name))


def price_derived(book: Lent, question: Lent, properties: Properties, relation: Relation, name: str = "relation") -> Price:
    """The itemised price of the article asked for, with the conditions granted that `derive` would grant."""
    lent = _lent("price_derived", properties, relation, name)
    lines = LinesRoom()
    answer = call("price_derived", book, question, *lent, lines)
    _raise_refused(answer, lent[1], name)
    written = bytes(lines)[:answer.lines * LINE_BYTES]
    asked = _derived("price_derived", question, *lent, name)
    return priced(asked, answer.unit, answer.total, answer.currency, answer.unused, written)


def _lent(called: str, properties: Properties, relation: Relation, name: str) -> tuple[bytes, bytes]:
    if not isinstance(name, str):
        raise unfit(f"{called}.name", "a text is wanted", name)
    return lent_properties(f"{called}.properties", properties), _in_latin_1(f"{called}.relation", relation, name)


def _in_latin_1(where: str, relation: Relation, name: str) -> bytes:
    if not isinstance(relation, str):
        lent = whole_bytes(where, relation)
        if looks_like_utf_8(lent):
            warn(f"{name}: it looks like UTF-8 and is read as Latin-1, so that letters beyond ASCII become others; save it in "
                 "Latin-1")
        return lent
    try:
        return relation.encode("latin-1")
    except UnicodeEncodeError as error:
        before = relation[:error.start].encode("latin-1")
        line, column = line_and_column(before, len(before) + 1)
        letter = relation[error.start]
        raise ValueError(f"{where}: line {line}, column {column}: {letter!r} (U+{ord(letter):04X}) is not in Latin-1") from None


def _derived(called: str, question: Lent, properties: bytes, relation: bytes, name: str) -> bytes:
    asked = whole_bytes(f"{called}.question", question)
    out = (c_uint8 * (len(asked) + MOST_NAMES_BYTES))()
    answer = call("derive", asked, properties, relation, out)
    _raise_refused(answer, relation, name)
    return bytes(out)[:answer.length]


def _raise_refused(answer: Any, relation: bytes, name: str) -> None:
    if answer.number in PLACED:
        raise BadRelation(answer.number, name, answer.place, *line_and_column(relation, answer.place), _wrong(answer, relation))
    if answer.number:
        raise Refused(answer.number)


def _wrong(answer: Any, relation: bytes) -> str:
    """What is wrong at the place that the library tells; nothing where the reader of this package stops elsewhere."""
    if answer.number == Refusal.UNFIT_NAME:
        return unfit_name(relation, answer.place)
    found = fault(relation)
    return found.wrong if found and found[:2] == (answer.number, answer.place) else ""
