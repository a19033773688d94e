"""Text books of texts and their numbers, and back."""
from __future__ import annotations

from dataclasses import dataclass
from typing import ClassVar, Mapping, Sequence, Union

from .checks import size, unfit
from .fields import Number
from .laid import Laid, Layout
from .lending import Lent, whole_bytes
from .packing import Cursor, unsigned
from .wholes import opened, whole

MOST_TEXT_BYTES = 65_535


class Content:
    """Bytes of any value, with their length in two bytes in front."""

    def check(self, where: str, value: object) -> None:
        if not isinstance(value, bytes):
            raise unfit(where, "bytes are wanted", value)
        size(where, len(value), 0, MOST_TEXT_BYTES)

    def packed(self, value: bytes) -> bytes:
        return unsigned(len(value), 2) + value

    def read(self, where: str, cursor: Cursor) -> bytes:
        return cursor.take(cursor.unsigned(2))


NUMBER, CONTENT = Number(4), Content()


@dataclass(frozen=True)
class TextRow(Laid):
    """A text of a text book, at most 65,535 bytes of any value."""

    number: int
    content: bytes

    LAYOUT: ClassVar[Layout] = (("number", NUMBER), ("content", CONTENT))


def text_book(texts: Union[Mapping[int, bytes], Sequence[TextRow]]) -> bytes:
    """A text book: the text of each number. Of a list of TextRow the first with a number counts."""
    if isinstance(texts, Mapping):
        return whole("text_book.texts", [_row(number, content).body() for number, content in texts.items()])
    if not isinstance(texts, (list, tuple)):
        raise unfit("text_book.texts", "a dictionary of numbers and bytes, or a list of TextRow is wanted", texts)
    for place, row in enumerate(texts, 1):
        if not isinstance(row, TextRow):
            raise unfit(f"text_book.texts: text {place}", "TextRow is wanted", row)
    return whole("text_book.texts", [row.body() for row in texts])


def _row(number: int, content: bytes) -> TextRow:
    """The caller of `text_book` never saw a row, so errors name the argument."""
    NUMBER.check("text_book.texts", number)
    CONTENT.check(f"text_book.texts: text {number}", content)
    return TextRow(number, content)


def read_text_book(data: Lent) -> tuple[TextRow, ...]:
    """The texts of a text book, as objects; `text_book` packs them to the same bytes again. What is no text book is BrokenBytes."""
    cursor = opened("text_book", whole_bytes("read_text_book.data", data))
    found: list[TextRow] = []
    while cursor.at < cursor.end:
        cursor.record = len(found) + 1
        found.append(TextRow.read(cursor))
    return tuple(found)
