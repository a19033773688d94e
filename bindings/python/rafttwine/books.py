"""Price books of records, and back."""
from __future__ import annotations

from typing import Iterator, Union

from .cartons import PackagingRow
from .checks import listed, unfit
from .fields import Number
from .lending import Lent, whole_bytes
from .packing import Cursor, unsigned
from .records import Article, PriceRow, Rounding, Scheme
from .wholes import opened, whole

Record = Union[Article, PriceRow, Rounding, PackagingRow, Scheme]
KINDS = {kind.KIND: kind for kind in (Article, PriceRow, Rounding, PackagingRow, Scheme)}
LENGTH, KIND = Number(2), Number(1, min(KINDS), max(KINDS))
RECORD = f"{listed(kind.__name__ for kind in KINDS.values())} is wanted"


def book(*records: Record) -> bytes:
    """A price book of these records. Where two are alike (the same article, scheme, rounding number) the first counts."""
    return whole("book.records", _packed(records))


def _packed(records: tuple[Record, ...]) -> Iterator[bytes]:
    for place, record in enumerate(records, 1):
        if not isinstance(record, tuple(KINDS.values())):
            raise unfit(f"book.records: record {place}", RECORD, record)
        body = unsigned(record.KIND, 1) + record.body()
        yield unsigned(len(body), 2) + body


def read_book(data: Lent) -> tuple[Record, ...]:
    """The records of a price book, as objects; `book` packs them to the same bytes again. What is no price book is BrokenBytes."""
    return tuple(record for _, record in read_records("read_book.data", data))


def read_records(where: str, data: Lent) -> Iterator[tuple[int, Record]]:
    """Each record of a price book, with the byte at which it starts."""
    return records_of(opened("book", whole_bytes(where, data)))


def records_of(cursor: Cursor) -> Iterator[tuple[int, Record]]:
    """Each record from a place on, up to the end of the bytes."""
    place = 0
    while cursor.at < len(cursor.data):
        start, place = cursor.at, place + 1
        cursor.record, cursor.end = place, len(cursor.data)
        length = cursor.field("record.length", LENGTH)
        try:
            cursor.end = cursor.end_of(length)
        except ValueError as error:
            raise cursor.broken(start, f"record.length: {error}") from None
        kind = KINDS[cursor.field("record.kind", KIND)]
        record = kind.read(cursor)
        cursor.filled(kind.__name__)
        yield start, record
