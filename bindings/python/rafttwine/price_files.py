"""Makers' own price files: read to price rows, and written from a book."""
from __future__ import annotations

from ctypes import c_uint8
from typing import Any

from .books import read_records, records_of
from .checks import unfit
from .laid import warn
from .lending import Lent, whole_bytes
from .library import call
from .packing import Cursor
from .price_lines import FIELDS, TEXT, fault, fields_of, looks_like_utf_8, numbered_lines
from .records import PriceRow
from .refusals import Refusal, Refused
from .words import NoDay

FILE = "ocd_price.csv"
# More than enough room: records of so many bytes for each byte of a file, and a file of so many for each byte of a book.
RECORDS_FOR_FILE, FILE_FOR_BOOK = 2, 3
MOST_DATE = 99_999_999

# The field of a price file that a row's own field comes from.
NAMES = {"condition": "Variantcondition", "value": "PriceValue", "first": "DateFrom", "last": "DateTo", "up_to": "ScaleQuantity"}


class BadLine(Refused):
    """A price file with a bad line: the file's name, the line's number from 1, the field, and what is wrong with it. The last two
    are empty where that is not known, and the field also where it is the line as a whole."""

    def __init__(self, file: str, line: int, field: str = "", wrong: str = "") -> None:
        super().__init__(Refusal.BAD_ROW)
        self.args = file, line, field, wrong
        self.file, self.line, self.field, self.wrong = file, line, field, wrong

    def __str__(self) -> str:
        place = ", ".join([self.file, f"line {self.line}", *([self.field] if self.field else [])])
        return f"{place}: {self.wrong or 'it makes no price row'}"


class BadRecord(Refused):
    """A book with a price row that no line of a price file can say: the place of its first byte and which record it is, from 1; the
    field, and what is wrong with it."""

    def __init__(self, place: int, record: int, field: str, wrong: str) -> None:
        super().__init__(Refusal.BAD_ROW)
        self.args = place, record, field, wrong
        self.place, self.record, self.field, self.wrong = place, record, field, wrong

    def __str__(self) -> str:
        return f"record {self.record}, {self.field}: {self.wrong}"


def read_prices(file: Lent, name: str = FILE) -> tuple[PriceRow, ...]:
    """The rows of a maker's price file, given as its bytes, for `book`: `book(*articles, *read_prices(file))`. A bad line is raised
    as BadLine, under the file's `name`; of rows that hardly mean what they do, a RowWarning tells."""
    data, rows = _read("read_prices", file, name)
    _tell_of_doubts(name, data, rows)
    return rows


def text_names(file: Lent, name: str = FILE) -> dict[int, str]:
    """The texts that the rows of a maker's price file name, by the numbers that `read_prices` gives them."""
    data, rows = _read("text_names", file, name)
    named = zip(rows, (fields_of(line)[TEXT] for _, line in numbered_lines(data)))
    return {row.text: text for row, text in named if row.text}


def write_prices(book: Lent) -> bytes:
    """A price file with a line for each price row of a book, to be saved as it is. Read again it gives the same rows, but for the
    numbers of texts, which are counted anew. A row with a rounding, or with a day of over eight digits, is raised as BadRecord."""
    data = whole_bytes("write_prices.book", book)
    out = (c_uint8 * (FILE_FOR_BOOK * len(data)))()
    answer = call("write_prices", data, out)
    if answer.number == Refusal.BAD_ROW:
        raise _bad_record(data, answer.place)
    return _written(answer, out)


def _read(called: str, file: Lent, name: str) -> tuple[bytes, tuple[PriceRow, ...]]:
    if not isinstance(name, str):
        raise unfit(f"{called}.name", "a text is wanted", name)
    data = whole_bytes(f"{called}.file", file)
    out = (c_uint8 * (RECORDS_FOR_FILE * len(data)))()
    answer = call("read_prices", data, out)
    if answer.number == Refusal.BAD_ROW:
        raise _bad_line(data, answer.place, name)
    return data, tuple(row for _, row in records_of(Cursor(_written(answer, out))) if isinstance(row, PriceRow))


def _written(answer: Any, out: Any) -> bytes:
    if answer.number:
        raise Refused(answer.number)
    return bytes(memoryview(out)[:answer.length])


def _bad_line(data: bytes, number: int, name: str) -> BadLine:
    found = fault(data.decode("latin-1").split("\n")[number - 1])
    return BadLine(name, number, *found) if found else BadLine(name, number)


def _bad_record(data: bytes, place: int) -> BadRecord:
    for number, (start, row) in enumerate(read_records("write_prices.book", data), 1):
        if start == place - 1 and isinstance(row, PriceRow):
            return BadRecord(place, number, *_unwritable(row))
    raise Refused(Refusal.BAD_ROW)


def _unwritable(row: PriceRow) -> tuple[str, str]:
    if row.rounding:
        return "PriceRow.rounding", f"{row.rounding}, and a line of a price file can name no rounding"
    field, day = next((field, day) for field, day in (("first", row.first), ("last", row.last)) if _too_late(day))
    return f"PriceRow.{field}", f"{day}, and a line of a price file has eight digits for a date"


def _too_late(day: object) -> bool:
    return isinstance(day, NoDay) and day.number > MOST_DATE


def _tell_of_doubts(name: str, data: bytes, rows: tuple[PriceRow, ...]) -> None:
    """A warning for each field with something doubtful: about the first such line, and how many more there are."""
    if looks_like_utf_8(data):
        warn(f"{name}: it looks like UTF-8 and is read as Latin-1, so that letters beyond ASCII become others; save it in Latin-1")
    found: dict[str, list[str]] = {}
    for (number, _), row in zip(numbered_lines(data), rows):
        for field, sentence in _doubts(row):
            found.setdefault(NAMES[field], []).append(f"{name}, line {number}, {NAMES[field]}: {sentence}")
    for field in FIELDS:
        first, *more = found.get(field, [""])
        if first:
            warn(first + (f"; and {len(more):,} more line{'s' if len(more) > 1 else ''} alike" if more else ""))


def _doubts(row: PriceRow) -> list[tuple[str, str]]:
    found = row.doubts()
    found += [(field, _no_day(day)) for field, day in (("first", row.first), ("last", row.last)) if isinstance(day, NoDay)]
    if row.up_to:
        pieces = "1 piece" if row.up_to == 1 else f"{row.up_to:,} pieces"
        found.append(("up_to", f"the row counts up to {pieces}, and not from there on; 0 is for any number"))
    return found


def _no_day(day: NoDay) -> str:
    return f"{day.number or 'blank'} is no day, so the row never counts"

