"""Which bytes are a price book, a question or a text book, and what a text call answers.

A second reading of the scope paper ("The price book", "Order number, cartons, line text") and of the request for factors, made from
the papers and the first part of docs/DECISIONS.md and from nothing else. It knows nothing of the library, and the library nothing of
it: where the two differ on a case, one of them has misread the paper. It is plain rather than quick.
"""
import datetime

MOST_BYTES = 4_194_304

MOST_FACTOR = 10_000  # in thousandths

# What the text call answers with, beside 0.
BROKEN_BOOK = 1
NO_SUCH_TEXT = 12
ASKED, FALLBACK = 1, 2

LENGTH_UNITS = (b"CMT", b"FOT", b"INH", b"MMT", b"MTR")
VOLUME_UNITS = (b"INQ", b"LTR", b"MTQ")
WEIGHT_UNITS = (b"KGM", b"LBR", b"MGM")
NO_UNIT = bytes(3)

NAME_BYTES = frozenset((*range(32, 127), *range(160, 256)))
VALUE_BYTES = NAME_BYTES - {32, 160, ord("\\")}
CAPITALS = frozenset(b"ABCDEFGHIJKLMNOPQRSTUVWXYZ")


class Broken(Exception):
    """The bytes break their layout. The message says where the reading stopped."""


def need(holds, what):
    if not holds:
        raise Broken(what)


class Reader:
    """Reads one field after the other; a field that the bytes do not have is a broken layout."""

    def __init__(self, data):
        self.data = data
        self.at = 0

    def left(self):
        return len(self.data) - self.at

    def bytes(self, count):
        need(count <= self.left(), "cut off")
        self.at += count
        return self.data[self.at - count:self.at]

    def number(self, width):
        return int.from_bytes(self.bytes(width), "big")

    def signed(self, width):
        return int.from_bytes(self.bytes(width), "big", signed=True)

    def one_of(self, allowed, what):
        byte = self.number(1)
        need(byte in allowed, what)
        return byte

    def name(self, least, most, what, allowed=NAME_BYTES):
        length = self.number(1)
        need(least <= length <= most, f"length of {what}")
        name = self.bytes(length)
        need(allowed.issuperset(name), f"bytes of {what}")
        return name

    def head(self, versions=(1,)):
        """The length of the whole, which is that of the bytes lent, and the version, which is given back."""
        need(self.number(4) == len(self.data), "length of the whole")
        return self.one_of(versions, "version")

    def done(self):
        need(self.left() == 0, "bytes left over")


def near_zero(number, most):
    return -most <= number <= most


# The five kinds of record in a price book.

def article(body):
    body.name(1, 40, "article")
    body.name(0, 20, "scheme")


def price(body):
    body.name(1, 40, "article")
    body.name(0, 20, "condition")
    body.one_of(b"SP", "sort")
    body.one_of(b"BXD", "level")
    body.one_of((1, 2), "rule")
    body.number(4)  # the text number: any
    fixed = body.one_of((0, 1), "fixed flag")
    need(near_zero(body.signed(4), 100_000_000 if fixed else 100_000), "value")
    need(CAPITALS.issuperset(body.bytes(3)), "currency")
    body.number(4)  # from and to: a row whose dates are no days stays in the book
    body.number(4)
    body.number(4)  # up-to quantity: any
    body.number(2)  # rounding number: any, 0 for none


def rounding(body):
    need(body.number(2) >= 1, "rounding number")
    body.one_of((0, 1, 2), "way")
    need(1 <= body.number(4) <= 1_000_000, "step")
    need(near_zero(body.signed(4), 1_000_000), "add before")
    need(near_zero(body.signed(4), 1_000_000), "add after")


def packaging(body):
    article_number = body.name(1, 40, "article")
    condition = body.name(0, 20, "condition")
    presence = body.number(1)
    present = [presence >> i & 1 == 1 for i in range(8)]
    values = [body.signed(4) for _ in range(8)]
    need(all(near_zero(value, 10_000_000) for value in values[:6]), "measure")
    need(all(near_zero(value, 10_000) for value in values[6:]), "count")
    need(all(value == 0 for value, is_there in zip(values, present) if not is_there), "value of a clear bit")
    width, height, depth, volume, tare, net, _items, _packs = present
    unit(body, LENGTH_UNITS, width or height or depth, "length unit")
    unit(body, VOLUME_UNITS, volume, "volume unit")
    unit(body, WEIGHT_UNITS, tare or net, "weight unit")
    need(article_number != b"*" or condition != b"", "* without a condition")


def unit(body, group, needed, what):
    given = body.bytes(3)
    need(given in group or (given == NO_UNIT and not needed), what)


def scheme(body):
    body.name(1, 20, "scheme id")
    body.name(0, 8, "number separator")
    separator = body.name(0, 8, "value separator")
    body.one_of((0, 1), "visibility")
    hidden = body.number(1)
    unselected = body.number(1)
    need(hidden == 0 or hidden in NAME_BYTES, "hidden character")
    need(unselected == 0 or unselected in NAME_BYTES, "unselected character")
    trim = body.one_of((0, 1), "trim")
    if trim == 1:
        need(separator != b"", "trim without a value separator")
        need(separator != bytes([hidden or ord("-")]), "value separator is the hidden character")
        need(separator != bytes([unselected or ord("X")]), "value separator is the unselected character")


KINDS = {1: article, 2: price, 3: rounding, 4: packaging, 5: scheme}


def book(data):
    need(len(data) <= MOST_BYTES, "too long")
    reader = Reader(data)
    reader.head()
    while reader.left() > 0:
        body = Reader(reader.bytes(reader.number(2)))
        kind = body.number(1)
        need(kind in KINDS, "kind")
        KINDS[kind](body)
        body.done()


def is_day(date):
    """Python's own calendar is the Gregorian one, from 1 January of year 1 to 31 December 9999."""
    try:
        datetime.date(date // 10_000, date // 100 % 100, date % 100)
    except (ValueError, OverflowError):
        return False
    return True


def question(data):
    reader = Reader(data)
    version = reader.head(versions=(1, 2))
    reader.name(1, 40, "article")
    reader.one_of(b"SP", "sort")
    currency = reader.bytes(3)
    need(CAPITALS.issuperset(currency) or currency == bytes(3), "currency")
    need(is_day(reader.number(4)), "date")
    need(1 <= reader.number(4) <= 100_000, "quantity")
    granted = reader.number(1)
    need(granted <= 32, "count of granted conditions")
    for _ in range(granted):
        reader.name(1, 20, "granted condition")
        if version == 2:
            need(reader.number(2) <= MOST_FACTOR, "factor of a granted condition")
    properties = reader.number(1)
    need(properties <= 32, "count of properties")
    for _ in range(properties):
        property_(reader)
    reader.done()


def property_(reader):
    width = reader.number(1)
    need(1 <= width <= 30, "width")
    valued = reader.one_of((0, 1, 2), "state") == 0
    if valued:
        reader.name(1, width, "value", VALUE_BYTES)
    else:
        reader.name(0, 0, "value", VALUE_BYTES)


def texts(data):
    """The records of a text book: number, place of the text in the book (from 0), length of the text."""
    need(len(data) <= MOST_BYTES, "too long")
    reader = Reader(data)
    reader.head()
    found = []
    while reader.left() > 0:
        number = reader.number(4)
        length = reader.number(2)
        found.append((number, reader.at, length))
        reader.bytes(length)
    return found


def accepts(layout, data):
    try:
        layout(data)
    except Broken:
        return False
    return True


def why_not(layout, data):
    """Where the reading stops, or None for good bytes."""
    try:
        layout(data)
    except Broken as broken:
        return str(broken)
    return None


def text(asked, fallback, number):
    """The text call's answer: number, book, place, length."""
    try:
        books = [(ASKED, texts(asked)), (FALLBACK, texts(fallback))]
    except Broken:
        return (BROKEN_BOOK, 0, 0, 0)
    for which, records in books:
        for this, place, length in records:
            if this == number:
                return (0, which, place, length)
    return (NO_SUCH_TEXT, 0, 0, 0)


LAYOUTS = {"book": book, "question": question, "text_book": texts}
