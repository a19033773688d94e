"""Puts fields together to books, questions and text books, good ones unless a field given is bad: nothing is checked here.

A number given as `bytes` is put in as it stands; any other is written big-endian in its width.
"""

ALL_PRESENT = 0b11111111
UNITS = b"MMT" b"MTQ" b"KGM"
FACTOR = 1000


def number(value, width):
    if isinstance(value, bytes):
        return value
    return (value % (1 << 8 * width)).to_bytes(width, "big")


def name(value):
    return bytes([len(value)]) + value


def article(number_=b"T100", scheme=b"WOOD"):
    return b"\x01" + name(number_) + name(scheme)


def price(article_=b"T100", condition=b"OAK", sort=b"S", level=b"B", rule=1, text=7, fixed=1, value=10_000, currency=b"EUR",
          start=20240101, end=20241231, up_to=0, rounding_=0):
    return (b"\x02" + name(article_) + name(condition) + sort + level + number(rule, 1) + number(text, 4) + number(fixed, 1)
            + number(value, 4) + currency + number(start, 4) + number(end, 4) + number(up_to, 4) + number(rounding_, 2))


def rounding(number_=1, way=2, step=5, before=0, after=0):
    return b"\x03" + number(number_, 2) + number(way, 1) + number(step, 4) + number(before, 4) + number(after, 4)


def packaging(article_=b"T100", condition=b"", present=ALL_PRESENT, values=(800, 720, 45, 26, 2000, 15000, 2, 1), units=UNITS):
    return (b"\x04" + name(article_) + name(condition) + number(present, 1)
            + b"".join(number(value, 4) for value in values) + units)


def scheme(id_=b"WOOD", before=b" ", between=b"_", visibility=1, hidden=0, unselected=0, trim=1):
    return (b"\x05" + name(id_) + name(before) + name(between) + number(visibility, 1) + number(hidden, 1)
            + number(unselected, 1) + number(trim, 1))


def record(rest, length=None):
    return number(len(rest) if length is None else length, 2) + rest


def whole(parts, length=None, version=1):
    body = number(version, 1) + b"".join(parts)
    return number(4 + len(body) if length is None else length, 4) + body


def book(*rests, length=None, version=1):
    return whole([record(rest) for rest in rests], length, version)


def property_(width=4, state=0, value=b"OAK"):
    return number(width, 1) + number(state, 1) + name(value)


def condition(value, factor=FACTOR):
    """A granted condition of version 2: a name and its factor in thousandths."""
    return name(value) + number(factor, 2)


def question(article_=b"T100", sort=b"S", currency=b"EUR", date=20240630, quantity=1, granted=(), properties=(),
             granted_count=None, property_count=None, behind=b"", length=None, version=1):
    """Each of `granted` is a name, which gets FACTOR in version 2, or a `condition` given as a tuple of name and factor."""
    conditions = [condition(*one) if isinstance(one, tuple) else condition(one) if version == 2 else name(one) for one in granted]
    return whole([name(article_), sort, currency, number(date, 4), number(quantity, 4),
                  number(len(granted) if granted_count is None else granted_count, 1), *conditions,
                  number(len(properties) if property_count is None else property_count, 1), *properties, behind], length, version)


def text_record(number_, text, length=None):
    return number(number_, 4) + number(len(text) if length is None else length, 2) + text


def text_book(*records, length=None, version=1):
    return whole(records, length, version)
