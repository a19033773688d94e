"""Bounds of a price book: its head, its records' lengths and kinds, and each field of the five kinds."""
from bounds import HEAD_LENGTH, NAME_BYTES, TOP_32, capitals, either_side, file, length_field, names, numbers
from packer import article, book, number, packaging, price, question, record, rounding, scheme, text_book, text_record, whole

KINDS = {
    "article": article(),
    "price": price(rounding_=1),
    "percentage": price(condition=b"", sort=b"P", level=b"D", rule=2, fixed=0, value=-333, start=0, end=20240230, up_to=9),
    "rounding": rounding(before=-1, after=-1),
    "packaging": packaging(values=(800, -720, 45, 26, 2000, 15000, 2, -1)),
    "sparse-packaging": packaging(b"*", b"OAK", 0b00100000, (0, 0, 0, 0, 0, 3000, 0, 0), bytes(6) + b"LBR"),
    "scheme": scheme(),
    "untrimmed-scheme": scheme(b"STEEL", b"", b"", 0, ord("+"), 0xFC, 0),
}


def book_frame():
    file.sort("heads, lengths and kinds of books")
    file.case("book", False, "no byte at all", b"")
    for count in range(1, 5):
        file.case("book", False, f"the first {count} bytes of an empty book", book()[:count])
        file.case("book", False, f"{count} bytes that say so", number(count, 4)[4 - count:])
    file.case("book", True, "an empty book", book())
    file.case("book", False, "an empty book, a byte behind it", book() + b"\0")
    file.case("book", False, "an empty book, a byte in it", whole([b"\0"]))
    file.case("book", False, "a record of length 0", whole([record(b"")]))
    file.choice("book", "version of an empty book", {1}, lambda v: book(version=v))
    file.choice("book", "version of a book", {1}, lambda v: book(article(), version=v))
    length_field("book", "empty: length", book(), 0, 4)
    length_field("book", "one article: length", book(article()), 0, 4)
    length_field("book", "all kinds: length", book(*KINDS.values()), 0, 4)
    for kind, rest in KINDS.items():
        length_field("book", f"{kind} alone: record length", book(rest), 5, 2)
        length_field("book", f"{kind} before another: record length", book(rest, scheme()), 5, 2)
        length_field("book", f"{kind} behind another: record length", book(scheme(), rest), HEAD_LENGTH + len(record(scheme())), 2)
        file.case("book", False, f"{kind}: a byte more in its body", book(rest + b"\0"))
        file.case("book", False, f"{kind}: a byte less in its body", book(rest[:-1]))
        file.case("book", False, f"{kind}: its body twice", book(rest + rest[1:]))
        file.case("book", False, f"{kind}: a record of 65,535 bytes",
                  number(HEAD_LENGTH + 2 + 65_535, 4) + b"\1\xff\xff" + rest, (b"\0", 65_535 - len(rest)))
        file.choice("book", f"kind over the body of {kind}", {rest[0]}, lambda v, rest=rest: book(bytes([v]) + rest[1:]))
    file.choice("book", "kind without a body", (), lambda v: book(bytes([v])))
    for more in (b"\0", b"\1", b"\0\0", b"\0\1", b"\0\1\1", b"\0\1\6", b"\0\0\0", b"\xff\xff", bytes(8)):
        file.case("book", False, f"{more.hex()} behind the last record", whole([record(article()), more]))
        file.case("book", False, f"{more.hex()} before the first record", whole([more, record(article())]))
        file.case("book", False, f"{more.hex()} behind the whole", book(article()) + more)
    file.case("book", True, "records in any order", book(*reversed(KINDS.values())))
    file.case("book", True, "records that repeat", book(*KINDS.values(), *KINDS.values()))
    file.case("book", False, "a broken record before good ones", book(article(b""), *KINDS.values()))
    file.case("book", False, "a broken record behind good ones", book(*KINDS.values(), article(b"")))
    file.case("book", False, "a question", question())
    file.case("book", False, "a text book", text_book(text_record(7, b"Table")))


def article_bounds():
    file.sort("articles")
    names("book", "article: number", 1, 40, lambda n: book(article(n)))
    names("book", "article: scheme", 0, 20, lambda n: book(article(scheme=n)))
    file.case("book", True, "article: *", book(article(b"*")))


def price_bounds():
    file.sort("prices")
    names("book", "price: article", 1, 40, lambda n: book(price(n)))
    names("book", "price: condition", 0, 20, lambda n: book(price(condition=n)))
    file.case("book", True, "price: * without a condition", book(price(b"*", b"")))
    file.choice("book", "price: sort", b"SP", lambda v: book(price(sort=bytes([v]))))
    file.choice("book", "price: level", b"BXD", lambda v: book(price(level=bytes([v]))))
    file.choice("book", "price: rule", {1, 2}, lambda v: book(price(rule=v)))
    file.choice("book", "price: fixed flag", {0, 1}, lambda v: book(price(fixed=v, value=1)))
    file.choice("book", "price: fixed flag over many cents", {1}, lambda v: book(price(fixed=v, value=100_001)))
    numbers("book", "price: cents", *either_side(100_000_000), lambda v: book(price(fixed=1, value=v)))
    numbers("book", "price: hundredths of a percent", *either_side(100_000), lambda v: book(price(fixed=0, value=v)))
    capitals("book", "price: currency", lambda c: book(price(currency=c)))
    file.case("book", False, "price: no currency", book(price(currency=bytes(3))))
    any_number = (0, 1, 2 ** 31 - 1, 2 ** 31, TOP_32)
    any_date = (*any_number, 101, 10101, 20230229, 20241301, 99991231, 100000101)
    numbers("book", "price: text number", any_number, (), lambda v: book(price(text=v)))
    numbers("book", "price: from date", any_date, (), lambda v: book(price(start=v)))
    numbers("book", "price: to date", any_date, (), lambda v: book(price(end=v)))
    file.case("book", True, "price: from after to", book(price(start=20241231, end=20240101)))
    numbers("book", "price: up-to quantity", (*any_number, 100_000, 100_001), (), lambda v: book(price(up_to=v)))
    numbers("book", "price: rounding number", (0, 1, 32_768, 65_535), (), lambda v: book(price(rounding_=v)))


def rounding_bounds():
    file.sort("roundings")
    numbers("book", "rounding: number", (1, 2, 255, 256, 32_768, 65_535), (0,), lambda v: book(rounding(v)))
    file.choice("book", "rounding: way", {0, 1, 2}, lambda v: book(rounding(way=v)))
    numbers("book", "rounding: step", (1, 2, 999_999, 1_000_000), (0, 1_000_001, 2 ** 31, TOP_32), lambda v: book(rounding(step=v)))
    numbers("book", "rounding: add before", *either_side(1_000_000), lambda v: book(rounding(before=v)))
    numbers("book", "rounding: add after", *either_side(1_000_000), lambda v: book(rounding(after=v)))


MEASURES = ("width", "height", "depth", "volume", "tare", "net", "items", "packs")
UNITS = {"length": (b"CMT", b"FOT", b"INH", b"MMT", b"MTR"), "volume": (b"INQ", b"LTR", b"MTQ"), "weight": (b"KGM", b"LBR", b"MGM")}
NEEDED_BY = {"length": {"width", "height", "depth"}, "volume": {"volume"}, "weight": {"tare", "net"}}


def packaging_bounds():
    file.sort("packagings")
    names("book", "packaging: article", 1, 40, lambda n: book(packaging(n)))
    names("book", "packaging: condition", 0, 20, lambda n: book(packaging(condition=n)))
    file.case("book", False, "packaging: * without a condition", book(packaging(b"*", b"")))
    file.case("book", True, "packaging: * with a condition", book(packaging(b"*", b"O")))
    file.case("book", True, "packaging: ** without a condition", book(packaging(b"**", b"")))
    file.case("book", True, "packaging: + without a condition", book(packaging(b"+", b"")))
    file.case("book", True, "packaging: condition * of an article", book(packaging(b"T100", b"*")))
    file.case("book", True, "packaging: nothing present, no unit", book(packaging(present=0, values=[0] * 8, units=bytes(9))))
    for i, what in enumerate(MEASURES):
        def alone(value, i=i):
            return [value if i == j else 0 for j in range(8)]
        own, others = 1 << i, 255 - (1 << i)
        good, bad = either_side(10_000_000 if i < 6 else 10_000)
        numbers("book", f"packaging: {what}", good, bad, lambda v: book(packaging(values=alone(v))))
        for value in (1, -1, 256, 65_536, 2 ** 24, -(2 ** 31)):
            file.case("book", False, f"packaging: {what} {value} under a clear bit",
                      book(packaging(present=others, values=alone(value))))
        file.case("book", True, f"packaging: {what} 0 under the only bit", book(packaging(present=own, values=[0] * 8)))
        file.case("book", True, f"packaging: {what} 0 under the only clear bit",
                  book(packaging(present=others, values=[int(i != j) for j in range(8)])))
        file.choice("book", f"packaging: presence with {what} of 1", {p for p in range(256) if p & own},
                    lambda v: book(packaging(present=v, values=alone(1))))


def unit_bounds():
    file.sort("units of packagings")
    for place, group in enumerate(UNITS):
        def packed(unit, present, place=place):
            units = [b"MMT", b"MTQ", b"KGM"]
            units[place] = unit
            return book(packaging(present=present, values=[0] * 8, units=b"".join(units)))
        for other, units in UNITS.items():
            for unit in units:
                file.case("book", other == group, f"{unit.decode()} for {group}, all present", packed(unit, 255))
                file.case("book", other == group, f"{unit.decode()} for {group}, nothing present", packed(unit, 0))
        needing = sum(1 << i for i, what in enumerate(MEASURES) if what in NEEDED_BY[group])
        file.choice("book", f"presence without a unit for {group}", {p for p in range(256) if not p & needing},
                    lambda v: packed(bytes(3), v))
        unit = UNITS[group][0]
        for wrong in (unit.lower(), unit[::-1], unit[:2] + b"\0", unit[:1] + bytes(2), b"\0" + unit[1:], bytes(2) + unit[2:],
                      b"   ", b"XXX", b"\0\0\1", b"\1\0\0"):
            file.case("book", False, f"{wrong.hex()} for {group}, nothing present", packed(wrong, 0))


def scheme_bounds():
    file.sort("schemes")
    names("book", "scheme: id", 1, 20, lambda n: book(scheme(n)))
    names("book", "scheme: number separator", 0, 8, lambda n: book(scheme(before=n)))
    names("book", "scheme: value separator", 0, 8, lambda n: book(scheme(between=n, trim=0)))
    file.choice("book", "scheme: visibility", {0, 1}, lambda v: book(scheme(visibility=v)))
    file.choice("book", "scheme: trim", {0, 1}, lambda v: book(scheme(trim=v)))
    file.choice("book", "scheme: hidden character", {0} | NAME_BYTES, lambda v: book(scheme(hidden=v, trim=0)))
    file.choice("book", "scheme: unselected character", {0} | NAME_BYTES, lambda v: book(scheme(unselected=v, trim=0)))
    # Under trim 1 the packer's own separator is _, and its characters are the defaults - and X.
    file.choice("book", "trim 1: hidden character", {0} | NAME_BYTES - {ord("_")}, lambda v: book(scheme(hidden=v)))
    file.choice("book", "trim 1: unselected character", {0} | NAME_BYTES - {ord("_")}, lambda v: book(scheme(unselected=v)))
    file.choice("book", "trim 1: only separator byte", NAME_BYTES - {ord("-"), ord("X")}, lambda v: book(scheme(between=bytes([v]))))
    file.choice("book", "trim 1: first of two separator bytes", NAME_BYTES, lambda v: book(scheme(between=bytes([v]) + b"-")))


def trim_rule():
    file.sort("the trim rule of schemes")
    for between in (b"", b"-", b"X", b"+", b"#", b" ", b"_", b"\xa0", b"--", b"XX", b"-X", b"++", b"+_", b"x", b"--------"):
        for hidden in (0, ord("+"), ord("-"), ord("X"), ord(" ")):
            for unselected in (0, ord("#"), ord("X"), ord("-"), 160):
                runs = (bytes([hidden]) if hidden else b"-", bytes([unselected]) if unselected else b"X")
                words = f"between '{between.hex()}', hidden {hidden}, unselected {unselected}"
                for visibility in (0, 1):
                    file.case("book", between != b"" and between not in runs, f"trim 1: {words}, visibility {visibility}",
                              book(scheme(b"W", b"", between, visibility, hidden, unselected, 1)))
                file.case("book", True, f"trim 0: {words}", book(scheme(b"W", b"", between, 1, hidden, unselected, 0)))


PARTS = (book_frame, article_bounds, price_bounds, rounding_bounds, packaging_bounds, unit_bounds, scheme_bounds, trim_rule)
