"""Bounds of a question: its head, its fields, the granted conditions and their factors, the properties, and the calendar."""
from bounds import NAME_BYTES, TOP_32, capitals, file, length_field, names, numbers
from packer import article, book, number, property_, question, whole


def question_frame():
    file.sort("heads and lengths of questions")
    good = question(granted=[b"OAK"], properties=[property_()])
    file.case("question", False, "no byte at all", b"")
    file.case("question", False, "a head alone", whole([]))
    file.case("question", True, "the shortest", question(b"A"))
    file.choice("question", "version of a question", {1, 2}, lambda v: question(version=v))
    file.choice("question", "version where a condition has no factor", {1}, lambda v: with_version(question(granted=[b"OAK"]), v))
    file.choice("question", "version where a condition has a factor", {2},
                lambda v: with_version(question(granted=[(b"OAK", 1000)]), v))
    length_field("question", "length", good, 0, 4)
    length_field("question", "the shortest: length", question(b"A"), 0, 4)
    for more in (b"\0", b"\1", b"\0\0", b"\1\1\0", property_(), good):
        file.case("question", False, f"{len(more)} bytes {more[:3].hex()} behind the last property",
                  question(granted=[b"OAK"], properties=[property_()], behind=more))
        file.case("question", False, f"{len(more)} bytes {more[:3].hex()} behind the whole", good + more)
    file.case("question", False, "a book", book(article()))
    file.case("question", False, "an empty book", book())


def with_version(data, version):
    return data[:4] + bytes([version]) + data[5:]


def question_bounds():
    file.sort("fields of questions")
    names("question", "article", 1, 40, question)
    file.choice("question", "sort of a question", b"SP", lambda v: question(sort=bytes([v])))
    capitals("question", "currency", lambda c: question(currency=c))
    file.case("question", True, "no currency", question(currency=bytes(3)))
    for place in range(3):
        for byte in (1, 32, 65, 90):
            currency = bytes(place) + bytes([byte]) + bytes(2 - place)
            file.case("question", False, f"no currency but for {byte} at {place}", question(currency=currency))
    numbers("question", "quantity", (1, 2, 99_999, 100_000), (0, 100_001, 2 ** 31, 2 ** 31 + 1, TOP_32),
            lambda v: question(quantity=v))


def granted_bounds():
    file.sort("granted conditions")
    names("question", "the only condition", 1, 20, lambda n: question(granted=[n]))
    names("question", "the third condition", 1, 20, lambda n: question(granted=[b"A", b"B", n]))
    for count in (0, 1, 2, 31, 32, 33, 34, 255):
        some = [b"C%d" % i for i in range(count)]
        file.case("question", count <= 32, f"{count} conditions", question(granted=some))
    file.choice("question", "count of 32 conditions", {32}, lambda v: question(granted=[b"OAK"] * 32, granted_count=v))
    file.choice("question", "count of 33 conditions", (), lambda v: question(granted=[b"OAK"] * 33, granted_count=v))
    file.choice("question", "count of no conditions", {0}, lambda v: question(granted_count=v))
    file.case("question", True, "32 conditions of 20 bytes", question(granted=[b"C" * 20] * 32))


GOOD_FACTORS = (0, 1, 255, 256, 999, 1000, 1001, 9999, 10_000)
BAD_FACTORS = (10_001, 10_002, 10_239, 10_240, 2 ** 14, 2 ** 15 - 1, 2 ** 15, 2 ** 15 + 1000, 2 ** 16 - 1)


def factor_bounds():
    file.sort("factors of granted conditions")

    def of_version_2(*granted, **more):
        return question(granted=granted, version=2, **more)

    names("question", "the only condition with a factor", 1, 20, lambda n: of_version_2(n))
    names("question", "the second condition with a factor", 1, 20, lambda n: of_version_2((b"A", 0), (n, 10_000), b"B"))
    numbers("question", "the only factor", GOOD_FACTORS, BAD_FACTORS, lambda v: of_version_2((b"OAK", v)))
    for place in range(3):
        numbers("question", f"factor {place + 1} of three", GOOD_FACTORS, BAD_FACTORS,
                lambda v: of_version_2(*[(b"%dC" % i, v if i == place else 10_000) for i in range(3)], properties=[property_()]))
    numbers("question", "factor of a repeat", GOOD_FACTORS, BAD_FACTORS, lambda v: of_version_2((b"OAK", 500), (b"oak", v)))
    file.choice("question", "first byte of a factor", range(40), lambda v: of_version_2((b"OAK", bytes([v, 0]))))
    file.choice("question", "second byte of a factor", range(256), lambda v: of_version_2((b"OAK", bytes([38, v]))))
    file.choice("question", "second byte of the greatest factors", range(17), lambda v: of_version_2((b"OAK", bytes([39, v]))))
    for missing in (0, 1):
        file.case("question", False, f"{missing} of the two bytes of the last factor", of_version_2((b"OAK", bytes(missing))))
        file.case("question", False, f"{missing} of the two bytes of the first factor",
                  of_version_2((b"OAK", bytes(missing)), b"ASH", properties=[property_()]))
    file.case("question", False, "three bytes for a factor", of_version_2((b"OAK", bytes(3))))
    for count in (0, 1, 2, 31, 32, 33, 34, 255):
        file.case("question", count <= 32, f"{count} conditions with factors", of_version_2(*[b"C%d" % i for i in range(count)]))
    file.choice("question", "count of 32 conditions with factors", {32}, lambda v: of_version_2(*[b"OAK"] * 32, granted_count=v))
    file.choice("question", "count of no conditions in version 2", {0}, lambda v: of_version_2(granted_count=v))
    file.case("question", True, "the longest question of version 2",
              question(b"N" * 40, granted=[(b"C" * 20, 10_000)] * 32, properties=[property_(30, 0, b"V" * 30)] * 32, version=2))


def with_property(width, state, value):
    return question(properties=[property_(width, state, value)])


def property_bounds():
    file.sort("properties")
    for count in (0, 1, 2, 31, 32, 33, 34, 255):
        file.case("question", count <= 32, f"{count} properties", question(properties=[property_(1, 0, b"V")] * count))
    file.choice("question", "count of 32 properties", {32}, lambda v: question(properties=[property_()] * 32, property_count=v))
    file.choice("question", "count of 33 properties", (), lambda v: question(properties=[property_()] * 33, property_count=v))
    file.choice("question", "count of no properties", {0}, lambda v: question(property_count=v))
    file.case("question", True, "the longest question",
              question(b"N" * 40, granted=[b"C" * 20] * 32, properties=[property_(30, 0, b"V" * 30)] * 32))
    for length in (1, 2, 15, 29, 30, 31):
        file.choice("question", f"width over {length} bytes", {*range(length, 31)}, lambda v: with_property(v, 0, b"V" * length))
    file.choice("question", "width over an empty value", (), lambda v: with_property(v, 0, b""))
    file.choice("question", "width when hidden", {*range(1, 31)}, lambda v: with_property(v, 1, b""))
    file.choice("question", "width when unselected", {*range(1, 31)}, lambda v: with_property(v, 2, b""))
    for width in (1, 2, 15, 29, 30, 31):
        for length in sorted({0, 1, width - 1, width, width + 1, 255}):
            file.case("question", width <= 30 and 1 <= length <= width, f"width {width}, {length} bytes",
                      with_property(width, 0, b"V" * length))
    file.choice("question", "state with a value", {0}, lambda v: with_property(4, v, b"OAK"))
    file.choice("question", "state without a value", {1, 2}, lambda v: with_property(4, v, b""))
    value_bytes = NAME_BYTES - {32, 92, 160}
    file.choice("question", "a value of one byte", value_bytes, lambda v: with_property(3, 0, bytes([v])))
    file.choice("question", "first byte of a value", value_bytes, lambda v: with_property(3, 0, bytes([v]) + b"AB"))
    file.choice("question", "middle byte of a value", value_bytes, lambda v: with_property(3, 0, b"A" + bytes([v]) + b"B"))
    file.choice("question", "last byte of a value", value_bytes, lambda v: with_property(3, 0, b"AB" + bytes([v])))
    good, broken = property_(), property_(3, 0, b"OAKS")
    file.case("question", True, "each state once", question(properties=[good, property_(2, 1, b""), property_(3, 2, b"")]))
    for place in range(3):
        some = [broken if i == place else good for i in range(3)]
        file.case("question", False, f"property {place + 1} of three broken", question(properties=some))


MONTHS = (31, 28, 31, 30, 31, 30, 31, 31, 30, 31, 30, 31)
YEARS = {1: False, 4: True, 100: False, 400: True, 1582: False, 1900: False, 2000: True, 2023: False, 2024: True, 2100: False,
         9996: True, 9999: False}  # and whether they are leap years


def dates():
    file.sort("dates of questions")
    for year, leap in YEARS.items():
        for month, days in enumerate(MONTHS, 1):
            last = days + int(leap and month == 2)
            for day in (0, 1, 28, 29, 30, 31, 32):
                file.case("question", 1 <= day <= last, f"date {year:04}-{month:02}-{day:02}",
                          question(date=year * 10_000 + month * 100 + day))
        for month in (0, 13, 99):
            file.case("question", False, f"date {year:04}-{month:02}-01", question(date=year * 10_000 + month * 100 + 1))
    numbers("question", "date", (10_101, 99_991_231),
            (0, 1, 101, 1231, 10_000, 10_100, 99_991_232, 100_000_101, 100_010_101, 120_240_630,
             2 ** 31 - 1, 2 ** 31, 2 ** 32 - 20_240_630, TOP_32),
            lambda v: question(date=v))
    file.case("question", False, "date with its low byte first", question(date=number(20240630, 4)[::-1]))


PARTS = (question_frame, question_bounds, granted_bounds, factor_bounds, property_bounds, dates)
