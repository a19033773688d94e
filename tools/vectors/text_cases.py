"""Bounds of a text book, and the text call: the smallest case of each of its answers."""
from bounds import HEAD, HEAD_LENGTH, TOP_32, file, length_field, numbers
from case_file import mended
from packer import number, text_book, text_record, whole


def text_bounds():
    file.sort("text books")
    one = text_book(text_record(7, b"Table"))
    file.case("text_book", False, "no byte at all", b"")
    for count in range(1, 5):
        file.case("text_book", False, f"the first {count} bytes of an empty one", text_book()[:count])
    file.case("text_book", True, "an empty one", text_book())
    file.case("text_book", False, "an empty one, a byte behind it", text_book() + b"\0")
    file.choice("text_book", "version of a text book", {1}, lambda v: text_book(text_record(7, b"Table"), version=v))
    length_field("text_book", "empty: length", text_book(), 0, 4)
    length_field("text_book", "one text: length", one, 0, 4)
    length_field("text_book", "one text: text length", one, 9, 2)
    length_field("text_book", "last of two: text length", text_book(text_record(1, b""), text_record(7, b"Table")), 15, 2)
    for count in range(1, 6):
        for byte in (b"\0", b"\xff"):
            file.case("text_book", False, f"{count} bytes {byte.hex()} behind the last text",
                      whole([text_record(7, b"Table"), byte * count]))
    file.case("text_book", True, "six zeros behind the last text are an empty one", whole([text_record(7, b"Table"), bytes(6)]))
    file.case("text_book", False, "six zeros behind the whole", one + bytes(6))
    file.case("text_book", True, "a text of all 256 bytes", text_book(text_record(7, bytes(range(256)))))
    empty = text_record(8, b"")
    for there, told, more in ((65_535, 65_535, b""), (65_534, 65_535, b""), (65_535, 65_534, b""), (65_535, 65_535, empty)):
        file.case("text_book", there == told, f"{told} bytes told, {there} there, {len(more)} more",
                  number(HEAD_LENGTH + 6 + there + len(more), 4) + b"\1" + number(7, 4) + number(told, 2), (b"t", there), more)
    numbers("text_book", "text number", (0, 1, 2 ** 31 - 1, 2 ** 31, TOP_32), (), lambda v: text_book(text_record(v, b"t")))
    file.case("text_book", True, "one number twice", text_book(text_record(7, b"a"), text_record(7, b"b")))
    file.case("text_book", True, "numbers in falling order", text_book(text_record(9, b"a"), empty, text_record(7, b"b")))


def text_calls():
    file.sort("text calls")
    german = text_book(text_record(7, b"Tisch"), text_record(8, b"Stuhl"))
    file.string("german", german)
    file.string("english", text_book(text_record(8, b"chair"), text_record(7, b"table"), text_record(9, b"shelf")))
    file.string("no-texts", text_book())
    file.string("twice-7", text_book(text_record(3, b"x"), text_record(7, b"first"), text_record(7, b"second")))
    file.string("empty-first", text_book(text_record(7, b""), text_record(8, b"Stuhl")))
    file.string("empty-last", text_book(text_record(8, b"Stuhl"), text_record(7, b"")))
    file.string("ends", text_book(text_record(0, b"zero"), text_record(TOP_32, b"top")))
    file.string("nearly-7", text_book(text_record(7 << 24, b"a"), text_record(7 << 16, b"b"), text_record(256 + 7, b"c"),
                                      text_record(1, number(7, 4))))

    # A head takes 5 bytes, and a text stands 6 behind the start of its record.
    file.text("in asked alone", "german", "no-texts", 7, 0, 1, 11, 5)
    file.text("in asked alone, its second record", "german", "no-texts", 8, 0, 1, 22, 5)
    file.text("in fallback alone", "no-texts", "german", 7, 0, 2, 11, 5)
    file.text("in fallback alone, its last record", "german", "english", 9, 0, 2, 33, 5)
    file.text("in both: asked wins", "german", "english", 7, 0, 1, 11, 5)
    file.text("in both, the other way round: asked wins", "english", "german", 7, 0, 1, 22, 5)
    file.text("twice in asked: the first", "twice-7", "german", 7, 0, 1, 18, 5)
    file.text("twice in fallback: the first", "no-texts", "twice-7", 7, 0, 2, 18, 5)
    file.text("empty in asked: found", "empty-first", "german", 7, 0, 1, 11, 0)
    file.text("empty at the end of asked: found", "empty-last", "german", 7, 0, 1, 22, 0)
    file.text("empty at the end of fallback: found", "no-texts", "empty-last", 7, 0, 2, 22, 0)
    file.text("the least number", "ends", "german", 0, 0, 1, 11, 4)
    file.text("the greatest number", "german", "ends", TOP_32, 0, 2, 21, 3)
    file.text("one book lent as both", "german", "german", 8, 0, 1, 22, 5)
    file.text("in neither", "german", "english", 10, 12)
    file.text("in neither, no texts at all", "no-texts", "no-texts", 7, 12)
    file.text("the least number in neither", "no-texts", "german", 0, 12)
    file.text("numbers and texts that look like it", "nearly-7", "no-texts", 7, 12)

    broken = {"cut": german[:-1], "cut-and-mended": mended(german[:-1], [HEAD]), "nothing": b"", "four-bytes": number(4, 4),
              "version-2": text_book(text_record(7, b"Tisch"), version=2)}
    for name, data in broken.items():
        file.string(name, data)
        file.text(f"asked broken, {name}", name, "german", 7, 1)
        file.text(f"fallback broken though asked has it, {name}", "german", name, 7, 1)
        file.text(f"fallback broken, asked without texts, {name}", "no-texts", name, 7, 1)
        file.text(f"both broken, {name}", name, name, 7, 1)
        file.text(f"broken before in neither, {name}", "english", name, 99, 1)


PARTS = (text_bounds, text_calls)
