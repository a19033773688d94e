"""Books, questions and text books read back: what is read packs to the same bytes, and what is read is what the library accepts."""
from __future__ import annotations

import pickle
import unittest
from datetime import date
from typing import Callable

import damage
from rafttwine import (Article, BrokenBytes, Cents, Factor, Granted, Level, NoDay, PackagingRow, Percent, PriceRow, Property,
                       Question, Rounding, Rule, Scheme, Sort, TextRow, Way, book, question, read_book, read_question,
                       read_text_book, text_book)

from samples import A1, ASKED, BOOK, FALLBACK, NUMBERED, PACKED, QUESTIONS, REFUSED, ROUNDED
from sizes import MOST_BYTES, articles_of, texts_of

KINDS = (
    Article("T\xfc100", "WOOD"),
    PriceRow("T100", Level.DISCOUNT, Percent("-3.33"), "OAK", Rule.OF_TOTAL_SO_FAR, Sort.PURCHASE, "USD", date(2024, 1, 1),
             NoDay(0), up_to=9, rounding=1, text=7),
    PriceRow("T100", Level.BASE, Cents(10_000)),
    Rounding(1, Way.COMMERCIAL, 5, -1, 1),
    PackagingRow("*", "OAK", width=800, volume=-26, net=0, items=2, length_unit="MMT", volume_unit="MTQ", weight_unit="KGM"),
    PackagingRow("T100"),
    Scheme("WOOD", " ", "_", True, None, "+", True),
)
ASKED_ABOUT = Question("T\xfc100", date(2024, 6, 30), 3, ("oak", "NIGHT BLUE"),
                       (Property(4, "OAK"), Property(2, hidden=True), Property(3)), Sort.PURCHASE, "EUR")
WITH_FACTORS = Question("T1", date(2024, 6, 30), granted=(Granted("oak", Factor("2.5")), Granted("NIGHT BLUE"),
                                                          Granted("edge", Factor(10))), properties=(Property(4, "OAK"),))
TEXTS = (TextRow(7, b"Table"), TextRow(7, b""), TextRow(2**32 - 1, bytes(range(256))))

PACKED_AGAIN: dict[str, Callable[[bytes], bytes]] = {
    "book": lambda data: book(*read_book(data)),
    "question": lambda data: read_question(data).packed(),
    "text_book": lambda data: text_book(read_text_book(data)),
}
# Over this the stored cases are about size alone; test_size has that.
MOST_STORED_BYTES = 100_000


class ReadingTest(unittest.TestCase):
    maxDiff = None

    def test_what_was_packed_is_read(self) -> None:
        self.assertEqual(read_book(book(*KINDS)), KINDS)
        self.assertEqual(read_book(BOOK), (*A1, *ROUNDED, *REFUSED, *NUMBERED, *PACKED))
        for asked in (ASKED_ABOUT, WITH_FACTORS, Question("A1", date.max, version=2)):
            self.assertEqual(read_question(asked.packed()), asked)
        self.assertEqual((ASKED_ABOUT.version, WITH_FACTORS.version), (1, 2))
        self.assertEqual(read_text_book(text_book(TEXTS)), TEXTS)
        self.assertEqual(read_question(question("A1", date.max, granted=["oak"])), Question("A1", date.max, granted=["oak"]))

    def test_what_was_read_packs_to_the_same_bytes(self) -> None:
        for layout, samples in (("book", (BOOK, book())), ("question", QUESTIONS.values()),
                                ("text_book", (ASKED, FALLBACK, text_book({})))):
            for data in samples:
                with self.subTest(layout):
                    self.assertEqual(PACKED_AGAIN[layout](data), data)

    def test_numbers_that_are_no_days_stay_in_a_book(self) -> None:
        good = book(Article("A1"), PriceRow("A1", Level.BASE, Cents(1), first=date(2024, 2, 29)))
        for number in (0, 20230229, 20241301, 20240100, 100000101, 2**32 - 1):
            data = good.replace((20240229).to_bytes(4, "big"), number.to_bytes(4, "big"))
            with self.subTest(number):
                self.assertEqual(read_book(data)[1].first, NoDay(number))
                self.assertEqual(PACKED_AGAIN["book"](data), data)
                self.assertTrue(damage.accepts("book", data))

    def agrees(self, layout: str, data: bytes) -> bool:
        """The reader reads the bytes if and only if the library accepts them, and packs them as they were."""
        good = damage.accepts(layout, data)
        try:
            self.assertEqual(PACKED_AGAIN[layout](data), data)
            self.assertTrue(good, data.hex())
        except BrokenBytes as broken:
            self.assertFalse(good, f"{broken}: {data.hex()}")
        return good

    def test_reader_and_library_agree_on_damaged_bytes(self) -> None:
        lone = [("book", book(kind), True) for kind in KINDS]
        for layout, whole, record_length in (*lone, ("question", ASKED_ABOUT.packed(), False),
                                             ("question", WITH_FACTORS.packed(), False),
                                             ("text_book", text_book(TEXTS[:2]), False)):
            with self.subTest(layout, whole=whole):
                good = [self.agrees(layout, data) for data in damage.changed(whole)]
                self.assertTrue(any(good) and not all(good))
                good = [self.agrees(layout, data) for data in damage.reshaped(whole, record_length)]
                self.assertFalse(all(good))

    def test_reader_and_library_agree_on_records_that_are_cut_and_shifted(self) -> None:
        self.assertFalse(all([self.agrees("book", data) for data in damage.reshaped(book(*KINDS), False)]))

    def test_reader_and_library_agree_on_the_stored_cases(self) -> None:
        tried = [(self.agrees(layout, data), good) for layout, good, data, _ in damage.stored() if len(data) < MOST_STORED_BYTES]
        self.assertGreater(len(tried), 1000)
        self.assertTrue(all(said == good for said, good in tried))

    def test_size(self) -> None:
        """A record more than the largest has, with the length put right, is too many for both."""
        for layout, largest, more in (("book", book(*articles_of(MOST_BYTES)), book(Article("A"))[5:]),
                                      ("text_book", text_book(texts_of(MOST_BYTES)), text_book({1: b""})[5:])):
            with self.subTest(layout):
                self.assertEqual(len(largest), MOST_BYTES)
                self.assertTrue(self.agrees(layout, largest))
                self.assertFalse(self.agrees(layout, damage.mended(largest + more, False)))


BROKEN: list[tuple[str, Callable[[bytes], object], bytes]] = [
    ("byte 0, book.length: 4 bytes should follow, and only 0 bytes can", read_book, b""),
    ("byte 0, book.length: 6 bytes are said, and 5 are there", read_book, bytes.fromhex("0000000601")),
    ("byte 4, book.version: 2, and only 1 is known", read_book, bytes.fromhex("0000000502")),
    ("byte 4, question.version: 3, and only 1 and 2 are known", read_question, bytes.fromhex("0000000503")),
    ("record 1, byte 5, record.length: 9 bytes should follow, and only 1 byte can", read_book, bytes.fromhex("0000000801000901")),
    ("record 1, byte 7, record.kind: 6 is out of range, 1 to 5 is allowed", read_book, bytes.fromhex("0000000801000106")),
    ("record 2, byte 16, Article.number: character 2 is '\\x7f' (U+007F), and only the printable characters of Latin-1 are allowed",
     read_book,
     book(Article("A1", "S"), Article("B2")).replace(b"B2", b"B\x7f")),
    ("record 1, byte 10, PriceRow.condition: 255 bytes should follow, and only 29 bytes can", read_book,
     book(PriceRow("A", Level.BASE, Cents(1))).replace(b"A\0", b"A\xff")),
    ("record 1, byte 12, PriceRow.level: the byte 67 stands for none of BASE, SURCHARGE, DISCOUNT", read_book,
     book(PriceRow("A", Level.BASE, Cents(1))).replace(b"SB", b"SC")),
    ("record 1, byte 18, PriceRow.value: Cents.amount: 100,000,001 is out of range, -100,000,000 to 100,000,000 is allowed",
     read_book, book(PriceRow("A", Level.BASE, Cents(100_000_000))).replace(b"\x05\xf5\xe1\0", b"\x05\xf5\xe1\1")),
    ("record 1, byte 12, PackagingRow.width: 1 stands there, and by its presence bit it is not known", read_book,
     book(PackagingRow("A")).replace(b"A\0\0" + bytes(4), b"A\0\0\0\0\0\1")),
    ("record 1, byte 44, PackagingRow.length_unit: it is missing, and width is given", read_book,
     book(PackagingRow("A", width=1, length_unit="CMT")).replace(b"CMT", bytes(3))),
    ("record 1, byte 11, Scheme.between_values: it is empty, and with trim values need something between them", read_book,
     book(Scheme("S"))[:-1] + b"\1"),
    ("record 1, byte 11, Article: 1 byte too many behind its last field", read_book, bytes.fromhex("0000000c010005010141000f")),
    ("byte 11, question.day: 20230229 is no day", read_question,
     question("A", date(2024, 2, 29)).replace((20240229).to_bytes(4, "big"), (20230229).to_bytes(4, "big"))),
    ("byte 24, question.granted: name 2: it is empty, and 1 to 20 bytes are allowed", read_question,
     bytes.fromhex("0000001a010141530000000134d6e50000000102") + b"\3OAK\0\0"),
    ("byte 24, Granted.factor: 10,001 thousandths, and at most 10,000 are allowed", read_question,
     bytes.fromhex("0000001b020141530000000134d6e50000000101") + b"\3OAK\x27\x11\0"),
    ("byte 24, Granted.factor: 2 bytes should follow, and only 1 byte can", read_question,
     bytes.fromhex("00000019020141530000000134d6e50000000101") + b"\3OAK\0"),
    ("byte 23, Property.value: the text 'OAK' stands there, and by its state the property has none", read_question,
     question("A", date.max, properties=[Property(3, "OAK")]).replace(b"\3\0\3OAK", b"\3\2\3OAK")),
    ("record 2, byte 15, TextRow.content: 5 bytes should follow, and only 1 byte can", read_text_book,
     bytes.fromhex("000000120100000007000000000008000541")),
]


class BrokenBytesTest(unittest.TestCase):
    maxDiff = None

    def test_each_says_record_byte_and_field(self) -> None:
        for sentence, read, data in BROKEN:
            with self.subTest(sentence):
                with self.assertRaises(BrokenBytes) as caught:
                    read(data)
                self.assertEqual(str(caught.exception), sentence)
                again = pickle.loads(pickle.dumps(caught.exception))
                self.assertEqual((str(again), again.record, again.byte), (sentence, caught.exception.record, caught.exception.byte))
