"""Lending: every contiguous buffer of bytes is read where it lies, is held as long as a call runs, and is given back."""
from __future__ import annotations

import array
import ctypes
import mmap
import pathlib
import tempfile
import threading
import tracemalloc
import unittest
from typing import Any, Iterator
from unittest import mock

from samples import ASKED, BOOK, CHOSEN, FALLBACK, PROPERTY_LIST, QUESTIONS, RELATION, TABLE, YEAR_END
from rafttwine import (Article, Refused, basket, book, calendar, calendar_list, derive, final_number, library, packaging, price,
                       price_derived, read_book, read_prices, read_property_list, read_question, read_text_book, text, text_names,
                       write_prices)

LARGE = book(*[Article("N" * 40)] * 90_000)
PRICES = b"A1;;S;B;1;table;1;1;EUR;20240101;20241231;0;"
ANYTHING = "bytes are wanted, or another contiguous buffer of bytes"


def mapped(content: bytes, access: int) -> mmap.mmap:
    with tempfile.TemporaryFile() as file:
        file.write(content)
        file.flush()
        return mmap.mmap(file.fileno(), len(content), access=access)


def lent(content: bytes) -> Iterator[tuple[str, Any]]:
    """The same bytes as each kind of buffer."""
    around = b"before" + content + b"behind"
    yield "bytearray", bytearray(content)
    yield "memoryview, read-only", memoryview(content)
    yield "memoryview, writable", memoryview(bytearray(content))
    yield "part of a memoryview", memoryview(around)[6:-6]
    yield "memoryview of signed bytes", memoryview(content).cast("b")
    yield "memoryview of two dimensions", memoryview(content).cast("B", (1, len(content)))
    yield "mmap, read-only", mapped(content, mmap.ACCESS_READ)
    yield "mmap, writable", mapped(content, mmap.ACCESS_COPY)
    yield "array of bytes", array.array("B", content)
    yield "array of ctypes", (ctypes.c_uint8 * len(content)).from_buffer_copy(content)


class LendingTest(unittest.TestCase):
    def test_each_call_takes_each_buffer(self) -> None:
        for call, name, *words in ((price, "june_oak"), (calendar, "calendar", YEAR_END), (calendar_list, "calendar", YEAR_END),
                                   (final_number, "padded"), (packaging, "carton")):
            answer = call(BOOK, QUESTIONS[name], *words)
            for (kind, one), (_, asked) in zip(lent(BOOK), lent(QUESTIONS[name])):
                with self.subTest(call.__name__, kind=kind):
                    self.assertEqual(call(one, asked, *words), answer)

    def test_relations_and_what_stands_beside_them_take_each_buffer(self) -> None:
        question = QUESTIONS["june"]
        priced, derived = price_derived(BOOK, question, CHOSEN, RELATION), derive(question, CHOSEN, RELATION)
        for (kind, one), *others in zip(lent(BOOK), lent(question), lent(PROPERTY_LIST), lent(RELATION)):
            buffers = [buffer for _, buffer in others]
            with self.subTest(kind):
                self.assertEqual(price_derived(one, *buffers), priced)
                self.assertEqual(derive(*buffers), derived)
                self.assertEqual(read_property_list(buffers[1]), read_property_list(PROPERTY_LIST))

    def test_a_basket_takes_a_list_of_buffers(self) -> None:
        due = basket(BOOK, [QUESTIONS["june_oak"], QUESTIONS["missing"]])
        for (kind, one), *asked in zip(lent(BOOK), lent(QUESTIONS["june_oak"]), lent(QUESTIONS["missing"])):
            with self.subTest(kind):
                self.assertEqual(basket(one, [buffer for _, buffer in asked]), due)

    def test_each_reader_takes_each_buffer(self) -> None:
        for read, content in ((read_book, BOOK), (read_question, QUESTIONS["june_oak"]), (read_text_book, ASKED),
                              (read_prices, PRICES), (text_names, PRICES), (write_prices, LARGE)):
            for kind, one in lent(content):
                with self.subTest(read.__name__, kind=kind):
                    self.assertEqual(read(one), read(content))

    def test_a_text_is_a_part_of_the_very_buffer(self) -> None:
        for (kind, asked), (_, fallback) in zip(lent(ASKED), lent(FALLBACK)):
            with self.subTest(kind):
                answer = text(asked, fallback, TABLE)
                self.assertEqual(bytes(answer.part), b"table")
                self.assertIs(answer.part.obj, asked.obj if isinstance(asked, memoryview) else asked)
        asked = bytearray(ASKED)
        part = text(asked, FALLBACK, TABLE).part
        asked[asked.index(b"table")] = ord("T")
        self.assertEqual(bytes(part), b"Table")

    def test_nothing_is_copied(self) -> None:
        for kind, one in lent(LARGE):
            with self.subTest(kind), self.assertRaises(Refused):
                tracemalloc.start()
                try:
                    price(one, QUESTIONS["june"])
                finally:
                    most = tracemalloc.get_traced_memory()[1]
                    tracemalloc.stop()
                    self.assertLess(most, len(LARGE) // 100)

    def test_the_library_reads_the_buffer_where_it_lies(self) -> None:
        buffer = bytearray(BOOK)
        seen: list[Any] = []
        real = library.function("packaging")
        with mock.patch.object(library, "function", lambda name: lambda *words: seen.extend(words) or real(*words)):
            packaging(buffer, QUESTIONS["carton"])
        self.assertEqual(seen[:2], [ctypes.addressof(ctypes.c_char.from_buffer(buffer)), len(buffer)])

    def test_held_while_the_call_runs_and_given_back_after_it(self) -> None:
        buffers = bytearray(BOOK), bytearray(QUESTIONS["carton"])
        real = library.function("packaging")

        def resized_meanwhile(*words: Any) -> Any:
            for buffer in buffers:
                with self.assertRaises(BufferError):
                    buffer.append(0)
            return real(*words)

        with mock.patch.object(library, "function", lambda name: resized_meanwhile):
            packaging(*buffers)
        for buffer in buffers:
            buffer.append(0)

    def test_given_back_after_a_refusal_and_after_a_wrong_type(self) -> None:
        buffer, numbers = bytearray(BOOK), array.array("I", [0])
        with self.assertRaises(Refused):
            price(buffer, b"")
        with self.assertRaises(TypeError):
            price(buffer, "june")
        with self.assertRaises(TypeError):
            price(buffer, numbers)
        buffer.append(0)
        numbers.append(0)

    def test_many_threads_over_one_buffer(self) -> None:
        buffer, asked = bytearray(BOOK), bytearray(QUESTIONS["june_oak"])
        answers: list[Any] = []
        threads = [threading.Thread(target=lambda: answers.extend(price(buffer, asked) for _ in range(50))) for _ in range(8)]
        for thread in threads:
            thread.start()
        for thread in threads:
            thread.join()
        self.assertEqual(answers, [price(BOOK, QUESTIONS["june_oak"])] * 400)

    def test_what_is_no_buffer_of_bytes(self) -> None:
        released, closed = memoryview(BOOK), mapped(BOOK, mmap.ACCESS_READ)
        released.release()
        closed.close()
        for wrong, kind, sentence in (
            ("desk.book", TypeError, f"price.book: {ANYTHING}, not the text 'desk.book'"),
            (pathlib.Path("desk.book"), TypeError, f"price.book: {ANYTHING}, not a {type(pathlib.Path()).__name__}"),
            (list(BOOK), TypeError, f"price.book: {ANYTHING}, not a list"),
            (memoryview(BOOK)[::2], TypeError, f"price.book: {ANYTHING}, and this memoryview is not contiguous"),
            (array.array("H", [1]), TypeError, f"price.book: {ANYTHING}, and the items of this array have 2 bytes"),
            (released, ValueError, "price.book: operation forbidden on released memoryview object"),
            (closed, ValueError, "price.book: mmap closed or invalid"),
        ):
            with self.subTest(sentence):
                with self.assertRaises(kind) as caught:
                    price(wrong, QUESTIONS["june"])
                self.assertEqual(str(caught.exception), sentence)
