#!/usr/bin/env python3
"""Writes the cases of tests/bad_input to standard output, the same bytes at every run:

    python3 -B tools/vectors/bad_input.py >tests/cases/bad_input.txt

Good strings are changed at every place, and what is accepted then is what layouts.py accepts. And each bound of the paper is tried at
the bound and one past it (book_cases.py, question_cases.py, text_cases.py); there the answer is also written by hand, and the two
must agree.
"""
import sys

import book_cases
import question_cases
import text_cases
from book_cases import KINDS
from bounds import HEAD, HEAD_LENGTH, TOP_32, file
from layouts import MOST_BYTES
from packer import article, book, number, price, property_, question, record, text_book, text_record

FIRST_RECORD = (2, 5, 7)  # the length fields of the first record in a book, and of the first text in a text book
FIRST_TEXT = (2, 9, 11)
QUESTIONS = ("question", "least-question", "question-of-version-2", "least-question-of-version-2")


def changed_everywhere():
    file.sort("good strings")
    for kind, rest in KINDS.items():
        file.string(kind, book(rest))
    file.string("five-kinds", book(*KINDS.values()))
    file.string("question", question(b"T\xfc100", granted=(b"oak", b"NIGHT BLUE"), properties=(
        property_(), property_(2, 1, b""), property_(3, 2, b""), property_(1, 0, b"\xd6"))))
    file.string("least-question", question(b"A", currency=bytes(3), date=10101, quantity=100_000))
    file.string("question-of-version-2", question(b"A", granted=((b"oak", 10_000), (b"NIGHT BLUE", 0), (b"Oak", 999)), version=2,
                                                  properties=(property_(), property_(2, 1, b""))))
    file.string("least-question-of-version-2", question(b"A", version=2))
    file.string("texts", text_book(text_record(7, b"Table"), text_record(0, b""), text_record(TOP_32, bytes(range(250, 256)))))
    file.string("one-text", text_book(text_record(7, b"Eiche\nhell")))

    for kind, words in (("cut", "cut off"), ("without", "with a byte taken out"), ("twice", "with a byte put in")):
        file.sort(f"books {words}")
        file.change(kind, "book", "five-kinds")
        file.change(kind, "book", "five-kinds", (HEAD,))
        for one in KINDS:  # with both lengths right, only the body can tell
            file.change(kind, "book", one, (HEAD, FIRST_RECORD))
        file.sort(f"questions {words}")
        for one in QUESTIONS:
            file.change(kind, "question", one)
            file.change(kind, "question", one, (HEAD,))
        file.sort(f"text books {words}")
        file.change(kind, "text_book", "texts")
        file.change(kind, "text_book", "texts", (HEAD,))
        file.change(kind, "text_book", "one-text", (HEAD, FIRST_TEXT))

    file.sort("books with one byte changed")
    file.each_byte("book", "five-kinds")
    file.sort("questions with one byte changed")
    for one in QUESTIONS:
        file.each_byte("question", one)
    file.sort("text books with one byte changed")
    file.each_byte("text_book", "texts")


def articles_of(size):
    """Article records that fill a size; one takes 6 to 65 bytes."""
    made = b""
    while size:
        take = size if size <= 65 else min(65, size - 6)
        made += record(article(b"N" * min(40, take - 5), b"S" * max(0, take - 45)))
        size -= take
    return made


def book_of(size, last=b""):
    """Pieces of a book of this size: long price rows, some articles to fill it, and a last record."""
    row = record(price(b"N" * 40, b"C" * 20))
    rows = (size - HEAD_LENGTH - 200) // len(row)
    return [number(size, 4) + b"\1", (row, rows), articles_of(size - HEAD_LENGTH - rows * len(row) - len(last)), last]


def text_book_of(size):
    """Pieces of a text book of this size: texts of number 7 as long as they come, and a last one of number 8 and 9 bytes."""
    last = text_record(8, b"last text")
    pieces, left = [number(size, 4) + b"\1"], size - HEAD_LENGTH - len(last)
    while left:
        length = min(65_535, left - 6 if left <= 65_541 else left - 12)
        pieces += [number(7, 4) + number(length, 2), (b"t", length)]
        left -= 6 + length
    return pieces + [last]


def sizes():
    file.sort("sizes")
    for size in (MOST_BYTES - 1, MOST_BYTES, MOST_BYTES + 1, MOST_BYTES + 2, 2 * MOST_BYTES):
        file.case("book", size <= MOST_BYTES, f"{size} bytes", *book_of(size))
        file.case("text_book", size <= MOST_BYTES, f"{size} bytes", *text_book_of(size))
    broken = record(article(b"\x7f", b""))
    file.case("book", False, f"{MOST_BYTES} bytes, only the last record broken", *book_of(MOST_BYTES, broken))
    file.case("book", False, f"{MOST_BYTES} bytes of 0", (b"\0", MOST_BYTES))
    file.case("text_book", True, f"{MOST_BYTES - 5} bytes, all texts empty",
              number(MOST_BYTES - 5, 4) + b"\1", (text_record(7, b""), (MOST_BYTES - 5 - HEAD_LENGTH) // 6))
    file.case("question", False, f"{MOST_BYTES} bytes under a question's head",
              number(MOST_BYTES, 4) + b"\1", (b"\1", MOST_BYTES - HEAD_LENGTH))
    file.string("largest-texts", *text_book_of(MOST_BYTES))
    file.string("too-large-texts", *text_book_of(MOST_BYTES + 1))
    file.text("at the end of the largest text book", "largest-texts", "german", 8, 0, 1, MOST_BYTES - 9, 9)
    file.text("the longest text, in the largest text book as fallback", "no-texts", "largest-texts", 7, 0, 2, 11, 65_535)
    file.text("in neither, both the largest", "largest-texts", "largest-texts", 9, 12)
    file.text("asked one byte too large", "too-large-texts", "german", 7, 1)
    file.text("fallback one byte too large", "german", "too-large-texts", 7, 1)


def main():
    for part in (changed_everywhere, *book_cases.PARTS, *question_cases.PARTS, *text_cases.PARTS, sizes):
        part()
    sys.stdout.write(file.whole())


if __name__ == "__main__":
    main()
