"""Bytes damaged in many ways, and what the library says of them."""
from __future__ import annotations

import pathlib
from typing import Iterator

from rafttwine import Refusal, Refused, price, text

STORED = pathlib.Path("tests/cases/bad_input.txt")
# The least book and the least question.
NO_RECORD = bytes.fromhex("0000000501")
ANY_QUESTION = bytes.fromhex("00000015010141530000000134d6e5000000010000")
# Bytes at the bounds of the layouts' fields.
TELLING = (0, 1, 2, 3, 5, 6, 20, 21, 31, 32, 40, 41, 45, 64, 65, 66, 68, 80, 83, 88, 90, 91, 92, 126, 127, 128, 159, 160, 161, 255)


def accepts(layout: str, data: bytes) -> bool:
    """Whether the library takes the bytes for a book, a question or a text book."""
    ask, broken = {
        "book": (lambda: price(data, ANY_QUESTION), Refusal.BROKEN_BOOK),
        "question": (lambda: price(NO_RECORD, data), Refusal.BROKEN_QUESTION),
        "text_book": (lambda: text(data, data, 0), Refusal.BROKEN_BOOK),
    }[layout]
    try:
        ask()
    except Refused as refused:
        return refused.refusal is not broken
    return True


def changed(good: bytes) -> Iterator[bytes]:
    """One byte is another one."""
    for place, byte in enumerate(good):
        for other in (*TELLING, byte - 1 & 255, byte + 1 & 255):
            yield good[:place] + bytes([other]) + good[place + 1:]


def reshaped(good: bytes, record_length: bool) -> Iterator[bytes]:
    """A start of the bytes; a byte left out, or there twice. Then once more with the length of the whole put right, and that of the
    first record too, so that what stands behind is looked at."""
    for place in range(len(good)):
        for shaped in (good[:place], good[:place] + good[place + 1:], good[:place + 1] + good[place:]):
            yield shaped
            yield mended(shaped, record_length)


def mended(data: bytes, record_length: bool) -> bytes:
    data = len(data).to_bytes(4, "big") + data[4:]
    return data[:5] + (len(data) - 7).to_bytes(2, "big") + data[7:] if record_length and len(data) > 7 else data


def stored() -> Iterator[tuple[str, bool, bytes, str]]:
    """The stored cases of bad input: layout, whether they are one, bytes, words."""
    for line in STORED.read_text().splitlines():
        if line.startswith("case "):
            _, layout, good, parts, words = line.split(" ", 4)
            yield layout, good == "yes", b"" if parts == "empty" else b"".join(map(_part, parts.split("+"))), words


def _part(part: str) -> bytes:
    content, _, count = part.partition("*")
    return bytes.fromhex(content) * int(count or 1)
