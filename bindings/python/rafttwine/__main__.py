"""Lists the records of a price book, each with the byte at which it starts."""
from __future__ import annotations

import os
import sys
from dataclasses import fields
from enum import Enum

from .books import Record, read_records
from .packing import BrokenBytes
from .wholes import MOST_BYTES

USAGE = "usage: python3 -m rafttwine BOOK"
# Shown though it is the usual one: an amount is read with its currency.
ALWAYS = ("currency",)


def shown(record: Record) -> str:
    """The record's kind, and the fields that say something."""
    said = (f"{field.name}={word(getattr(record, field.name))}" for field in fields(record)
            if field.name in ALWAYS or getattr(record, field.name) != field.default)
    return " ".join([type(record).__name__, *said])


def word(value: object) -> str:
    if isinstance(value, Enum):
        return value.name
    return repr(value) if isinstance(value, str) else str(value)


def list_book(file: str) -> None:
    """Reads no more than shows that a file is too long for a book: some files never end."""
    with open(file, "rb") as opened:
        data = opened.read(MOST_BYTES + 1)
    for place, (start, record) in enumerate(read_records("book", data), 1):
        print(f"{place:6}  byte {start:7}  {shown(record)}")
    sys.stdout.flush()


def main(words: list[str]) -> int:
    if words in (["-h"], ["--help"]):
        print(f"{__doc__}\n{USAGE}")
        return 0
    if len(words) != 1:
        print(USAGE, file=sys.stderr)
        return 2
    sys.stdout.reconfigure(errors="backslashreplace")  # a terminal may lack a letter of Latin-1
    try:
        list_book(words[0])
    except BrokenPipeError:
        # Whoever read along has seen enough. What is still unwritten goes nowhere, or Python would complain at its end.
        os.dup2(os.open(os.devnull, os.O_WRONLY), sys.stdout.fileno())
    except OSError as error:
        print(f"{words[0]}: {error.strerror or error}", file=sys.stderr)
        return 1
    except BrokenBytes as broken:
        print(f"{words[0]}: no price book: {broken}", file=sys.stderr)
        return 1
    return 0


if __name__ == "__main__":
    sys.exit(main(sys.argv[1:]))
