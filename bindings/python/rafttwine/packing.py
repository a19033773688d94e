"""How fields become bytes, and how bytes are read field by field."""
from __future__ import annotations

from typing import Any, Optional, Protocol

from .checks import counted


def unsigned(value: int, width: int) -> bytes:
    return value.to_bytes(width, "big")


def signed(value: int, width: int) -> bytes:
    return value.to_bytes(width, "big", signed=True)


def latin_1(text: str) -> bytes:
    return text.encode("latin-1")


def name(text: str) -> bytes:
    return unsigned(len(text), 1) + latin_1(text)


class Field(Protocol):
    """A kind of field: it checks a value, packs a checked one, and reads one back, which is then checked."""

    def check(self, where: str, value: Any) -> None: ...

    def packed(self, value: Any) -> bytes: ...

    def read(self, where: str, cursor: Cursor) -> Any: ...


class BrokenBytes(ValueError):
    """Bytes that are no book, question or text book: in which record, from 1 (None: in none), at which byte, from 0, and what is
    wrong there."""

    def __init__(self, record: Optional[int], byte: int, wrong: str) -> None:
        super().__init__(record, byte, wrong)
        self.record, self.byte, self.wrong = record, byte, wrong

    def __str__(self) -> str:
        place = f"byte {self.byte}" if self.record is None else f"record {self.record}, byte {self.byte}"
        return f"{place}, {self.wrong}"


class Cursor:
    """A place in bytes that are read field by field, up to an end: that of the bytes, or that of a record. `version` is that of the
    whole."""

    def __init__(self, data: bytes) -> None:
        self.data, self.at, self.end, self.version = data, 0, len(data), 1
        self.record: Optional[int] = None

    def take(self, count: int) -> bytes:
        start = self.at
        self.at = self.end_of(count)
        return self.data[start:self.at]

    def end_of(self, count: int) -> int:
        """Where so many bytes end that have to follow."""
        end = self.at + count
        if end > self.end:
            raise ValueError(f"{counted(count)} should follow, and only {counted(self.end - self.at)} can")
        return end

    def unsigned(self, width: int) -> int:
        return int.from_bytes(self.take(width), "big")

    def signed(self, width: int) -> int:
        return int.from_bytes(self.take(width), "big", signed=True)

    def field(self, where: str, field: Field) -> Any:
        """The next field, read and checked."""
        at = self.at
        try:
            value = field.read(where, self)
        except BrokenBytes:
            raise
        except ValueError as error:
            raise self.broken(at, f"{where}: {error}") from None
        try:
            field.check(where, value)
        except ValueError as error:
            raise self.broken(at, str(error)) from None
        return value

    def filled(self, where: str) -> None:
        """It is an error if something is left."""
        if self.at < self.end:
            raise self.broken(self.at, f"{where}: {counted(self.end - self.at)} too many behind its last field")

    def broken(self, at: int, wrong: str) -> BrokenBytes:
        return BrokenBytes(self.record, at, wrong)
