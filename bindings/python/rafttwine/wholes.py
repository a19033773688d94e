"""A whole, be it a book, a question or a text book: its length and its version stand in front."""
from __future__ import annotations

from typing import Iterable, Optional, Sequence

from .checks import size
from .fields import Number
from .packing import Cursor, unsigned

VERSION = 1
MOST_BYTES = 4_194_304


def whole(where: str, parts: Iterable[bytes], version: int = VERSION) -> bytes:
    body = unsigned(version, 1) + b"".join(parts)
    size(where, 4 + len(body), 0, MOST_BYTES)
    return unsigned(4 + len(body), 4) + body


def opened(what: str, data: bytes, most: Optional[int] = MOST_BYTES, versions: Sequence[int] = (VERSION,)) -> Cursor:
    """Behind length and version, which are looked at."""
    cursor = Cursor(data)
    length = cursor.field(f"{what}.length", Number(4, 0, most))
    if length != len(data):
        raise cursor.broken(0, f"{what}.length: {length:,} bytes are said, and {len(data):,} are there")
    cursor.version = cursor.field(f"{what}.version", Number(1))
    if cursor.version not in versions:
        known = f"{' and '.join(map(str, versions))} {'is' if len(versions) == 1 else 'are'} known"
        raise cursor.broken(4, f"{what}.version: {cursor.version}, and only {known}")
    return cursor
