"""Records that fill a book, or texts that fill a text book, of a given size."""
from __future__ import annotations

from rafttwine import Article

MOST_BYTES = 4_194_304


def texts_of(size: int) -> dict[int, bytes]:
    """Texts that fill a text book of a size: 63 with their heads of 6 bytes, and one in what is left."""
    return {**dict.fromkeys(range(63), bytes(65_530)), 64: bytes(size - 5 - 63 * 65_536 - 6)}


def articles_of(size: int) -> list[Article]:
    """Articles that fill a book of a size: 45 bytes each, and one in what is left."""
    count, left = divmod(size - 5, 45)
    return [Article("N" * 40)] * count + [Article("N" * (left - 5))]
