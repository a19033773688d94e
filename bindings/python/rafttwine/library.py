"""The shared library by ctypes: its structs and calls as include/rafttwine.h has them."""
from __future__ import annotations

from ctypes import CDLL, POINTER, Array, Structure, c_int64, c_size_t, c_uint8, c_uint32, c_uint64, c_void_p
from functools import lru_cache
from typing import Any

from .finding import found
from .lending import Buffer, borrow, give_back


class PriceAnswer(Structure):
    _fields_ = [("unit", c_int64), ("total", c_int64), ("lines", c_uint64), ("unused", c_uint32), ("unused_count", c_uint8),
                ("number", c_uint8), ("currency", c_uint8 * 3)]


class DerivedAnswer(Structure):
    _fields_ = [("unit", c_int64), ("total", c_int64), ("lines", c_uint64), ("place", c_uint64), ("unused", c_uint32),
                ("unused_count", c_uint8), ("number", c_uint8), ("currency", c_uint8 * 3)]


class CalendarAnswer(Structure):
    _fields_ = [("length", c_uint64), ("number", c_uint8)]


class Written(Structure):
    _fields_ = [("length", c_uint64), ("number", c_uint8)]


class Placed(Structure):
    _fields_ = [("length", c_uint64), ("place", c_uint64), ("number", c_uint8)]


class StretchRecord(Structure):
    _fields_ = [("first", c_uint32), ("last", c_uint32), ("unit", c_int64), ("refusal", c_uint8), ("currency", c_uint8 * 3)]


class PackagingAnswer(Structure):
    _fields_ = [("gross", c_int64), ("values", c_int64 * 8), ("number", c_uint8), ("present", c_uint8), ("units", c_uint8 * 9)]


class TextAnswer(Structure):
    _fields_ = [("place", c_uint64), ("length", c_uint64), ("number", c_uint8), ("book", c_uint8)]


# What is lent for reading, a number, and what is lent for writing.
READ = [c_void_p, c_size_t]
END = NUMBER = [c_uint32]
BYTES = [POINTER(c_uint8), c_size_t]
LIST = [POINTER(StretchRecord), c_size_t]

# What each call returns, and what it takes, by name.
CALLS: dict[str, tuple[Any, dict[str, list[Any]]]] = {
    "price": (PriceAnswer, {"book": READ, "question": READ, "lines": BYTES}),
    "basket": (Written, {"book": READ, "questions": READ, "out": BYTES}),
    "calendar": (CalendarAnswer, {"book": READ, "question": READ, "end": END, "out": BYTES}),
    "calendar_list": (CalendarAnswer, {"book": READ, "question": READ, "end": END, "out": LIST}),
    "final_number": (Written, {"book": READ, "question": READ, "out": BYTES}),
    "packaging": (PackagingAnswer, {"book": READ, "question": READ}),
    "text": (TextAnswer, {"asked": READ, "fallback": READ, "number": NUMBER}),
    "read_prices": (Placed, {"file": READ, "out": BYTES}),
    "write_prices": (Placed, {"book": READ, "out": BYTES}),
    "derive": (Placed, {"question": READ, "properties": READ, "relation": READ, "out": BYTES}),
    "price_derived": (DerivedAnswer, {"book": READ, "question": READ, "properties": READ, "relation": READ, "lines": BYTES}),
    "version": (c_uint32, {}),
}


@lru_cache(maxsize=None)
def library() -> CDLL:
    """The library, which is looked for when it is first needed."""
    return found(CALLS)


@lru_cache(maxsize=None)
def function(name: str) -> Any:
    call = getattr(library(), f"rafttwine_{name}")
    call.restype, taken = CALLS[name]
    call.argtypes = [one for kind in taken.values() for one in kind]
    return call


def call(name: str, *words: Any) -> Any:
    """Calls the library. What it reads and what it writes is handed over with its length behind it."""
    taken: list[Any] = []
    borrowed: list[Buffer] = []
    try:
        for (called, kind), word in zip(CALLS[name][1].items(), words):
            if type(word) is bytes or isinstance(word, Array) and kind is not READ:
                taken += (word, len(word))
            elif kind is READ:
                buffer = borrow(f"{name}.{called}", word)
                borrowed.append(buffer)
                taken += (buffer.address, buffer.length)
            else:
                taken.append(word)
        return function(name)(*taken)
    finally:
        for buffer in borrowed:
            give_back(buffer)
