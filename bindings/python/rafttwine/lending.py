"""Lending memory to the library: any contiguous buffer of bytes, where it lies, without a copy."""
from __future__ import annotations

from ctypes import POINTER, Structure, byref, c_char_p, c_int, c_ssize_t, c_void_p, py_object, pythonapi
from typing import Any, Union

from .checks import told

# What a call takes to read: bytes, or whatever lends a buffer of bytes, such as mmap.
Lent = Union[bytes, bytearray, memoryview, Any]
SIMPLE = 0  # PyBUF_SIMPLE: contiguous bytes, which need not be writable
WANTED = "bytes are wanted, or another contiguous buffer of bytes"


class Buffer(Structure):
    """A lent buffer as Python's C interface has it (Py_buffer)."""

    _fields_ = [("address", c_void_p), ("owner", c_void_p), ("length", c_ssize_t), ("item_size", c_ssize_t), ("read_only", c_int),
                ("dimensions", c_int), ("format", c_char_p), ("shape", POINTER(c_ssize_t)), ("strides", POINTER(c_ssize_t)),
                ("suboffsets", POINTER(c_ssize_t)), ("internal", c_void_p)]


_get, _release = pythonapi.PyObject_GetBuffer, pythonapi.PyBuffer_Release
_get.argtypes, _get.restype = [py_object, POINTER(Buffer), c_int], c_int
_release.argtypes, _release.restype = [POINTER(Buffer)], None


def borrow(where: str, value: Lent) -> Buffer:
    """The buffer of a value, which stays where it is until it is given back."""
    buffer = Buffer()
    try:
        _get(value, byref(buffer), SIMPLE)
    except BufferError:
        raise TypeError(f"{where}: {WANTED}, and this {type(value).__name__} is not contiguous") from None
    except TypeError:
        raise TypeError(f"{where}: {WANTED}, not {told(value)}") from None
    except ValueError as error:
        raise ValueError(f"{where}: {error}") from None
    if buffer.item_size != 1:
        size = buffer.item_size
        give_back(buffer)
        raise TypeError(f"{where}: {WANTED}, and the items of this {type(value).__name__} have {size} bytes")
    return buffer


def give_back(buffer: Buffer) -> None:
    _release(byref(buffer))


def part(value: Lent, place: int, length: int) -> memoryview:
    """A part of a lent buffer, which is not copied."""
    view = memoryview(value)
    return (view.cast("B") if view.ndim > 1 else view)[place:place + length]


def whole_bytes(where: str, value: Lent) -> bytes:
    """A buffer's bytes, to be looked at in Python."""
    if isinstance(value, bytes):
        return value
    give_back(borrow(where, value))
    return memoryview(value).tobytes()
