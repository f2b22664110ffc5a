"""The bytes of a buffer, for C, without a copy."""

from __future__ import annotations

import ctypes
import sys
from contextlib import contextmanager
from typing import TYPE_CHECKING, Any, Iterator, Protocol, Tuple, Union

if sys.version_info >= (3, 12):
    from collections.abc import Buffer

    WritableBuffer = Buffer
elif TYPE_CHECKING:
    import array
    import mmap

    class _Counted(Protocol):
        """An array of another package, such as numpy, which reports how many bytes it has."""

        @property
        def nbytes(self) -> int: ...

    WritableBuffer = Union[bytearray, memoryview, array.array[Any], ctypes.Array[Any], mmap.mmap, _Counted]
    Buffer = Union[bytes, WritableBuffer]
else:
    Buffer = WritableBuffer = Any


class _PyBuffer(ctypes.Structure):
    """A `Py_buffer` of the stable ABI."""

    _fields_ = [
        ("buf", ctypes.c_void_p), ("obj", ctypes.c_void_p), ("len", ctypes.c_ssize_t), ("itemsize", ctypes.c_ssize_t),
        ("readonly", ctypes.c_int), ("ndim", ctypes.c_int), ("format", ctypes.c_char_p), ("shape", ctypes.c_void_p),
        ("strides", ctypes.c_void_p), ("suboffsets", ctypes.c_void_p), ("internal", ctypes.c_void_p),
    ]


_GET, _RELEASE = ctypes.pythonapi.PyObject_GetBuffer, ctypes.pythonapi.PyBuffer_Release
_GET.argtypes = [ctypes.py_object, ctypes.POINTER(_PyBuffer), ctypes.c_int]
_RELEASE.argtypes = [ctypes.POINTER(_PyBuffer)]
_RELEASE.restype = None
_SIMPLE, _WRITABLE = 0, 1

_NEW_BYTES, _START = ctypes.pythonapi.PyBytes_FromStringAndSize, ctypes.pythonapi.PyBytes_AsString
_NEW_BYTES.argtypes, _NEW_BYTES.restype = [ctypes.c_void_p, ctypes.c_ssize_t], ctypes.py_object
_START.argtypes, _START.restype = [ctypes.py_object], ctypes.c_void_p


@contextmanager
def bytes_of(buffer: Buffer, writable: bool = False) -> Iterator[Tuple[int, int]]:
    """The address and the length of the bytes of any contiguous buffer (bytes, bytearray, memoryview, an array of numpy), not copied."""
    view = _PyBuffer()
    try:
        # Nothing is released of a view that was not got: it is all zero bytes.
        _GET(buffer, view, _WRITABLE if writable else _SIMPLE)
        # A buffer of no bytes may be at null, which the library is never given.
        yield view.buf or ctypes.addressof(view), view.len
    finally:
        _RELEASE(view)


def new_bytes(length: int) -> Tuple[bytes, int]:
    """New bytes, and their address, so that C fills them before anything else sees them: Python's way to make bytes without a copy."""
    made = _NEW_BYTES(None, length)
    return made, _START(made)
