"""The calls of C."""

from __future__ import annotations

import ctypes
from pathlib import Path
from typing import Any

LIBRARY = ctypes.CDLL(str(Path(__file__).resolve().parent / "libmintlintel.so"), use_errno=True)


class Handle(ctypes.Structure):
    """Closed as all zero bytes."""

    _fields_ = [("at", ctypes.c_void_p), ("is_open", ctypes.c_uint64)]


class Numbers(ctypes.Structure):
    _fields_ = [(name, ctypes.c_uint32) for name in ("luns", "blocks", "pages", "words", "sectors", "endurance", "hosts", "brooms")]


class Totals(ctypes.Structure):
    _fields_ = [(name, ctypes.c_uint64) for name in ("programs", "copies", "erases")]


class Block(ctypes.Structure):
    _fields_ = [(name, ctypes.c_uint32) for name in ("erases", "live", "retired")]


class Page(ctypes.Structure):
    _fields_ = [(name, ctypes.c_uint32) for name in ("block", "generation")]


class State(ctypes.Structure):
    _fields_ = [(name, ctypes.c_uint32) for name in ("phase", "readers", "written", "erases")]


class BlockCounts(ctypes.Structure):
    _fields_ = [
        ("erases", ctypes.c_uint64),
        *((name, ctypes.c_uint32) for name in ("free", "open", "closed", "victims", "drained", "erasing", "retired", "spares")),
    ]


class Tally(ctypes.Structure):
    _fields_ = [(name, ctypes.c_uint64) for name in ("programs", "moved", "erases")]


class Collected(ctypes.Structure):
    _fields_ = [(name, ctypes.c_uint32) for name in ("freed", "kept", "restocked", "retired", "moved", "pinned")]


class Durable(ctypes.Structure):
    """The handle of a device that survives power cuts."""

    _fields_ = [("core", Handle), ("flash", ctypes.c_void_p)]


class Image(ctypes.Structure):
    """The handle of an image."""

    _fields_ = [("device", Durable), ("file", ctypes.c_void_p)]


class Reader(ctypes.Structure):
    """The handle of a reader."""

    _fields_ = [("search", Handle), ("of", ctypes.c_void_p), ("chip", ctypes.c_void_p)]


class DurableNumbers(ctypes.Structure):
    _fields_ = [(name, ctypes.c_uint32) for name in ("luns", "blocks", "pages", "page_bytes", "sectors")]


class ImageHead(ctypes.Structure):
    _fields_ = [("version", ctypes.c_uint32), ("numbers", DurableNumbers)]


def _of_chip(*arguments: Any) -> Any:
    """A function that puts its answer where the last argument points. ctypes returns anything for one that raises before its first statement."""
    return ctypes.CFUNCTYPE(None, ctypes.c_void_p, *arguments, ctypes.POINTER(ctypes.c_int))


_BLOCK, _AT = [ctypes.c_uint32], [ctypes.c_uint32, ctypes.c_uint32]
ANSWERING_TYPES = {
    "read": _of_chip(*_AT, ctypes.c_void_p, ctypes.c_void_p), "program": _of_chip(*_AT, ctypes.c_void_p, ctypes.c_void_p),
    "copyback": _of_chip(*_AT, *_AT, ctypes.c_void_p), "erase": _of_chip(*_BLOCK),
    "is_bad": _of_chip(*_BLOCK), "mark_bad": _of_chip(*_BLOCK), "sync": _of_chip(),
}


class Answering(ctypes.Structure):
    """Flash whose functions put their answers in place of 3, power gone."""

    _fields_ = [("chip", ctypes.c_void_p), *ANSWERING_TYPES.items()]


class Nand(ctypes.Structure):
    """Flash for an open, which C fills."""

    _fields_ = [(name, ctypes.c_void_p) for name in ("chip", *ANSWERING_TYPES)]


_HANDLE, _U32, _SIZE, _BYTES = ctypes.POINTER(Handle), ctypes.c_uint32, ctypes.c_size_t, ctypes.c_void_p
_NUMBERS = [_U32] * 6
_DURABLE, _IMAGE = ctypes.POINTER(Durable), ctypes.POINTER(Image)

_CALLS = {
    "one_open": [_HANDLE, *_NUMBERS],
    "one_close": [_HANDLE],
    "one_read": [_HANDLE, _U32, _BYTES, _SIZE],
    "one_write": [_HANDLE, _U32, _BYTES, _SIZE],
    "one_write_new": [_HANDLE, _U32, _BYTES, _SIZE],
    "one_trim": [_HANDLE, _U32],
    "one_counts": [_HANDLE, ctypes.POINTER(Totals)],
    "one_block": [_HANDLE, _U32, ctypes.POINTER(Block)],
    "one_numbers": [_HANDLE, ctypes.POINTER(Numbers)],
    "shared_open": [_HANDLE, _SIZE, _HANDLE, _SIZE, *_NUMBERS],
    "seat_close": [_HANDLE],
    "seat_numbers": [_HANDLE, ctypes.POINTER(Numbers)],
    "host_read": [_HANDLE, _U32, _BYTES, _SIZE],
    "host_write": [_HANDLE, _U32, _BYTES, _SIZE],
    "host_write_new": [_HANDLE, _U32, _BYTES, _SIZE],
    "host_trim": [_HANDLE, _U32],
    "host_look": [_HANDLE, _U32],
    "host_hold": [_HANDLE, _U32],
    "host_copy": [_HANDLE, _BYTES, _SIZE],
    "host_word": [_HANDLE, _U32, ctypes.POINTER(ctypes.c_uint64)],
    "host_held": [_HANDLE, ctypes.POINTER(Page)],
    "host_release": [_HANDLE],
    "broom_drain": [_HANDLE, ctypes.POINTER(_U32), ctypes.POINTER(_U32)],
    "broom_drain_next": [_HANDLE, ctypes.POINTER(_U32), ctypes.POINTER(_U32)],
    "broom_drain_dead": [_HANDLE, ctypes.POINTER(_U32), ctypes.POINTER(_U32)],
    "broom_erase": [_HANDLE, _U32],
    "broom_restock": [_HANDLE],
    "broom_block": [_HANDLE, _U32, ctypes.POINTER(State)],
    "broom_counts": [_HANDLE, ctypes.POINTER(BlockCounts)],
    "broom_tally": [_HANDLE, ctypes.POINTER(Tally)],
    "answering_nand": [ctypes.POINTER(Nand), ctypes.POINTER(Answering)],
    "durable_open": [_DURABLE, ctypes.POINTER(Nand), *[_U32] * 5],
    "durable_open_despite_losses": [_DURABLE, ctypes.POINTER(Nand), *[_U32] * 5, ctypes.POINTER(ctypes.c_uint64)],
    "durable_close": [_DURABLE],
    "durable_read": [_DURABLE, _U32, _BYTES, _SIZE],
    "durable_write": [_DURABLE, _U32, _BYTES, _SIZE],
    "durable_write_new": [_DURABLE, _U32, _BYTES, _SIZE],
    "durable_trim": [_DURABLE, _U32, _U32],
    "durable_flush": [_DURABLE],
    "durable_counts": [_DURABLE, ctypes.POINTER(Totals)],
    "durable_losses": [_DURABLE, ctypes.POINTER(ctypes.c_uint64)],
    "durable_block": [_DURABLE, _U32, ctypes.POINTER(Block)],
    "durable_numbers": [_DURABLE, ctypes.POINTER(DurableNumbers)],
    "reader_open": [ctypes.POINTER(Reader), _DURABLE],
    "reader_read": [ctypes.POINTER(Reader), _U32, _BYTES, _SIZE],
    "reader_close": [ctypes.POINTER(Reader)],
    "image_open": [_IMAGE, ctypes.c_char_p, *[_U32] * 6],
    "image_open_despite_losses": [_IMAGE, ctypes.c_char_p, *[_U32] * 6, ctypes.POINTER(ctypes.c_uint64)],
    "image_close": [_IMAGE],
    "image_look": [ctypes.c_char_p, ctypes.POINTER(ImageHead)],
    "image_copy": [_IMAGE, ctypes.c_char_p],
    "image_errno": [_IMAGE],
    "explain": [_U32, ctypes.POINTER(Numbers), ctypes.c_char_p, _SIZE],
    "nearest": [ctypes.POINTER(Numbers)],
    "collect": [_HANDLE, _U32, ctypes.POINTER(Collected)],
    "write_within": [_HANDLE, _U32, _BYTES, _SIZE, _U32],
}

_WITHOUT_CODE = ("one_close", "seat_close", "durable_close", "reader_close", "answering_nand", "explain", "nearest")

for _name, _arguments in _CALLS.items():
    _call = getattr(LIBRARY, f"mintlintel_{_name}")
    _call.argtypes = _arguments
    _call.restype = None if _name in _WITHOUT_CODE else _U32

LIBRARY.mintlintel_version.restype = ctypes.c_char_p
VERSION: str = LIBRARY.mintlintel_version().decode()

