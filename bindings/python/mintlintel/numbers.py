"""The numbers of a device."""

from __future__ import annotations

import ctypes
import operator
from typing import Dict, NamedTuple, Tuple

from . import _library
from ._library import LIBRARY

_LARGEST = 2**32 - 1
_TEXT_BYTES = 512


class Numbers(NamedTuple):
    """The numbers that a device was made with. A device for one thread has no hosts and no brooms."""

    luns: int
    blocks: int
    pages: int
    words: int
    sectors: int
    endurance: int
    hosts: int
    brooms: int

    @classmethod
    def of(cls, report: _library.Numbers) -> Numbers:
        return cls(*(getattr(report, name) for name in cls._fields))

    @property
    def page_bytes(self) -> int:
        return 8 * self.words


def number(value: int) -> int:
    """A number for C: one that has no 32 bits is passed as the largest that has, which is past each limit. ctypes would pass the rest
    of a division by 2 to the 32."""
    whole = operator.index(value)
    return whole if 0 <= whole <= _LARGEST else _LARGEST


def taken(given: Dict[str, int]) -> Tuple[Numbers, Dict[str, int]]:
    """The numbers for C, and those that were given beyond 32 bits."""
    whole = {name: operator.index(value) for name, value in given.items()}
    numbers = Numbers(**{name: number(value) for name, value in whole.items()})
    return numbers, {name: value for name, value in whole.items() if value != getattr(numbers, name)}


def explained(code: int, numbers: Numbers, beyond: Dict[str, int]) -> str:
    """Why an open of these numbers returned this code: what was given, the limit, and what would do."""
    text = ctypes.create_string_buffer(_TEXT_BYTES)
    LIBRARY.mintlintel_explain(code, _library.Numbers(*numbers), text, _TEXT_BYTES)
    told = text.value.decode()
    for value in beyond.values():
        told = told.replace(str(_LARGEST), str(value), 1)
    return told


def nearest(numbers: Numbers) -> Numbers:
    """Numbers near these that a device can have."""
    report = _library.Numbers(*numbers)
    LIBRARY.mintlintel_nearest(report)
    return Numbers.of(report)
